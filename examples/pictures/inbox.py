"""An inbox filling up out of order."""
from canvas import BLUE, Canvas, GREEN, GREY, MUTED, ORANGE, RED, RULE, WHITE

LEFT, CELL, TOP, ROW = 340, 46, 132, 30
MISSING, HOLDS = LEFT + 8 * CELL + 60, LEFT + 8 * CELL + 160


def requested(lines):
    """The indexes that a request asks for, and the request in words; none for complete."""
    asked, words = [], []
    for line in lines:
        kind, first, last = line[16:18], int(line[18:26], 16), int(line[26:34], 16)
        if kind == "10":
            asked.append(first)
            words.append(str(first))
        elif kind == "11":
            asked.extend(range(first, last + 1))
            words.append(f"{first} to {last}")
    return asked, " and ".join([", ".join(words[:-1])] * (len(words) > 1) + words[-1:])


def head(canvas, carried):
    for index, (kind, call, _) in enumerate(carried):
        x = LEFT + CELL * index + CELL / 2
        canvas.text(x, TOP - 32, str(index), anchor="middle", bold=True, size=13)
        canvas.text(x, TOP - 14, f"{'put' if kind == 1 else 'drop'} {call}", anchor="middle", size=10, colour=MUTED)
    canvas.text(28, TOP - 32, "line", bold=True, size=13)
    canvas.text(28, TOP - 14, "what it does with which call", size=10, colour=MUTED)
    canvas.text(MISSING, TOP - 32, "missing", anchor="middle", bold=True, size=13)
    canvas.text(HOLDS, TOP - 32, "standby holds", anchor="middle", bold=True, size=13)


def row(canvas, y, label, missing, holds):
    canvas.text(28, y + 19, label, size=13)
    canvas.text(MISSING, y + 19, missing, anchor="middle", mono=True, size=13)
    canvas.text(HOLDS, y + 19, holds, anchor="middle", size=13)


def cells(canvas, y, bits, marks):
    """The heard bits; a mark is a colour and a sign at an index."""
    for index in range(8):
        x = LEFT + CELL * index
        heard = bits >> index & 1
        colours, sign = marks.get(index, (BLUE if heard else WHITE, ""))
        canvas.rect(x + 2, y + 2, CELL - 4, ROW - 5, colours, stroke=1.8 if index in marks else 1)
        canvas.text(x + CELL / 2, y + 19, sign, anchor="middle", size=13, bold=True)


def heard(canvas, y, fields):
    index, how, answer, again, missing, holds, bits = fields
    index, answer, again = int(index), int(answer), int(again)
    if answer:
        label, mark = f"line {index} {how}: refused, {answer}", (RED, "×")
    elif again:
        label, mark = f"line {index} {how} again: no change", (GREY, "=")
    else:
        label, mark = f"line {index} {how}", (ORANGE, "+")
    row(canvas, y, label, missing, f"{holds} min")
    cells(canvas, y, int(bits), {index: mark})
    return int(bits), missing, holds


def steps(records):
    """Heard lines and requests in their order; the lines of one request together."""
    found = []
    for name, *fields in records.all:
        if name == "heard":
            found.append(("heard", fields))
        elif name == "asked":
            if found[-1][0] != "asked":
                found.append(("asked", []))
            found[-1][1].append(fields[0])
    return found


def draw(records):
    before, after = records.numbers("sent")
    story = steps(records)
    height = TOP + ROW * (len(story) + 1) + 92
    canvas = Canvas("inbox", 960, height, "Eight lines reach the standby late, twice, damaged or not at all",
                    "Its inbox marks what it has heard. It asks for the rest, and is complete exactly when every line has been accepted.")
    head(canvas, [[int(x) for x in fields] for fields in records.every("carries")])
    y, bits, missing, holds = TOP, 0, "?", str(before)
    row(canvas, y, "begin: the count is not known yet", missing, f"{holds} min")
    cells(canvas, y, 0, {})
    for name, fields in story:
        y += ROW
        if name == "heard":
            bits, missing, holds = heard(canvas, y, fields)
            continue
        asked, words = requested(fields)
        row(canvas, y, f"asks for {words}, in {len(fields)} lines" if asked else "says complete, in 1 line", missing, f"{holds} min")
        cells(canvas, y, bits, {index: (GREEN, "?") for index in asked})
    y += ROW
    canvas.line(28, y + 8, 932, y + 8, RULE, 1)
    if records.one("agree") != ["1"]:
        raise ValueError("the two sites do not agree")
    canvas.text(28, y + 32, f"The primary held {before} minutes before the change and holds {after} after it. At the end both sites hold the same calls and minutes.", size=13)
    canvas.legend(28, y + 62, [(ORANGE, "accepted now"), (BLUE, "accepted before"), (GREY, "a repeat"), (RED, "refused"), (GREEN, "asked for")])
    return canvas
