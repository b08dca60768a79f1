"""A line's fields."""
from canvas import BLUE, Canvas, GREEN, GREY, MUTED, ORANGE, RED, VIOLET, WHITE

CELL, LEFT, TOP = 25, 42, 128
FIELDS = ("batch", 8, VIOLET), ("index", 4, BLUE), ("count", 4, GREEN), ("kind", 2, RED), ("key", 8, ORANGE), ("value", 8, GREY)
KINDS = (
    ("from the primary", ("01", "puts a call with its minutes"), ("02", "removes a call"), ("00", "nothing has changed")),
    ("from the standby, as a request", ("10", "the line with this index is missing"), ("11", "the lines from this to that are missing"), ("12", "nothing is missing: complete")),
)


def meanings(fields):
    batch, index, count, kind, key, value = fields
    return f"batch {batch}", f"line {index}", f"of {count}", {1: "puts", 2: "drops"}[kind], f"call {key}", f"{value} minutes"


def digits(canvas, line, fields):
    place = 0
    for (name, width, colours), meaning in zip(FIELDS, meanings(fields)):
        x, wide = LEFT + CELL * place, CELL * width
        canvas.text(x + wide / 2, TOP - 12, name, anchor="middle", bold=True, size=13)
        for i in range(width):
            canvas.rect(x + CELL * i, TOP, CELL, 34, colours, radius=2)
            canvas.text(x + CELL * i + CELL / 2, TOP + 23, line[place + i], anchor="middle", mono=True, size=17)
        canvas.text(x + 2, TOP + 48, str(place), size=9, colour=MUTED)
        canvas.text(x + wide - 2, TOP + 48, str(place + width - 1), size=9, colour=MUTED, anchor="end")
        canvas.path(f"M{x + 3} {TOP + 54}v5h{wide - 6}v-5", stroke=colours[1])
        canvas.text(x + wide / 2, TOP + 77, meaning, anchor="middle", size=13)
        place += width
    x = LEFT + CELL * place
    canvas.rect(x, TOP, CELL, 34, WHITE, radius=2)
    canvas.text(x + CELL / 2, TOP + 22, "\\n", anchor="middle", mono=True, size=13, colour=MUTED)


def draw(records):
    line, *fields = records.one("line")
    canvas = Canvas("line", 960, 346, "A line of the link: 34 lower-case hexadecimal digits and a newline",
                    "This one carries a standby that holds nothing to one that holds call 3 with 31 minutes.")
    digits(canvas, line, [int(field) for field in fields])
    for column, (heading, *kinds) in enumerate(KINDS):
        x = LEFT + 440 * column
        canvas.text(x, 240, f"Kinds {heading}", bold=True, size=13)
        for row, (kind, meaning) in enumerate(kinds):
            canvas.rect(x, 254 + 26 * row, 34, 21, RED, radius=2)
            canvas.text(x + 17, 269 + 26 * row, kind, anchor="middle", mono=True, size=13)
            canvas.text(x + 44, 269 + 26 * row, meaning, size=13)
    return canvas
