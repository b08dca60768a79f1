"""The way of a call through the crates: ksk_insert, as the code has it. It refuses a step that the code does not make."""
import re

from canvas import BLUE, Canvas, GREEN, GREY, INK, MUTED, ORANGE, RULE, VIOLET, WHITE

LANES = "host", "switch", "table", "audit", "tree", "block"
LEFT, BETWEEN, TOP, STEP, NOTES = 64, 92, 134, 38, 612
# Each part has a colour and its steps: from which function of which crate to which other, and what comes of it.
PARTS = (
    ("The call", GREY, (
        ("host", "", "switch", "ksk_insert", "The host lends block and fields."),
        ("switch", "ksk_insert", "table", "insert", "An export is one call of a crate below."))),
    ("The checks: the first that fails is the answer", ORANGE, (
        ("table", "insert", "table", "admit", "Versions above 15 are 3; then a value of 0 is 13."),
        ("table", "admit", "audit", "check", "The block's length and N: 1. All its words: 2."))),
    ("The rule, on node numbers", GREEN, (
        ("table", "insert", "block", "makes_from", "The lowest free node. What is made lies from here on."),
        ("table", "insert", "tree", "find", "The old value, and whether the key is new."),
        ("table", "insert", "tree", "insert", "Down to the key and back, by document 01's rules."),
        ("tree", "insert", "block", "take_apart", "A node of the way; one that the call made is free again."),
        ("tree", "insert", "block", "make", "A new node, or Full where none is free."))),
    ("The end", VIOLET, (
        ("table", "insert", "block", "settle", "Full: the nodes made are emptied, 5."),
        ("block", "settle", "block", "finish", "A node: it is the root, and the old root is given up."),
        ("block", "finish", "block", "sweep", "What was made and is not named is emptied."))),
)


def bodies(root, crate, function):
    """The bodies of a crate's functions of this name."""
    text = "\n".join(file.read_text(encoding="utf-8") for file in sorted((root / "crates" / crate / "src").glob("**/*.rt")))
    return re.findall(rf"\bfn {function}\(.*?\n\{{\n(.*?)\n\}}\n", text + "\n", flags=re.S)


def check(root, one, caller, other, called):
    if not bodies(root, other, called):
        raise ValueError(f"call: crate {other} has no function {called}")
    if caller and not any(re.search(rf"\b{called}\(", body) for body in bodies(root, one, caller)):
        raise ValueError(f"call: {caller} of crate {one} does not call {called}")


def step(canvas, y, one, other, called, note, colours):
    x1, x2 = (LEFT + BETWEEN * LANES.index(lane) for lane in (one, other))
    if one == other:
        canvas.path(f"M{x1} {y - 8}h22v14h-14", stroke=colours[1])
        canvas.path(f"M{x1 + 2} {y + 6}L{x1 + 9} {y + 2.5}L{x1 + 9} {y + 9.5}Z", stroke="none", fill=colours[1])
        canvas.text(x1 + 27, y + 4, called, mono=True)
    else:
        canvas.arrow(x1, y, x2, y, stroke=colours[1])
        canvas.text(x2 - 10, y - 6, called, anchor="end", mono=True)
    canvas.text(NOTES, y + 3, note, size=11, colour=MUTED)


def draw(root):
    for _, _, steps in PARTS:
        for one, caller, other, called, _ in steps:
            check(root, one, caller, other, called)
    end = TOP + sum(30 + STEP * len(steps) for _, _, steps in PARTS)
    canvas = Canvas("call", 960, end + 66, "The way of a call: an insert, from the host to the block and back",
                    "Each arrow is a call of a function in the crate that it leads to. The other edits go the same way, each with its own rule.")
    for i, lane in enumerate(LANES):
        x = LEFT + BETWEEN * i
        canvas.line(x, TOP - 22, x, end + 34, stroke=RULE, dash="4 4")
        canvas.rect(x - 36, TOP - 50, 72, 28, WHITE if lane == "host" else BLUE)
        canvas.text(x, TOP - 31, lane, anchor="middle", mono=lane != "host", size=13)
    y = TOP
    for name, colours, steps in PARTS:
        canvas.rect(18, y, 924, 24 + STEP * len(steps), (colours[0], "none"), radius=6)
        for i in range(len(LANES)):
            canvas.line(LEFT + BETWEEN * i, y, LEFT + BETWEEN * i, y + 24 + STEP * len(steps), stroke=RULE, dash="4 4")
        canvas.text(NOTES, y + 19, name, size=12, bold=True, colour=INK)
        for i, (one, _, other, called, note) in enumerate(steps):
            step(canvas, y + 46 + STEP * i, one, other, called, note, colours)
        y += 30 + STEP * len(steps)
    canvas.arrow(LEFT + 2 * BETWEEN, y + 22, LEFT, y + 22)
    canvas.text(LEFT + 10, y + 16, "number, had, old", mono=True)
    canvas.text(NOTES, y + 25, "0, or the number of the refusal.", size=11, colour=MUTED)
    return canvas
