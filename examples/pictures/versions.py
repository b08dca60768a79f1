"""Two versions that share nodes, before and after an edit."""
from canvas import BLUE, Canvas, GREY, ORANGE, RULE
from trees import Trees
from words import Block


def draw(records):
    before, after = (Block(records.numbers(name)) for name in ("before", "after"))
    old, new = records.numbers("held")
    canvas = Canvas("versions", 960, 762, "A call drops in version 1, and version 0 stays as it was",
                    "The same block before and after ksk_remove(block, words, 1, 0, 42, ...). Each node is a call and the minutes it holds.")
    trees = Trees(after, 58, 490, 65, 68)
    first = Trees(before, 58, 150, 65, 68, trees.columns)
    label = lambda block: lambda node: (str(block.node(node)["key"]), f"{block.node(node)['value']} min")
    first.draw(canvas, label(before))
    first.root(canvas, 0, 44)
    canvas.text(28, 96, "before", bold=True, size=14)
    canvas.text(932, 96, f"version 0 holds {old} minutes in {len(first.nodes())} nodes", anchor="end")
    canvas.line(28, 390, 932, 390, RULE, 1)
    trees.draw(canvas, label(after))
    trees.root(canvas, 0, 44)
    trees.root(canvas, 1, 44)
    canvas.text(28, 416, "after", bold=True, size=14)
    shared = [node for node in trees.nodes() if trees.kind(node) is GREY]
    made = [node for node in trees.nodes() if trees.kind(node) is ORANGE]
    canvas.text(932, 416, f"version 0 still holds {old} minutes, version 1 holds {new}", anchor="end")
    kept = len(trees.nodes()) - len(shared) - len(made)
    canvas.legend(28, 740, [(BLUE, f"version 0 alone ({kept})"), (GREY, f"shared by both ({len(shared)})"), (ORANGE, f"made by the edit, version 1 alone ({len(made)})")])
    return canvas
