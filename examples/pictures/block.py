"""A block's words."""
from canvas import BLUE, Canvas, GREEN, GREY, MUTED, VIOLET, WHITE
from trees import Trees
from words import FIELDS, Block

ROOM, ROOTS, BITS, NODES = VIOLET, BLUE, GREEN, GREY


def heading(canvas, y, colours, words, meaning):
    canvas.rect(28, y - 12, 14, 14, colours)
    canvas.text(50, y, words, bold=True, size=13)
    canvas.text(180, y, meaning, size=13, colour=MUTED)


def strip(canvas, block, y):
    """The parts of the block one after another, not to scale."""
    parts = (ROOM, 70, "N"), (ROOTS, 190, "16 roots"), (BITS, 150, "occupancy"), (NODES, 494, f"{block.n} nodes of 8 words")
    x = 28
    for colours, width, name in parts:
        canvas.rect(x, y, width, 30, colours)
        canvas.text(x + width / 2, y + 20, name, anchor="middle", size=13)
        x += width


def roots(canvas, block, y):
    heading(canvas, y, ROOM, "word 0", f"N, the number of nodes: {block.n}")
    heading(canvas, y + 32, ROOTS, "words 1 to 16", "the root of each version, 0 for empty")
    for version, root in enumerate(block.roots):
        x = 50 + 46 * version
        canvas.rect(x, y + 46, 46, 28, ROOTS if root else WHITE)
        canvas.text(x + 23, y + 65, str(root), anchor="middle", mono=True, size=14)
        canvas.text(x + 23, y + 88, str(version), anchor="middle", size=10, colour=MUTED)
    canvas.text(50 + 46 * 16 + 10, y + 88, "version", size=10, colour=MUTED)


def occupancy(canvas, block, y):
    heading(canvas, y, BITS, "word 17", f"one bit a node, set where it is occupied; here {block.words[17]}")
    for node in range(1, block.n + 1):
        x = 50 + 23 * (node - 1)
        canvas.rect(x, y + 14, 23, 23, BITS if block.occupied(node) else WHITE)
        canvas.text(x + 11.5, y + 30, "1" if block.occupied(node) else "0", anchor="middle", mono=True, size=12)
        canvas.text(x + 11.5, y + 51, str(node), anchor="middle", size=9, colour=MUTED)
    canvas.text(50 + 46 * 16 + 10, y + 51, "node", size=10, colour=MUTED)


def nodes(canvas, block, y):
    last = max(node for node in range(1, block.n + 1) if block.occupied(node))
    heading(canvas, y, NODES, f"words {block.first} on", "eight words a node; a free node is eight zeros, and the lowest free number is used next")
    canvas.text(142, y + 28, "from word", size=10, colour=MUTED, anchor="end")
    for i, field in enumerate(FIELDS):
        canvas.text(150 + 52 * i + 26, y + 28, field, anchor="middle", size=10, colour=MUTED)
    for node in range(1, last + 1):
        top = y + 36 + 27 * (node - 1)
        canvas.text(50, top + 18, f"node {node}", size=12)
        canvas.text(142, top + 18, f"{block.at(node)}", size=10, colour=MUTED, anchor="end")
        for i, word in enumerate(block.node(node).values()):
            canvas.rect(150 + 52 * i, top, 52, 27, NODES if block.occupied(node) else WHITE)
            canvas.text(150 + 52 * i + 26, top + 18, str(word), anchor="middle", mono=True, size=13)
    canvas.text(50, y + 36 + 27 * last + 20, f"nodes {last + 1} to {block.n} are free: words {block.at(last + 1)} to {len(block.words) - 1} are 0", colour=MUTED)


def draw(records):
    block = Block(records.numbers("block"))
    canvas = Canvas("block", 960, 664, "A block is one slice of 32-bit words, lent by the host",
                    f"N = {block.n}, {len(block.words)} words. Version 0 holds calls 1 to 4 with ten minutes for each number; in version 1 call 4 has dropped.")
    strip(canvas, block, 80)
    roots(canvas, block, 146)
    occupancy(canvas, block, 270)
    nodes(canvas, block, 362)
    trees = Trees(block, 618, 490, 58, 56)
    trees.draw(canvas, lambda node: (str(block.node(node)["key"]), f"node {node}"), width=50, height=34)
    trees.root(canvas, 0, 44)
    trees.root(canvas, 1, 72)
    canvas.text(604, 642, "the same words as two trees: call and node", colour=MUTED)
    return canvas
