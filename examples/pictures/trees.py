"""The trees of versions 0 and 1 of a block: a column for each call, old node and new one of a call side by side, shared nodes once."""
from canvas import BLUE, GREY, INK, MUTED, ORANGE

KINDS = {(True, False): BLUE, (False, True): ORANGE, (True, True): GREY}


class Trees:
    """Where the nodes of both versions stand; `left`, `top` and the two steps are in pixels."""

    def __init__(self, block, left, top, across, down, columns=None):
        self.block, self.across, self.down = block, across, down
        self.depths = [block.depths(0), block.depths(1)]
        self.columns = columns or self.order()
        self.places = {}
        for node in self.nodes():
            depth = self.depths[0].get(node, self.depths[1].get(node))
            self.places[node] = left + across * self.columns.index(node), top + down * depth

    def nodes(self):
        return sorted(self.depths[0].keys() | self.depths[1].keys())

    def order(self):
        """By call; of two nodes for one call version 0's stands left."""
        return sorted(self.nodes(), key=lambda node: (self.block.node(node)["key"], node not in self.depths[0]))

    def kind(self, node):
        return KINDS[node in self.depths[0], node in self.depths[1]]

    def edges(self, canvas):
        for node in sorted(self.nodes(), key=lambda node: self.kind(node) is not GREY):
            for side in "left", "right":
                child = self.block.node(node)[side]
                if child:
                    (x1, y1), (x2, y2) = self.places[node], self.places[child]
                    middle = (y1 + y2) / 2
                    canvas.path(f"M{x1:.1f} {y1:.1f}C{x1:.1f} {middle:.1f} {x2:.1f} {middle:.1f} {x2:.1f} {y2:.1f}", stroke=self.kind(node)[1], width=1.8)

    def root(self, canvas, version, above):
        """A tag with an arrow to the version's root."""
        x, y = self.places[self.block.roots[version]]
        colours = ORANGE if version else BLUE
        canvas.rect(x - 30, y - above - 10, 60, 20, colours, radius=10)
        canvas.text(x, y - above + 4, f"version {version}", anchor="middle", bold=True, size=10)
        canvas.arrow(x, y - above + 10, x, y - 18, colours[1])

    def draw(self, canvas, labels, width=54, height=36):
        self.edges(canvas)
        for node in self.nodes():
            x, y = self.places[node]
            canvas.rect(x - width / 2, y - height / 2, width, height, self.kind(node), radius=7, stroke=1.5)
            upper, lower = labels(node)
            canvas.text(x, y - 1, upper, anchor="middle", bold=True, size=13, colour=INK)
            canvas.text(x, y + 12, lower, anchor="middle", size=10, colour=MUTED)
