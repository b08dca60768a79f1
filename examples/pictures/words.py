"""A block's words, read as include/ksk.h and docs/ARCHITECTURE.md have them: N, sixteen roots, occupancy, eight words a node."""

FIELDS = "key", "value", "left", "right", "size", "count", "sum, low", "sum, high"


class Block:
    def __init__(self, words):
        self.words = words
        self.n = words[0]
        self.roots = words[1:17]
        self.first = 17 + self.n // 32

    def occupied(self, node):
        return self.words[17 + (node - 1) // 32] >> (node - 1) % 32 & 1 == 1

    def at(self, node):
        """Where a node's words begin."""
        return self.first + 8 * (node - 1)

    def node(self, node):
        return dict(zip(FIELDS, self.words[self.at(node):self.at(node) + 8]))

    def depths(self, version):
        """The nodes of a version and how deep they lie."""
        found = {}
        def visit(node, depth):
            if node:
                found[node] = depth
                visit(self.node(node)["left"], depth + 1)
                visit(self.node(node)["right"], depth + 1)
        visit(self.roots[version], 0)
        return found
