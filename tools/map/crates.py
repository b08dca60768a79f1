"""The crates and their imports, from crates.txt: each crate stands below all that import it."""
from canvas import BLUE, Canvas, GREEN, GREY, ORANGE, RED, VIOLET

COLOURS = GREY, ORANGE, GREEN, VIOLET, BLUE, RED
WIDE, HIGH, STEP, GAP, PASSING, TOP = 90, 30, 64, 26, 30, 142


def read(text):
    """The crates with what they import, and the headings with the crates below each. What is not of this project is left out."""
    imports, groups = {}, []
    for row in text.splitlines():
        if row.startswith("#"):
            groups.append((row.lstrip("# "), []))
        elif row.strip():
            head, _, others = row.partition(":")
            crate = head.split()[0]  # what stands behind it is its kind: staticlib
            imports[crate] = others.split()
            groups[-1][1].append(crate)
    return {crate: [other for other in others if other in imports] for crate, others in imports.items()}, groups


def needed(imports):
    """The imports that no other import brings along."""
    below = {}
    for crate in imports:  # crates.txt has a crate after all that it imports
        below[crate] = {crate}.union(*(below[other] for other in imports[crate]))
    return {crate: [other for other in others if not any(other in below[third] for third in others if third != other)] for crate, others in imports.items()}


def levels(imports):
    """Rows, counted from the bottom: one above what a crate imports, or, where it is imported, as close below as can be."""
    level = {}
    for crate, others in imports.items():
        level[crate] = max((level[other] + 1 for other in others), default=0)
    for crate in reversed(list(imports)):
        level[crate] = min((level[user] - 1 for user, others in imports.items() if crate in others), default=level[crate])
    return level


def ways(imports, level):
    """An import's way from row to row; where it passes a row it has a place there, named by its two ends and the row."""
    return [[crate, *((crate, other, row) for row in range(level[crate] - 1, level[other], -1)), other] for crate, others in imports.items() for other in others]


def spread(wanted, widths):
    """Places in this order, as near to the wanted ones as their widths allow: neighbours that would overlap move together."""
    pools, before = [], 0.0
    for want, wide in zip(wanted, widths):
        pools.append([want - before - wide / 2, 1])
        before += wide
        while len(pools) > 1 and pools[-2][0] >= pools[-1][0]:
            (a, m), (b, n) = pools[-2:]
            pools[-2:] = [[(a * m + b * n) / (m + n), m + n]]
    flat, before, places = [at for at, n in pools for _ in range(n)], 0.0, []
    for at, wide in zip(flat, widths):
        places.append(at + before + wide / 2)
        before += wide
    return places


def crossings(rows, near):
    """How many lines cross between each row and the next."""
    count = 0
    for low, high in zip(rows, rows[1:]):
        ends = [(i, high.index(other)) for i, one in enumerate(low) for other in near[one] if other in high]
        count += sum((a - c) * (b - d) < 0 for i, (a, b) in enumerate(ends) for c, d in ends[:i])
    return count


def arranged(rows, near):
    """The rows in an order with few crossings: each point towards its neighbours, then neighbours exchanged while that helps."""
    def shift(row, others):
        at = {point: i for other in others for i, point in enumerate(other)}
        def wish(point):
            seen = [at[other] for other in near[point] if other in at]
            return sum(seen) / len(seen) if seen else row.index(point)
        return sorted(row, key=wish)
    best = rows
    for _ in range(12):
        for i in [*range(1, len(rows)), *range(len(rows) - 2, -1, -1)]:
            rows = [*rows[:i], shift(rows[i], rows[i - 1:i] + rows[i + 1:i + 2]), *rows[i + 1:]]
        best = min(best, rows, key=lambda some: crossings(some, near))
    better = True
    while better:
        better = False
        for r, row in enumerate(best):
            for i in range(len(row) - 1):
                turned = [*best[:r], [*row[:i], row[i + 1], row[i], *row[i + 2:]], *best[r + 1:]]
                if crossings(turned, near) < crossings(best, near):
                    best, row, better = turned, turned[r], True
    return best


def placed(rows, near):
    """Where each point stands from left to right."""
    width = {point: PASSING if isinstance(point, tuple) else WIDE + GAP for row in rows for point in row}
    x = {point: at for row in rows for point, at in zip(row, spread([0.0] * len(row), [width[point] for point in row]))}
    for turn in range(60):
        for row in rows if turn % 2 else rows[::-1]:
            wanted = [sum(x[other] for other in near[point]) / len(near[point]) for point in row]
            x.update(zip(row, spread(wanted, [width[point] for point in row])))
    left = min(x[point] - width[point] / 2 for point in x)
    return {point: round(at - left) for point, at in x.items()}


def row_of(point, level):
    return point[2] if isinstance(point, tuple) else level[point]


def draw(root):
    imports, groups = read((root / "crates.txt").read_text(encoding="utf-8"))
    drawn = needed(imports)
    level = levels(drawn)
    lines = ways(drawn, level)
    points = list(dict.fromkeys(point for line in lines for point in line))
    near = {point: [other for line in lines for pair in zip(line, line[1:]) if point in pair for other in pair if other != point] for point in points}
    rows = arranged([[point for point in points if row_of(point, level) == row] for row in range(max(level.values()) + 1)], near)
    x = placed(rows, near)
    left = (960 - max(x[crate] for crate in imports) - WIDE / 2 - GAP / 2) / 2
    at = {point: (left + x[point], TOP + STEP * (len(rows) - 1 - row_of(point, level)) + HIGH / 2) for point in points}
    canvas = Canvas("crates", 960, TOP + STEP * len(rows), "The crates, and what each of them imports",
                    "Lines lead down to what a crate imports (crates.txt). What it also imports from further down the same lines is not drawn.")
    for line in lines:
        way = "M{:.0f} {:.0f}".format(*at[line[0]])
        for one, other in zip(line, line[1:]):
            (x1, y1), (x2, y2) = at[one], at[other]
            way += f"C{x1:.0f} {(y1 + y2) / 2:.0f} {x2:.0f} {(y1 + y2) / 2:.0f} {x2:.0f} {y2:.0f}"
        canvas.path(way)
    legend = []
    for (heading, crates), colours in zip(groups, COLOURS, strict=True):
        legend.append((colours, heading))
        for crate in crates:
            canvas.rect(at[crate][0] - WIDE / 2, at[crate][1] - HIGH / 2, WIDE, HIGH, colours)
            canvas.text(at[crate][0], at[crate][1] + 5, crate, anchor="middle", mono=True, size=13)
    canvas.legend(28, 90, legend[:3])
    canvas.legend(28, 114, legend[3:])
    return canvas
