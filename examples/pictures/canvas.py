"""An SVG picture on a light card, so that it can be read on white and on dark pages. It refuses text that runs into other text or out of the card."""
from html import escape

INK, MUTED, RULE, CARD = "#1f2933", "#5b6675", "#cfd5dd", "#fcfcfd"
# Fill and edge of what belongs together.
GREY = ("#eceff3", "#8792a2")
BLUE = ("#d9e8fb", "#2f6fc1")
ORANGE = ("#fde3c6", "#c5680f")
GREEN = ("#d6efdc", "#2c8549")
RED = ("#fbdada", "#bd3a2e")
VIOLET = ("#e7dff6", "#7552b3")
WHITE = ("#ffffff", RULE)

SANS = "DejaVu Sans, Verdana, Arial, sans-serif"
MONO = "DejaVu Sans Mono, Menlo, Consolas, monospace"


def width_of(text, size, mono=False, bold=False):
    """About how wide a text is in the widest of its fonts."""
    if mono:
        return 0.603 * size * len(text)
    def one(letter):
        if letter in "iljI.,:;'|! ":
            return 0.33
        if letter in "ftr()[]/-":
            return 0.41
        if letter in "mwMW%":
            return 0.93
        return 0.70 if letter.isupper() else 0.63
    return sum(map(one, text)) * size * (1.1 if bold else 1.0)


def number(x):
    return f"{x:.1f}".rstrip("0").rstrip(".")


class Canvas:
    def __init__(self, name, width, height, title, subtitle=""):
        self.name, self.width, self.height, self.title = name, width, height, title
        self.parts, self.boxes = [], []
        self.rect(0.5, 0.5, width - 1, height - 1, (CARD, RULE), radius=10)
        self.text(28, 38, title, size=18, bold=True)
        if subtitle:
            self.text(28, 61, subtitle, size=13, colour=MUTED)

    def rect(self, x, y, w, h, colours, radius=3, stroke=1.0, dash=None):
        dashed = f' stroke-dasharray="{dash}"' if dash else ""
        self.parts.append(f'<rect x="{number(x)}" y="{number(y)}" width="{number(w)}" height="{number(h)}" rx="{radius}" '
                          f'fill="{colours[0]}" stroke="{colours[1]}" stroke-width="{stroke}"{dashed}/>')

    def path(self, d, stroke=MUTED, width=1.5, fill="none", opacity=1.0, dash=None):
        dashed = f' stroke-dasharray="{dash}"' if dash else ""
        seen = f' opacity="{opacity}"' if opacity != 1.0 else ""
        self.parts.append(f'<path d="{d}" fill="{fill}" stroke="{stroke}" stroke-width="{width}"{dashed}{seen}/>')

    def line(self, x1, y1, x2, y2, stroke=MUTED, width=1.5, dash=None):
        self.path(f"M{number(x1)} {number(y1)}L{number(x2)} {number(y2)}", stroke, width, dash=dash)

    def arrow(self, x1, y1, x2, y2, stroke=MUTED, width=1.5):
        """A straight arrow, its head at the second point."""
        away = ((x2 - x1) ** 2 + (y2 - y1) ** 2) ** 0.5
        dx, dy = (x2 - x1) / away, (y2 - y1) / away
        bx, by = x2 - 7 * dx, y2 - 7 * dy
        self.line(x1, y1, bx, by, stroke, width)
        corners = (x2, y2), (bx - 3.5 * dy, by + 3.5 * dx), (bx + 3.5 * dy, by - 3.5 * dx)
        self.path("M" + "L".join(f"{number(x)} {number(y)}" for x, y in corners) + "Z", stroke="none", fill=stroke)

    def circle(self, x, y, r, fill):
        self.parts.append(f'<circle cx="{number(x)}" cy="{number(y)}" r="{number(r)}" fill="{fill}"/>')

    def text(self, x, y, text, size=12, anchor="start", colour=INK, bold=False, mono=False):
        if not text:
            return
        wide = width_of(text, size, mono, bold)
        left = x - {"start": 0, "middle": wide / 2, "end": wide}[anchor]
        self.boxes.append((left, y - 0.76 * size, left + wide, y + 0.2 * size, text))
        self.parts.append(f'<text x="{number(x)}" y="{number(y)}" font-size="{number(size)}" fill="{colour}"' + (f' font-family="{MONO}"' if mono else "")
                          + (f' text-anchor="{anchor}"' if anchor != "start" else "") + (' font-weight="bold"' if bold else "") + f">{escape(text, quote=False)}</text>")

    def legend(self, x, y, entries):
        """Coloured squares with their meaning, from left to right."""
        for colours, meaning in entries:
            self.rect(x, y - 11, 14, 14, colours)
            self.text(x + 20, y, meaning)
            x += 20 + width_of(meaning, 12) + 22

    def faults(self):
        for i, (left, top, right, bottom, text) in enumerate(self.boxes):
            if left < 4 or top < 4 or right > self.width - 4 or bottom > self.height - 4:
                yield f"{self.name}: '{text}' leaves the card"
            for l, t, r, b, other in self.boxes[:i]:
                if min(right, r) - max(left, l) > 1 and min(bottom, b) - max(top, t) > 1:
                    yield f"{self.name}: '{text}' runs into '{other}'"

    def svg(self):
        faults = list(self.faults())
        if faults:
            raise ValueError("\n".join(faults))
        head = (f'<svg xmlns="http://www.w3.org/2000/svg" width="{self.width}" height="{self.height}" viewBox="0 0 {self.width} {self.height}" role="img" font-family="{SANS}">\n'
                f"<title>{escape(self.title, quote=False)}</title>\n")
        return head + "\n".join(self.parts) + "\n</svg>\n"
