"""An account's minutes, from topped-up to reserved to spent or free."""
from canvas import BLUE, Canvas, GREEN, MUTED, ORANGE, RULE

LEFT, STEP, BAR, BASE, SCALE = 84, 124, 40, 452, 2.0
PARTS = "spent", "reserved", "free"
MOVED = ("#8f99a6", "#8f99a6")
COLOURS = {"free": GREEN, "reserved": ORANGE, "spent": BLUE}


class State:
    """What the account has after an operation."""

    def __init__(self, fields):
        self.operation = fields[0]
        self.call, self.minutes, self.topped, self.free, self.reserved, self.spent = map(int, fields[1:])
        if self.free + self.reserved + self.spent != self.topped:
            raise ValueError(f"minutes are lost at {fields}")

    def has(self, part):
        return getattr(self, part)

    def label(self):
        if self.operation == "top-up":
            return f"{self.minutes} minutes"
        used = {"reserve": f": {self.minutes}", "settle": f": {self.minutes} used", "release": ""}[self.operation]
        return f"call {self.call}{used}"


def flows(before, after):
    """How many minutes went from which part to which. Parts only exchange with reserved, and what is topped up comes from outside."""
    stay = {(part, part): min(before.has(part), after.has(part)) for part in PARTS}
    out = before.reserved - after.reserved
    if after.operation == "reserve":
        return stay | {("free", "reserved"): -out}
    if after.operation in ("settle", "release"):
        used = after.spent - before.spent
        return stay | {("reserved", "spent"): used, ("reserved", "free"): out - used}
    return stay


def bottoms(state):
    """Where each part's bar ends below."""
    below, found = 0, {}
    for part in PARTS:
        found[part] = BASE - SCALE * below
        below += state.has(part)
    return found


def bands(canvas, x, before, after):
    """What flows from one bar to the next, lower parts below."""
    leaves, enters, moved = bottoms(before), bottoms(after), flows(before, after)
    pieces = []
    for (origin, goal) in sorted(moved, key=lambda pair: (PARTS.index(pair[0]), PARTS.index(pair[1]))):
        minutes = moved[origin, goal]
        if minutes:
            pieces.append((origin, goal, minutes, leaves[origin]))
            leaves[origin] -= SCALE * minutes
    for origin, goal, minutes, start in sorted(pieces, key=lambda piece: (PARTS.index(piece[1]), PARTS.index(piece[0]))):
        end, high = enters[goal], SCALE * minutes
        enters[goal] -= high
        middle, right = x + (STEP - BAR) / 2, x + STEP - BAR
        d = (f"M{x} {start}C{middle} {start} {middle} {end} {right} {end}V{end - high}"
             f"C{middle} {end - high} {middle} {start - high} {x} {start - high}Z")
        canvas.path(d, stroke="none", fill=COLOURS[goal][1], opacity=0.5 if origin != goal else 0.16)


def bar(canvas, x, state):
    for part, low in bottoms(state).items():
        minutes = state.has(part)
        if minutes:
            canvas.rect(x, low - SCALE * minutes, BAR, SCALE * minutes, COLOURS[part], radius=2, stroke=1.4)
            canvas.text(x + BAR / 2, low - SCALE * minutes / 2 + 5, str(minutes), anchor="middle", bold=True, size=13)


def draw(records):
    states = [State(fields) for fields in records.every("account")]
    canvas = Canvas("account", 960, 560, "Every minute is free, reserved or spent",
                    "One account's operations. After each of them free + reserved + spent is what was topped up: that is proved.")
    for i, state in enumerate(states):
        x = LEFT + STEP * i
        if i:
            bands(canvas, x - STEP + BAR, states[i - 1], state)
        bar(canvas, x, state)
        canvas.text(x + BAR / 2, 98, state.operation, anchor="middle", bold=True, size=13)
        canvas.text(x + BAR / 2, 116, state.label(), anchor="middle", size=11, colour=MUTED)
        if state.operation == "top-up":
            canvas.arrow(x + BAR / 2, 124, x + BAR / 2, BASE - SCALE * state.topped - 4, COLOURS["free"][1], 2)
        canvas.text(x + BAR / 2, BASE + 22, f"{state.free} + {state.reserved} + {state.spent}", anchor="middle", size=11)
        canvas.text(x + BAR / 2, BASE + 38, f"= {state.topped}", anchor="middle", size=11)
    canvas.line(28, BASE, 932, BASE, RULE, 1)
    canvas.legend(28, 534, [(GREEN, "free"), (ORANGE, "reserved, in open calls"), (BLUE, "spent"), (MOVED, "darker: moved by the operation")])
    return canvas
