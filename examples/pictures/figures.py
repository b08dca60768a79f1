"""Pictures of figures that other programs print, for each that is kept: docs/bench.txt is what `oracle/bench` prints, docs/sites.csv what `examples/sites/run --table` prints."""
import csv
import re

from canvas import BLUE, Canvas, ORANGE
from plot import Frame, Series, panels, plot


def bench_rows(text):
    """Call, N, and nanoseconds of the exported call and of the Rust, eight blocks in turn."""
    n = None
    for row in text.splitlines():
        head = re.match(r"N = (\d+)  ", row)
        if head:
            n = int(head[1])
        figures = re.fullmatch(r"(\S.{41}) +[\d.]+ +\d+ +\d+ +[\d.]+ +(\d+) +(\d+)", row)
        if n and figures:
            yield figures[1].strip(), n, int(figures[2]), int(figures[3])


def bench(text):
    calls = {}
    for call, n, exported, rust in bench_rows(text):
        calls.setdefault(call, []).append((n, exported / 1000, rust / 1000))
    tables = [(call, [Series("Rust", ORANGE, [(n, r) for n, _, r in rows]), Series("exported", BLUE, [(n, e) for n, e, _ in rows])])
              for call, rows in calls.items() if len(rows) > 1]
    columns = 4
    height = 116 + 132 * -(-len(tables) // columns)
    canvas = Canvas("bench", 960, height, "What each call costs, beside the Rust", "Microseconds against N, the number of nodes, eight blocks in turn (oracle/bench). The Rust makes the same audit.")
    canvas.legend(28, 88, [(BLUE, "the exported call"), (ORANGE, "the original Rust and the same audit")])
    panels(canvas, 122, tables, columns)
    return canvas


def sites(text):
    rows = list(csv.DictReader(text.splitlines()))
    def series(repair, name, colours):
        return Series(name, colours, [(float(row["loss_percent"]), float(row["stranded_minutes"])) for row in rows if row["repair"] == repair])
    both = series("off", "without", ORANGE), series("on", "with", BLUE)
    changes = rows[0]["site_changes"]
    canvas = Canvas("sites", 960, 500, "Minutes stranded at site changes, with and without repair",
                    f"The sum over {changes} site changes of one simulated run (examples/sites). With repair the standby asks for the lines that it misses.")
    plot(canvas, Frame(96, 138, 800, 270, both), both, "datagrams that the link loses, in percent; each carries a line", "stranded minutes")
    canvas.legend(96, 482, [(ORANGE, "without repair"), (BLUE, "with repair")])
    return canvas


def draw(folder):
    """A picture for each file of figures that is there."""
    for name, picture in ("bench.txt", bench), ("sites.csv", sites):
        if (folder / name).exists():
            yield picture((folder / name).read_text(encoding="utf-8"))
