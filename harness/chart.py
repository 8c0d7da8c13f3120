"""`python3 -m harness.chart`: the figures of whole calls (docs/pictures/whole-calls.tsv, by `harness/whole_bench`) as the table of
docs/SPEED.md, printed, and as docs/pictures/whole-calls.svg. With `--check` nothing is written: status 1 and a line where the chart is
not what the figures give, or docs/SPEED.md lacks a line of the table."""
import csv
import math
import pathlib
import sys
from typing import NamedTuple

from draw.svg import circle, line, polyline, text, whole

TOP = pathlib.Path(__file__).resolve().parent.parent
FIGURES, CHART, SPEED = (TOP / "docs" / name for name in ("pictures/whole-calls.tsv", "pictures/whole-calls.svg", "SPEED.md"))
SHOWN = ((64, 16, 8), (1024, 16, 64), (4096, 256, 400))  # the sizes of the table: pieces, blocks of a piece, partials
DRAWN = (
    "inc_refcount",
    "mark_as_downloading, opening",
    "pick_pieces, rarest, N 16",
    "pick_pieces, rarest, N 2,048",
    "num_have",
    "take_image",
)
PARTIALS = 8  # of the chart: so few stand at every number of pieces, with Open pieces between them
INK, PALE, GRID = "#1f2937", "#6b7280", "#e5e7eb"
SIDES = (("whole call", "#1d4ed8", 2), ("memory test alone", "#cbd5e1", 6), ("the Rust", "#b45309", 2))  # with the width of a line
IN_FRONT = (1, 2, 0)  # the order in which they are drawn
DASHES = {16: "none", 256: "5 3"}
LOW, HIGH = 0.001, 1000.0  # microseconds


class Times(NamedTuple):
    """Microseconds of a whole call, the memory test alone, the Rust's call, and the test as it is linked by itself."""

    whole: float
    test: float
    rust: float
    linked: float

    def to_goal(self):
        return self.whole / (self.test + self.rust)

    def over(self):
        return self.whole - self.test - self.rust


def figures():
    """Times by call, then by size."""
    found = {}
    with FIGURES.open(encoding="utf-8", newline="") as lines:
        for row in csv.DictReader(lines, delimiter="\t"):
            size = tuple(int(row[name]) for name in ("pieces", "blocks", "partials"))
            found.setdefault(row["call"], {})[size] = Times(*(float(row[name]) for name in Times._fields))
    return found


# ---- the table
def shortly(x):
    """Three digits that count."""
    return f"{x:.{max(0, 2 - math.floor(math.log10(x)))}f}" if x > 0 else "0"


def cells_of(by_size):
    for size in SHOWN:
        times = by_size.get(size)
        yield from ("-",) * 3 if times is None else map(shortly, times[:3])
    over = [times.over() for times in by_size.values()]
    ratios = [times.to_goal() for times in by_size.values()]
    yield f"{min(ratios):.2f} to {max(ratios):.2f}"
    yield f"{max(over):.2f}"
    yield f"{sum(ratio <= 1 for ratio in ratios)} of {len(ratios)}"


def table(found):
    heads = [f"{n:,}, {b}, {p}: {first}" if k == 0 else first for n, b, p in SHOWN for k, first in enumerate(("µs", "test", "Rust"))]
    yield "| " + " | ".join(["call", *heads, "to the goal", "most over, µs", "met"]) + " |"
    yield "|---" * (len(heads) + 4) + "|"
    for call, by_size in found.items():
        yield "| " + " | ".join([f"{call}", *cells_of(by_size)]) + " |"


# ---- the chart
WIDTH, LEFT, TOP_EDGE, ACROSS, DOWN = 960, 60, 70, 300, 230
PANEL_WIDE, PANEL_HIGH = 230, 160


def place(pieces, microseconds, corner):
    """Where a time stands in a panel: both ways by powers."""
    right = math.log(pieces / 64) / math.log(4096 / 64)
    up = math.log(max(microseconds, LOW) / LOW) / math.log(HIGH / LOW)
    return corner[0] + PANEL_WIDE * right, corner[1] + PANEL_HIGH * (1 - up)


def frame(call, corner):
    x, y = corner
    yield text(x, y - 10, call, 12, fill=INK, font_weight="bold")
    for power in range(-3, 4):
        _, at = place(64, 10.0**power, corner)
        yield line(x, at, x + PANEL_WIDE, at, GRID)
        yield text(x - 6, at + 4, f"{10.0**power:g}", 10, fill=PALE, text_anchor="end")
    for pieces in (64, 1024, 4096):
        at, _ = place(pieces, LOW, corner)
        yield text(at, y + PANEL_HIGH + 14, f"{pieces:,}", 10, fill=PALE, text_anchor="middle")


def curve(by_size, corner, k, blocks):
    name, stroke, wide = SIDES[k]
    sizes = sorted(size for size in by_size if size[1:] == (blocks, PARTIALS))
    points = [place(size[0], by_size[size][k], corner) for size in sizes]
    yield polyline(points, stroke, stroke_width=wide, stroke_dasharray=DASHES[blocks])
    for size, (x, y) in zip(sizes, points):
        yield circle(x, y, 1 + wide / 2, stroke, f"{name}, {size[0]:,} pieces of {blocks} blocks: {shortly(by_size[size][k])} µs")


def curves(by_size, corner):
    for k, blocks in ((k, blocks) for k in IN_FRONT for blocks in DASHES):
        yield from curve(by_size, corner, k, blocks)


def legend():
    x = LEFT
    plain = [(name, stroke, wide, "none") for name, stroke, wide in SIDES]
    dashed = [(f"{blocks} blocks a piece", PALE, 2, dash) for blocks, dash in DASHES.items()]
    for name, stroke, wide, dash in plain + dashed:
        yield polyline([(x, 26), (x + 24, 26)], stroke, stroke_width=wide, stroke_dasharray=dash)
        yield text(x + 30, 30, name, fill=INK)
        x += 60 + 6.5 * len(name)


def chart(found):
    shapes = list(legend())
    for k, call in enumerate(DRAWN):
        corner = LEFT + ACROSS * (k % 3), TOP_EDGE + DOWN * (k // 3)
        shapes += [*frame(call, corner), *curves(found[call], corner)]
    note = f"microseconds against pieces, {PARTIALS} partials; both by powers; the least of many rounds of one run"
    high = TOP_EDGE + DOWN * 2
    return whole(WIDTH, high, [*shapes, text(LEFT, high - 12, note, fill=PALE)])


def wrong(found):
    if not CHART.exists() or CHART.read_text(encoding="utf-8") != chart(found):
        yield "docs/pictures/whole-calls.svg is not what its figures give: run python3 -m harness.chart"
    said = set(SPEED.read_text(encoding="utf-8").splitlines())
    yield from (f"docs/SPEED.md lacks: {row}" for row in table(found) if row not in said)


def main():
    found = figures()
    if sys.argv[1:] != ["--check"]:
        CHART.write_text(chart(found), encoding="utf-8")
        print("\n".join(table(found)))
        return 0
    faults = list(wrong(found))
    for fault in faults[:10]:
        print(f"chart: {fault}", file=sys.stderr)
    if not faults:
        print(f"the chart and the table of {len(found)} calls are as their figures give them")
    return 1 if faults else 0


if __name__ == "__main__":
    sys.exit(main())
