"""The picture of a picker: availability, priorities and states by piece, with cursors and extents; partials with their blocks; the list by
bucket; and of a pick what was chosen, by which phase, and what was passed over."""
from draw.choosing import PHASES
from draw.svg import line, marker, rect, runs, text, whole
from reference.bucket import bucket_at
from reference.geometry import blocks_per_piece, extent_pieces

WIDTH, LEFT, RIGHT = 1000, 120, 20
SPAN = WIDTH - LEFT - RIGHT
LABEL = 170  # the words behind a partial
INK, PALE, FRAME = "#1f2937", "#6b7280", "#d1d5db"

STATES = (
    ("Downloading", "#f59e0b"),
    ("Full", "#d97706"),
    ("Finished", "#2563eb"),
    ("ZeroPrio", "#9ca3af"),
    ("Open", "#e5e7eb"),
    ("DownloadingReverse", "#fcd34d"),
    ("FullReverse", "#fb923c"),
)
FLUSHED = ("had", "#16a34a")
BLOCKS = (("None", "#f3f4f6"), ("Requested", "#f59e0b"), ("Writing", "#2563eb"), ("Finished", "#16a34a"))
PRIORITIES = ("#ffffff", "#ede9fe", "#ddd6fe", "#c4b5fd", "#a78bfa", "#8b5cf6", "#7c3aed", "#5b21b6")


class Page:
    """Shapes, and how far down they reach."""

    def __init__(self):
        self.shapes, self.y = [], 24

    def add(self, *shapes):
        self.shapes.extend(shapes)

    def heading(self, words, note=""):
        self.y += 14
        self.add(text(LEFT, self.y, words, 13, fill=INK, font_weight="bold"))
        self.add(text(WIDTH - RIGHT, self.y, note, fill=PALE, text_anchor="end"))
        self.y += 10

    def label(self, words, y):
        self.add(text(LEFT - 8, y, words, fill=INK, text_anchor="end"))

    def legend(self, entries):
        x = LEFT
        for name, fill in entries:
            if x > WIDTH - RIGHT - 130:
                x, self.y = LEFT, self.y + 16
            self.add(rect(x, self.y, 10, 10, fill, stroke=FRAME), text(x + 14, self.y + 9, name, 10, fill=PALE))
            x += 24 + 6.2 * len(name)
        self.y += 18


def place(k, many):
    return LEFT + SPAN * k / many


def stretch(first, end):
    return f"{first}" if end == first + 1 else f"{first} to {end - 1}"


def strip(page, values, height, shade, say):
    """A row of pieces, equal neighbours as one."""
    n = len(values)
    for first, end, value in runs(values):
        words = f"piece {stretch(first, end)}: {say(value)}"
        page.add(rect(place(first, n), page.y, SPAN * (end - first) / n, height, shade(value), words))
    page.add(rect(LEFT, page.y, SPAN, height, "none", stroke=FRAME))
    page.y += height


# ---- pieces
def peers(s):
    return [p.count + s.seeds for p in s.pieces]


def availability(page, s):
    most, height, n = max(max(peers(s)), 1), 70, len(s.pieces)
    page.heading("Availability", f"peers and seeds for each piece, at most {max(peers(s))}")
    page.label(str(most), page.y + 9)
    page.label("0", page.y + height)
    for first, end, many in runs(peers(s)):
        tall, words = height * many / most, f"piece {stretch(first, end)}: {many}"
        page.add(rect(place(first, n), page.y + height - tall, SPAN * (end - first) / n, tall, "#93c5fd", words))
    page.add(line(LEFT, page.y + height, WIDTH - RIGHT, page.y + height, PALE))
    page.y += height + 4


def shown_state(p):
    return FLUSHED if p.had else STATES[p.state]


def cursors(page, s):
    n = len(s.pieces)
    for at, words in ((s.cursor, "cursor"), (s.reverse_cursor, "reverse cursor")):
        left = place(at, n) > WIDTH / 2
        beside = {"text_anchor": "end"} if left else {}
        page.label(words, page.y + 12)
        page.add(marker(place(at, n), page.y + 4, 4, INK))
        page.add(text(place(at, n) + (-7 if left else 7), page.y + 12, str(at), 10, fill=PALE, **beside))
        page.y += 13
    page.y += 4


def extents(page, s):
    n = len(s.pieces)
    page.label("extents", page.y + 9)
    for age, e in enumerate(s.extents):
        pieces = extent_pieces(s, e)
        width = SPAN * len(pieces) / n
        words = f"extent {e}, number {age + 1} from the oldest"
        page.add(rect(place(pieces[0], n), page.y + 1, width, 9, "#67e8f9", words, stroke="#0e7490"))
    page.y += 14


def pieces(page, s):
    availability(page, s)
    page.label("priority", page.y + 11)
    strip(page, [p.wish for p in s.pieces], 14, lambda w: PRIORITIES[w], lambda w: f"priority {w}")
    page.label("state", page.y + 13)
    strip(page, [shown_state(p) for p in s.pieces], 16, lambda v: v[1], lambda v: v[0])
    cursors(page, s)
    extents(page, s)
    page.legend((*STATES, FLUSHED, *((f"priority {k}", fill) for k, fill in enumerate(PRIORITIES))))


# ---- partials
def partial_words(s, d):
    flags = [name for name, holds in (("passed", d.passed), ("locked", d.locked), ("hashing", d.hashing)) if holds]
    return " ".join([STATES[s.pieces[d.piece].state][0], *flags])


def block_words(b):
    peer = "no peer" if b.peer is None else f"peer {b.peer}"
    return f"{BLOCKS[b.state][0]}, {b.requesters} requesters, {peer}"


def one_partial(page, s, d, given, wide, x):
    """Its blocks from x on, equal neighbours as one, those chosen marked; its state behind them."""
    page.add(text(x - 8, page.y + 9, f"piece {d.piece}", 10, fill=INK, text_anchor="end"))
    for first, end, block in runs(d.blocks):
        words = f"block {stretch(first, end)}: {block_words(block)}"
        page.add(rect(x + wide * first, page.y, wide * (end - first), 10, BLOCKS[block.state][1], words, stroke=FRAME))
    for j in range(len(d.blocks)):
        if (d.piece, j) in given:
            page.add(rect(x + wide * j + 1, page.y + 3, max(wide - 2, 0.5), 4, INK, f"block {j}: chosen"))
    page.add(text(x + wide * len(d.blocks) + 6, page.y + 9, partial_words(s, d), 10, fill=PALE))


def partials(page, s, chosen):
    """By rising piece, in as many columns as there is room for."""
    page.heading("Partials", f"{len(s.partials)}, each with its blocks")
    b, given = blocks_per_piece(s), set(chosen.blocks) if chosen else set()
    wide = min(18, (SPAN - LABEL) / b)
    columns = max(1, int(SPAN // (wide * b + LABEL + 70)))
    for k, d in enumerate(s.partials):
        one_partial(page, s, d, given, wide, LEFT + SPAN * (k % columns) / columns)
        if k % columns == columns - 1 or k + 1 == len(s.partials):
            page.y += 14
    page.legend(BLOCKS + ((("chosen", INK),) if chosen else ()))


# ---- the list
def listed(page, s):
    if s.stale:
        page.heading("The list", "stale: made anew by the next pick that goes by it")
        return
    page.heading("The list, by bucket", f"{len(s.order)} pieces; the first is asked for first")
    n, height = max(len(s.order), 1), 40
    most = max([bucket_at(s, i) for i in s.order], default=0) + 1
    for k, (first, end, rank) in enumerate(runs([bucket_at(s, i) for i in s.order])):
        tall, shade = 6 + (height - 6) * rank / most, ("#c7d2fe", "#a5b4fc")[k % 2]
        inside = " ".join(map(str, s.order[first : min(end, first + 40)])) + (" .." if end > first + 40 else "")
        page.add(rect(place(first, n), page.y + height - tall, SPAN * (end - first) / n, tall, shade, f"bucket {rank}: pieces {inside}"))
        if SPAN * (end - first) / n > 28:
            page.add(text(place(first, n) + 2, page.y + height - 2, str(rank), 9, fill=INK))
    page.y += height
    if len(s.order) <= 64:
        for k, i in enumerate(s.order):
            page.add(text(place(k + 0.5, n), page.y + 10, str(i), 9, fill=PALE, text_anchor="middle"))
        page.label("piece", page.y + 10)
        page.y += 14


# ---- a pick
def blocks_in_order(page, chosen):
    x, shown = LEFT, list(zip(chosen.blocks, chosen.phases))[:400]
    for k, ((i, j), phase) in enumerate(shown):
        name, fill = PHASES[phase]
        words = f"{i}.{j}"
        wide = 8 + 6.4 * len(words)
        if x + wide > WIDTH - RIGHT:
            x, page.y = LEFT, page.y + 18
        page.add(rect(x, page.y, wide - 3, 15, fill, f"number {k + 1}: block {j} of piece {i}, by {name}", rx=3))
        page.add(text(x + wide / 2 - 1.5, page.y + 11, words, 10, fill="#ffffff", text_anchor="middle"))
        x += wide
    if len(chosen.blocks) > len(shown):
        page.add(text(x + 4, page.y + 11, f".. and {len(chosen.blocks) - len(shown)} more", 10, fill=PALE))
    page.y += 22


def pieces_chosen(page, s, chosen):
    """Where in the torrent, each phase in its colour; what was passed over in grey."""
    n = len(s.pieces)
    page.label("chosen", page.y + 10)
    page.add(rect(LEFT, page.y, SPAN, 14, "#f9fafb", stroke=FRAME))
    wide = max(SPAN / n, 1.5)
    for i in chosen.passed:
        page.add(rect(place(i, n), page.y, wide, 14, "#9ca3af", f"piece {i}: passed over"))
    for (i, _), phase in zip(chosen.blocks, chosen.phases):
        page.add(rect(place(i, n), page.y, wide, 14, PHASES[phase][1], f"piece {i}, by {PHASES[phase][0]}"))
    page.y += 20


def reasons(page, chosen):
    by = {}
    for i, why in chosen.passed.items():
        by.setdefault(", ".join(why), []).append(i)
    for why, which in by.items():
        inside = " ".join(map(str, which[:30])) + (" .." if len(which) > 30 else "")
        page.add(text(LEFT, page.y + 10, f"passed over ({why}): pieces {inside}", 10, fill=PALE))
        page.y += 14


def pick(page, s, ask, chosen):
    w = chosen.work
    run = f", a run of {ask.run}" if ask.run else ""
    given = f"{len(chosen.blocks)} given, flags {w.flags}, draws {w.used}"
    page.heading("The pick", f"options {ask.options}, {ask.wanted} wanted{run}: {given}")
    blocks_in_order(page, chosen)
    pieces_chosen(page, s, chosen)
    reasons(page, chosen)
    met = [PHASES[flag] for flag in PHASES if flag in chosen.phases]
    page.legend([*met, ("passed over", "#9ca3af")] if chosen.passed else met)
    loops = ("Partial", "Suggest", "ReverseRare", "Rare", "RandStart", "Rand", "Busy")
    page.add(text(LEFT, page.y + 8, "loops: " + ", ".join(f"{name} {k}" for name, k in zip(loops, w.loops)), 10, fill=PALE))
    page.y += 16


def draw(s, ask=None, chosen=None):
    """The picture as text."""
    page = Page()
    page.add(text(LEFT, page.y, f"{len(s.pieces)} pieces of {s.size:,} bytes, {s.total:,} in all", 16, fill=INK, font_weight="bold"))
    page.add(text(WIDTH - RIGHT, page.y, f"{blocks_per_piece(s)} blocks a piece, seeds {s.seeds}", fill=PALE, text_anchor="end"))
    page.y += 12
    pieces(page, s)
    if s.partials:
        partials(page, s, chosen)
    listed(page, s)
    if chosen is not None:
        pick(page, s, ask, chosen)
    return whole(WIDTH, page.y + 16, page.shapes)
