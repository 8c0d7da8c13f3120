"""`python3 -m draw.diagrams`: the diagrams of docs/MAKERS.md, into docs/pictures: the lent memory, the states of a download, the phases of
a pick. With `--check` nothing is written: status 1 and a line for each that is not what is drawn here."""
import pathlib
import sys

from draw.choosing import PHASES
from draw.picture import BLOCKS, FLUSHED, FRAME, INK, PALE, STATES
from draw.svg import arrow, line, rect, text, whole
from reference.options import (
    FLAG_BACKUP1,
    FLAG_END_GAME,
    FLAG_PRIORITIZE_PARTIALS,
    FLAG_RANDOM_PIECES,
    FLAG_RAREST_FIRST,
    FLAG_SEQUENTIAL_PIECES,
    FLAG_SUGGESTED_PIECES,
)

FOLDER = pathlib.Path(__file__).resolve().parent.parent / "docs" / "pictures"
WIDTH, LEFT = 960, 24


def title(words, note, y=28):
    yield text(LEFT, y, words, 16, fill=INK, font_weight="bold")
    yield text(WIDTH - LEFT, y, note, fill=PALE, text_anchor="end")


def paragraph(lines, y):
    for k, words in enumerate(lines):
        yield text(LEFT, y + 18 * k, words, fill=INK)


def heading(words, y, note=""):
    yield text(LEFT, y, words, 13, fill=INK, font_weight="bold")
    yield text(LEFT + 8 + 8.2 * len(words), y, note, fill=PALE)


# ---- the memory
HEAD, BY_PIECE, LIST, OF_BLOCKS, RECORDS, BEYOND = "#cbd5e1", "#bfdbfe", "#c7d2fe", "#fde68a", "#bbf7d0", "#ffffff"
# A buffer: its name, what an element is, its need, and its parts: name, length, fill, width.
BUFFERS = (
    ("words", "numbers of 64 bits; 16 + 2·n + m·b of them", (
        ("head", "16", HEAD, 90), ("pad bytes", "n", BY_PIECE, 160), ("list", "n", LIST, 160), ("peers", "m·b", OF_BLOCKS, 400))),
    ("cells", "numbers of 16 bits; 4·n + 3·m·b of them", (
        ("peer count", "n", BY_PIECE, 90), ("state", "n", BY_PIECE, 90), ("priority", "n", BY_PIECE, 90), ("flushed", "n", BY_PIECE, 90),
        ("state", "m·b", OF_BLOCKS, 150), ("num_peers", "m·b", OF_BLOCKS, 150), ("has-peer", "m·b", OF_BLOCKS, 150))),
    ("partials", "records of three numbers of 32 bits; m of them", (
        ("records of lower pieces", "", "#f0fdf4", 240), ("index", "", RECORDS, 80), ("info_idx", "p", RECORDS, 80),
        ("flags", "", RECORDS, 80), ("of higher pieces", "", "#f0fdf4", 150), ("not in use", "", BEYOND, 180))),
)  # fmt: skip
BEYOND_WIDE, BAR, APART, FIRST_BAR = 92, 34, 104, 90
PLACE = 0.8, 26  # where in a column of blocks the place p is drawn, and how wide


def one_buffer(k, name, element, parts):
    y, x = FIRST_BAR + APART * k, LEFT
    yield from heading(name, y - 10, element)
    for part, length, fill, wide in parts:
        yield rect(x, y, wide, BAR, fill, stroke=PALE)
        yield text(x + wide / 2, y + 16 if length else y + 21, part, fill=INK, text_anchor="middle")
        yield text(x + wide / 2, y + 29, length, 10, fill=PALE, text_anchor="middle")
        x += wide
    yield rect(x, y, BEYOND_WIDE, BAR, BEYOND, stroke=PALE, stroke_dasharray="4 3")
    yield text(x + BEYOND_WIDE / 2, y + 21, "beyond: untouched", 10, fill=PALE, text_anchor="middle")


def windows(k):
    """Middle and lower edge of the place p in each column of blocks of buffer k."""
    x = LEFT
    for _, _, fill, wide in BUFFERS[k][2]:
        if fill == OF_BLOCKS:
            yield x + wide * PLACE[0], FIRST_BAR + APART * k + BAR
        x += wide


def places():
    """From a record to its blocks."""
    record = LEFT + 360, FIRST_BAR + 2 * APART
    for x, y in (*windows(0), *windows(1)):
        yield rect(x - PLACE[1] / 2, y - 6, PLACE[1], 6, "#b45309")
        yield arrow(record, (x, y + 1), "#b45309", by=(x, record[1] - 30), stroke_opacity=0.7)


ABOUT_MEMORY = (
    "A record says which piece is being downloaded (index), at which place p its blocks stand (info_idx), and 1 passed, 2 locked, "
    "4 hashing (flags).",
    "The blocks of place p are the numbers p·b to p·b + b - 1 of each column of m·b. Columns of n are by piece, the list by list "
    "place: rank · 65,536 + piece.",
    "The largest, 4,096 pieces of 256 blocks: 139,280 words, 409,600 cells and 512 partials, 1.9 megabytes. Nothing is kept elsewhere.",
)


def memory():
    shapes = list(title("A picker's memory: three lent buffers", "n pieces, b blocks of a whole piece, m = min(n, 512)"))
    for k, buffer in enumerate(BUFFERS):
        shapes += one_buffer(k, *buffer)
    y = FIRST_BAR + 3 * APART - 42
    return whole(WIDTH, y + 18 * len(ABOUT_MEMORY) + 4, [*shapes, *places(), *paragraph(ABOUT_MEMORY, y)])


# ---- the states
BOX_WIDE, BOX_HIGH = 124, 36


def box(x, y, name, fill, note=""):
    dark = fill in ("#2563eb", "#16a34a", "#d97706", "#f59e0b", "#9ca3af")
    yield rect(x, y, BOX_WIDE, BOX_HIGH, fill, rx=6, stroke=PALE)
    yield text(x + BOX_WIDE / 2, y + 22, name, 13, fill="#ffffff" if dark else INK, text_anchor="middle", font_weight="bold")
    yield text(x + BOX_WIDE / 2, y + BOX_HIGH + 14, note, 10, fill=PALE, text_anchor="middle")


def onward(x, to, y, words):
    """An arrow between two boxes side by side, with its words above."""
    yield arrow((x + BOX_WIDE + 2, y + BOX_HIGH / 2), (to - 2, y + BOX_HIGH / 2), INK)
    for k, word in enumerate(reversed(words)):
        yield text((x + BOX_WIDE + to) / 2, y + BOX_HIGH / 2 - 6 - 12 * k, word, 10, fill=INK, text_anchor="middle")


def above(x, to, y, high, words, inward=12):
    """An arrow bent over a row of boxes, with its words at its middle."""
    start, end = x + BOX_WIDE / 2 + inward, to + BOX_WIDE / 2 - inward
    yield arrow((start, y - 2), (end, y - 2), PALE, by=((start + end) / 2, y - 2 - 2 * high))
    yield text((start + end) / 2, y - 7 - high, words, 10, fill=INK, text_anchor="middle")


def back(x, to, y, high, words, inward=12):
    """The same below the row, from right to left."""
    start, end, edge = x + BOX_WIDE / 2 - inward, to + BOX_WIDE / 2 + inward, y + BOX_HIGH + 20
    yield arrow((start, edge), (end, edge), PALE, by=((start + end) / 2, edge + 2 * high))
    yield text((start + end) / 2, edge + high + 13, words, 10, fill=INK, text_anchor="middle")


def row_of(at, y, shown, notes):
    for x, (name, fill), note in zip(at, shown, notes):
        yield from box(x, y, name, fill, note)


def steps(at, y, words):
    for x, to, word in zip(at, at[1:], words):
        yield from onward(x, to, y, word)


def block_states(y):
    at, row = [LEFT + 250 * k for k in range(4)], y + 96
    yield from heading("A block", y, "of a piece with a partial; of any other piece each block is None")
    yield from row_of(at, row, BLOCKS, ("free to ask for", "asked of one peer or more", "brought, being written", "written"))
    yield from steps(at, row, (("mark_as_", "downloading"), ("mark_as_", "writing"), ("mark_as_", "finished")))
    yield from above(at[0], at[2], row, 24, "mark_as_writing: brought unasked", inward=20)
    yield from above(at[0], at[3], row, 72, "mark_as_finished: on disk already", inward=-10)
    yield from back(at[1], at[0], row, 12, "abort_download, by the last peer asked", inward=20)
    yield from back(at[2], at[0], row, 60, "mark_as_canceled: the write failed, or the piece's hash", inward=-24)
    yield text(WIDTH - LEFT, row + 92, "mark_as_finished of a Requested block: refusal 9.", fill=PALE, text_anchor="end")
    yield text(WIDTH - LEFT, row + 108, "A Finished block stays so until its piece is had.", fill=PALE, text_anchor="end")


ABOUT_PIECES = (
    "Asked for with REVERSE, a piece stands in DownloadingReverse or FullReverse until it is asked for without.",
    "piece_passed before the last block is Finished: the piece counts as had at once, and is flushed with that block. lock_piece: no "
    "block is given out, and piece_passed is ignored.",
    "At most 512 partials stand: a mark that would open one more is refused with 10.",
)


def piece_states(y):
    at, row = [LEFT + 197 * k for k in range(5)], y + 44
    notes = ("no partial", "a block is None", "none None, one Requested", "all Writing or Finished", "flushed, and Open")
    yield from heading("A piece", y, "and the download queue that its partial stands in (download_state)")
    yield from row_of(at, row, (STATES[4], STATES[0], STATES[1], STATES[2], FLUSHED), notes)
    yield from steps(at, row, (("first", "block"), ("last one", "asked for"), ("last one", "brought"), ("piece_", "passed")))
    yield from back(at[1], at[0], row, 12, "last block at work given back", inward=16)
    yield from back(at[2], at[1], row, 12, "a block given back", inward=24)
    yield from back(at[3], at[1], row, 46, "a block canceled", inward=-10)
    low, beside = row + 136, at[0] + BOX_WIDE + 14
    yield from box(at[0], low, *STATES[3])
    yield text(beside, low + 16, "a partial whose priority is 0, whatever its blocks; set_piece_priority above 0 takes it back", fill=INK)
    yield text(beside, low + 32, "to where its blocks say", fill=INK)
    yield from paragraph(ABOUT_PIECES, low + 66)


def states():
    shapes = [*title("The states of a download", "boxes are states, arrows the calls that lead from one to the next")]
    shapes += block_states(60)
    shapes += [line(LEFT, 306, WIDTH - LEFT, 306, FRAME)]
    shapes += piece_states(332)
    return whole(WIDTH, 632, shapes)


# ---- the phases
# The flag whose colour a phase has, its name, when it runs, how it goes, and the counter of its steps.
ROWS = (
    (FLAG_PRIORITIZE_PARTIALS, "partials", "PRIORITIZE_PARTIALS, or forced",
     "pieces begun, by rising piece; RAREST_FIRST: the rarest first, then the furthest on", "partial"),
    (FLAG_SUGGESTED_PIECES, "suggestions", "where some are lent", "as they are lent; one visited is not visited again", "suggest"),
    (FLAG_SEQUENTIAL_PIECES, "sequential", "SEQUENTIAL",
     "priority 7 in front of the list, then cursor to reverse cursor; REVERSE from the other end", ""),
    (FLAG_RAREST_FIRST, "rarest first", "RAREST_FIRST; behind sequential",
     "recent extents (PIECE_EXTENT_AFFINITY), then the list; REVERSE: backwards", "rare, reverse rare"),
    (FLAG_RANDOM_PIECES, "random", "neither of the two", "from a drawn piece round the torrent", "rand start, rand"),
    (FLAG_BACKUP1, "set aside", "", "blocks of partials that others work on, kept back by the phases before", ""),
    (FLAG_END_GAME, "end game", "not ON_PAROLE", "one block of a Full piece that another peer was asked for", "busy"),
)  # fmt: skip
ROW, FIRST_ROW = 46, 130
COLUMNS = (LEFT, 180, 392, 850)


def phase(k, flag, name, when, how, counter):
    y = FIRST_ROW + ROW * k
    yield rect(COLUMNS[0], y, 140, 28, PHASES[flag][1], rx=5)
    yield text(COLUMNS[0] + 70, y + 19, name, 13, fill="#ffffff", text_anchor="middle", font_weight="bold")
    for x, words in zip(COLUMNS[1:], (when, how, counter)):
        yield text(x, y + 18, words, 11 if x != COLUMNS[3] else 10, fill=INK)
    if k + 1 < len(ROWS):
        yield arrow((COLUMNS[0] + 70, y + 29), (COLUMNS[0] + 70, y + ROW - 1), PALE)


ABOUT_PHASES = (
    "First: D partials in the Downloading queue, b blocks a piece. Where D > peers × 3 / 2, rounded down, or D × b > 2,048, "
    "PRIORITIZE_PARTIALS is forced and no run is made.",
    "A piece is visited where the peer has it, it is not had and its priority is above 0; PASSING-OVER.md has what is left out then. "
    "A run of P blocks takes Open neighbours, too.",
)


def phases():
    shapes = [*title("The phases of a pick", "in this order; a pick ends where the blocks wanted are there"), *paragraph(ABOUT_PHASES, 56)]
    shapes += [text(x, FIRST_ROW - 14, words, fill=PALE) for x, words in zip(COLUMNS, ("phase", "when", "how", "counter"))]
    for k, row in enumerate(ROWS):
        shapes += phase(k, *row)
    return whole(WIDTH, FIRST_ROW + ROW * len(ROWS), shapes)


PICTURES = {"memory.svg": memory, "states.svg": states, "phases.svg": phases}


def draw_all():
    for name, drawn in PICTURES.items():
        (FOLDER / name).write_text(drawn(), encoding="utf-8")
    return 0


def stale(name):
    return not (FOLDER / name).exists() or (FOLDER / name).read_text(encoding="utf-8") != PICTURES[name]()


def check():
    wrong = [name for name in PICTURES if stale(name)]
    for name in wrong:
        print(f"diagrams: docs/pictures/{name} is not what is drawn: run python3 -m draw.diagrams", file=sys.stderr)
    if not wrong:
        print(f"{len(PICTURES)} diagrams are as they are drawn")
    return 1 if wrong else 0


if __name__ == "__main__":
    sys.exit(check() if sys.argv[1:] == ["--check"] else draw_all())
