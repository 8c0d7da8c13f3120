"""`python3 -m compare.memory COUNT SEED`: memories in three buffers, whole and damaged, each with the reference's verdict.

COUNT small pickers have each of their numbers set to 0, 1, its limit, the limit + 1 and its largest number, one at a time, and then two
at a time; each buffer of some of them is lent at every length up to its need + 1. Other small ones, whole and damaged, and a few of many
pieces, blocks and partials follow. Lines, their numbers parted by spaces; `end` is the last one:

    words WORDS..
    cells CELLS..
    partials INDEX INFO_IDX FLAGS ..
    try VERDICT WORDS CELLS PARTIALS EDITS.. [: COUNTS..]

A `try` is about the buffers above it, cut to so many words, cells and records, with edits such as `c5=7`: cell 5 is 7; `p5` is the last
number of the second record. COUNTS are those of a good one: requested, writing and finished of each partial."""
import argparse
import random
import sys

from compare.buffers import RANK_UNIT, Shape, judged, laid_out
from compare.states import BLOCK, a_picker, small_geometry, wide_geometry
from reference.geometry import HEAD_WORDS, length_of_piece, num_extents
from reference.state import MAX_COUNT, MAX_EXTENTS, MAX_PARTIALS, MAX_PIECE_SIZE, MAX_PIECES

LARGEST = (2**64 - 1, 2**16 - 1, 2**32 - 1)
MOST_RANK = (MAX_COUNT + 1) * 21
WORDS, CELLS, RECORDS = range(3)


# ---- limits
def word_limit(shape, words, at):
    """The most that a word may be; a peer and what is not read may be anything."""
    n, size = shape.n, words[1]
    extents = max(0, num_extents(n, shape.b) - 1)
    if at < HEAD_WORDS:
        head = (MAX_PIECES * size, MAX_PIECE_SIZE, MAX_COUNT, n, n, 1, n, shape.m, MAX_EXTENTS)
        return (head + (extents,) * 5 + (7, 7))[at]
    if at < shape.place(0):
        return length_of_piece(words[0], size, at - HEAD_WORDS)
    return MOST_RANK * RANK_UNIT + n - 1 if at < shape.peer(0, 0) else 2**63


def cell_limit(shape, words, at):
    if at < 4 * shape.n:
        return (MAX_COUNT - min(MAX_COUNT, words[2]), 6, 7, 1)[at // shape.n]
    blocks = shape.m * shape.b
    return (3, MAX_COUNT, 1, 7)[min(3, (at - 4 * shape.n) // blocks)]


def limit(shape, buffers, which, at):
    if which == RECORDS:
        return (shape.n - 1, shape.m - 1, 7)[at % 3]
    return (word_limit, cell_limit)[which](shape, buffers[WORDS], at)


def place_values(shape, word):
    """Other words for a place of the list: other pieces beside its rank, other ranks beside its piece."""
    rank, piece = divmod(word, RANK_UNIT)
    pieces = (0, 1, shape.n - 1, shape.n, RANK_UNIT - 1)
    ranks = (0, 1, abs(rank - 1), rank + 1, MOST_RANK, MOST_RANK + 1, RANK_UNIT, 2**48 - 1)
    return [rank % 2**48 * RANK_UNIT + i for i in pieces] + [r % 2**48 * RANK_UNIT + piece for r in ranks]


def values(shape, buffers, which, at):
    most = limit(shape, buffers, which, at)
    out = [0, 1, most, most + 1, LARGEST[which]]
    if which == WORDS and shape.place(0) <= at < shape.peer(0, 0):
        out += place_values(shape, buffers[WORDS][at])
    return out


# ---- damage: lists of edits, each a buffer, a place and a number
def one_edit(shape, buffers):
    """Each number, set to each of its values."""
    for which, buffer in enumerate(buffers):
        for at in range(len(buffer)):
            for value in values(shape, buffers, which, at):
                yield [(which, at, value)]


def an_edit(rng, shape, buffers):
    """A number of the head, a piece or a record, more often than one of a block."""
    which = rng.choice((WORDS, WORDS, CELLS, CELLS, RECORDS))
    most = (shape.peer(0, 0), 4 * shape.n, len(buffers[RECORDS]))[which] if rng.random() < 0.6 else len(buffers[which])
    at = rng.randrange(most)
    return which, at, rng.choice(values(shape, buffers, which, at))


def swapped(which, buffer, pairs):
    return [(which, at, buffer[other]) for a, b in pairs for at, other in ((a, b), (b, a))]


def moved(shape, buffers, k, place):
    """Record k with its blocks at another place, there or not."""
    words, cells, records = buffers
    old = records[3 * k + 1]
    peers = [(WORDS, shape.peer(place, j), words[shape.peer(old, j)]) for j in range(shape.b)]
    ats = [(shape.block_cell(f, place, j), shape.block_cell(f, old, j)) for f in range(3) for j in range(shape.b)]
    return [(RECORDS, 3 * k + 1, place)] + peers + [(CELLS, at, cells[other]) for at, other in ats]


def extent_edits(rng, shape, buffers):
    """One extent more: the first again, or the next one."""
    words = buffers[WORDS]
    many = words[8]
    if 0 < many < MAX_EXTENTS:
        for extent in (words[9], words[9] + 1):
            yield [(WORDS, 8, many + 1), (WORDS, 9 + many, extent)]


def record_edits(rng, shape, buffers):
    """Records out of order, one twice, a place twice, a place that is not there, one more or fewer, and anything behind the last."""
    words, _, records = buffers
    many = words[7]
    yield [(RECORDS, at, rng.getrandbits(32)) for at in range(3 * many, len(records))]
    for change in (-1, 1):
        yield [(WORDS, 7, (many + change) % 2**64)]
    if many:
        for place in (0, shape.m - 1, shape.m, 511, 512, 2**32 - 1):
            yield [(RECORDS, 3 * rng.randrange(many) + 1, place)]
        for place in (rng.randrange(shape.m), shape.m - 1, shape.m):
            yield moved(shape, buffers, rng.randrange(many), place)
    if many > 1:
        k, l = sorted(rng.sample(range(many), 2))
        yield swapped(RECORDS, records, [(3 * k + f, 3 * l + f) for f in range(3)])
        yield swapped(RECORDS, records, [(3 * k, 3 * l)])
        yield [(RECORDS, 3 * k + f, records[3 * l + f]) for f in range(3)]
        yield [(RECORDS, 3 * k + 1, records[3 * l + 1])]
        yield swapped(RECORDS, records, [(3 * k + 1, 3 * l + 1)])


def list_edits(rng, shape, buffers):
    """Places swapped or twice, ranks that are not the piece's, a place more or fewer."""
    words = buffers[WORDS]
    many = words[6]
    for change in (-1, 1):
        yield [(WORDS, 6, (many + change) % 2**64)]
    if many:
        at = shape.place(rng.randrange(many))
        for change in (-RANK_UNIT, RANK_UNIT, -1, 1, 2**32, 2**63):
            yield [(WORDS, at, (words[at] + change) % 2**64)]
    if many > 1:
        k = rng.randrange(many - 1)
        for l in (k + 1, rng.randrange(many)):
            yield swapped(WORDS, words, [(shape.place(k), shape.place(l))])
            yield [(WORDS, shape.place(k), words[shape.place(l)])]


# ---- lines
def edited(buffers, edits):
    """Makes the edits, and gives those that take them back."""
    back = []
    for which, at, value in edits:
        back.append((which, at, buffers[which][at]))
        buffers[which][at] = value
    return back[::-1]


class Memory:
    """Three buffers, which `try` lines are about."""

    def __init__(self, rng, s):
        self.shape, self.buffers = Shape(s.total, s.size), laid_out(rng, s)
        for name, buffer in zip(("words", "cells", "partials"), self.buffers):
            print(name, *buffer)

    def attempt(self, edits, lent=None):
        lent = lent or (len(self.buffers[WORDS]), len(self.buffers[CELLS]), len(self.buffers[RECORDS]) // 3)
        edits = [e for e in edits if e[2] <= LARGEST[e[0]]]
        back = edited(self.buffers, edits)
        words, cells, records = self.buffers
        verdict, counts = judged(words[: lent[0]], cells[: lent[1]], records[: 3 * lent[2]])
        edited(self.buffers, back)
        shown = [f"{'wcp'[which]}{at}={value}" for which, at, value in edits]
        print("try", verdict, *lent, *shown, *([":"] + counts if verdict == 0 else []))

    def attempts(self, all_edits):
        for edits in all_edits:
            self.attempt(edits)

    def lengths(self):
        """Each buffer at each length, the others as long as they have to be or one longer."""
        needs = self.shape.needs
        for which in range(3):
            for length in range(needs[which] + 2):
                others = [need + length % 2 for need in needs]
                others[which] = length
                self.attempt([], tuple(others))


def damaged(rng, memory, pairs):
    shape, buffers = memory.shape, memory.buffers
    memory.attempts(record_edits(rng, shape, buffers))
    memory.attempts(list_edits(rng, shape, buffers))
    memory.attempts(extent_edits(rng, shape, buffers))
    memory.attempts([an_edit(rng, shape, buffers) for _ in range(2)] for _ in range(pairs))


def is_rich(s):
    """Something of everything."""
    return len(s.partials) > 1 and len(s.order) > 2 and s.extents


def small_ones(rng, count):
    for k in range(count):
        while True:
            s = a_picker(rng, *small_geometry(rng))
            if len(s.pieces) <= 6 and s.pieces and (k % 4 == 0 or is_rich(s)):
                break
        memory = Memory(rng, s)
        memory.attempt([])
        memory.attempts(one_edit(memory.shape, memory.buffers))
        damaged(rng, memory, 60)
        if k % 2 == 0:
            memory.lengths()


def many_ones(rng, count):
    """Whole pickers, each damaged a few times."""
    for k in range(count):
        memory = Memory(rng, a_picker(rng, *(wide_geometry if k % 30 == 0 else small_geometry)(rng)))
        memory.attempt([])
        memory.attempts([an_edit(rng, memory.shape, memory.buffers)] for _ in range(4))


# pieces, blocks, partials, pairs of edits
LARGE = (
    (513, 1, 512, 12),
    (700, 2, 512, 12),
    (1024, 16, 8, 12),
    (4096, 1, 512, 12),
    (4096, 16, 64, 12),
    (4096, 256, 8, 8),
    (4096, 256, 64, 2),
)


def large_ones(rng):
    for n, b, partials, pairs in LARGE:
        at = set(rng.sample(range(n), partials))
        memory = Memory(rng, a_picker(rng, (n - 1) * b * BLOCK + rng.randint(1, b * BLOCK), b * BLOCK, at))
        memory.attempt([])
        damaged(rng, memory, pairs)
    full(rng)


def full(rng):
    """As many pieces, blocks and partials as there can be; the last partial's last block, too."""
    at = set(rng.sample(range(MAX_PIECES - 1), MAX_PARTIALS - 1)) | {MAX_PIECES - 1}
    memory = Memory(rng, a_picker(rng, MAX_PIECES * MAX_PIECE_SIZE, MAX_PIECE_SIZE, at))
    place = memory.buffers[RECORDS][3 * MAX_PARTIALS - 2]
    memory.attempt([])
    memory.attempt([(CELLS, memory.shape.block_cell(1, place, 255), MAX_COUNT + 1)])
    memory.attempt([(RECORDS, 3 * MAX_PARTIALS - 1, 8)])
    memory.attempt([(RECORDS, 3 * MAX_PARTIALS - 2, memory.buffers[RECORDS][1])])


def main():
    ap = argparse.ArgumentParser()
    ap.add_argument("count", type=int)
    ap.add_argument("seed", type=int)
    a = ap.parse_args()
    rng = random.Random(a.seed)
    small_ones(rng, a.count)
    many_ones(rng, 20 * a.count)
    large_ones(rng)
    print("end")
    return 0


if __name__ == "__main__":
    sys.exit(main())
