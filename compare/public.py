"""`python3 -m compare.public CALLS SEED`: at least so many calls of every export, on any memory, each with what the reference answers.

The memories: pickers of every kind, whole, with each kind of number changed and with each buffer cut or lengthened; the least picker at
every length of every buffer, with every call; buffers that are all zero or hold anything. The arguments: sensible ones, negative and huge
ones, short draws, short output and short lists; whole and damaged images; geometries of every kind. Lines; `end` is the last one:

    words WORDS..
    cells CELLS..
    partials INDEX INFO_IDX FLAGS ..
    memory WORDS CELLS PARTIALS EDITS..
    call CALL|ANSWER|IMAGE
    needs TOTAL SIZE WORDS CELLS PARTIALS BYTES

A `memory` is the buffers above it, lent to so many words, cells and records, with the edits of compare/memory.py. The calls below it are
each made on this memory, and not one after the other. CALL and ANSWER are lines of docs/CALLS.md. IMAGE is the one that the call leaves:
in hexadecimal, `same`, or `-` where nothing may move."""
import argparse
import random
import sys

from compare.buffers import Shape, anything, laid_out, standing
from compare.faults import lengthened, swapped
from compare.memory import LARGEST, an_edit, edited, extent_edits, list_edits, record_edits
from compare.public_calls import CALLS, Around, a_call
from compare.states import BLOCK, a_picker, small_geometry, wide_geometry
from reference.calls import DRAWING, STILL, step
from reference.geometry import Memory, blocks_of, memory_for, pieces_of, valid_geometry
from reference.image import image
from reference.script import call_of
from reference.state import MAX_PARTIALS, MAX_PIECE_SIZE, MAX_PIECES

WORDS, CELLS, RECORDS = range(3)
MAKERS = ("new", "read")
CHANGES = {*DRAWING, *STILL, "pick_pieces"}
LONGEST_READ = 3000
MOST_LENGTHS = 150
WEIGHTS = [8 if name == "pick_pieces" else 3 if name in CHANGES.union(MAKERS) else 1 for name in CALLS]
# calls on a whole memory, on an edited one and on a cut one
WHOLE, EDITED, CUT = 40, 8, 6


# ---- geometries and images
def a_geometry(rng):
    """One of every kind; most are not valid."""
    size = rng.choice([-(2**31), -1, 0, 1, 2, 5, BLOCK, BLOCK + 1, MAX_PIECE_SIZE - 1, MAX_PIECE_SIZE, MAX_PIECE_SIZE + 1, 2**31 - 1])
    most = MAX_PIECES * size
    total = rng.choice([-(2**63), -1, 0, 1, 2, size, 3 * size + 1, most - 1, most, most + 1, 2**63 - 1, 5 * BLOCK, rng.getrandbits(62)])
    return max(-(2**63), total), size


def largest_image(n, b):
    """docs/MEMORY.md"""
    return 24 + 10 * n + min(n, MAX_PARTIALS) * (6 + 13 * b) + 25 + 5 * n


def show_needs(total, size):
    needs = (0, 0, 0, 0)
    if size > 0 and valid_geometry(total, size):
        n, b = pieces_of(total, size), blocks_of(size, size)
        needs = (*memory_for(n, b), largest_image(n, b))
    print("needs", total, size, *needs)


def a_damage(rng, data):
    """The image whole, cut, lengthened, or with some bytes changed."""
    kind = rng.randrange(10)
    if kind < 4:
        return data
    if kind < 6:
        return data[: rng.randrange(len(data))]
    if kind == 6:
        return rng.choice(list(lengthened(data)))
    if kind == 7:
        return next(swapped(rng, data))
    at = rng.randrange(len(data))
    return data[:at] + bytes([data[at] ^ rng.choice((1, 2, 4, 0x80, 0xFF))]) + data[at + 1 :]


# ---- a memory and its calls
class Lines:
    """Three buffers, which `memory` lines are about, and how many calls were shown."""

    def __init__(self, rng):
        self.rng, self.calls, self.buffers, self.images = rng, 0, None, []

    def lay_out(self, buffers):
        self.buffers = buffers
        for name, buffer in zip(("words", "cells", "partials"), buffers):
            print(name, *buffer)

    def picker(self, s):
        data = image(s)
        if len(data) <= LONGEST_READ:
            self.images = (self.images + [data])[-8:]
        self.lay_out(laid_out(self.rng, s))
        return Shape(s.total, s.size)

    def lengths(self):
        return len(self.buffers[WORDS]), len(self.buffers[CELLS]), len(self.buffers[RECORDS]) // 3

    def memory(self, names, edits=(), lent=None):
        """Shows the memory with its edits, and a call of each name on it."""
        lent = lent or self.lengths()
        edits = [e for e in edits if e[2] <= LARGEST[e[0]]]
        back = edited(self.buffers, edits)
        words, cells, records = self.buffers
        found = standing(words[: lent[0]], cells[: lent[1]], records[: 3 * lent[2]])
        edited(self.buffers, back)
        print("memory", *lent, *(f"{'wcp'[which]}{at}={value}" for which, at, value in edits))
        for name in names:
            self.show(name, lent, *found)

    def show(self, name, lent, refusal, shape, s):
        around = Around(shape, s, a_geometry(self.rng), a_damage(self.rng, self.rng.choice(self.images)))
        line = a_call(self.rng, name, around)
        call = call_of(line)._replace(memory=Memory(*lent))
        answer, after = due(call, refusal, shape, s)
        print(f"call {line}|{answer}|{left(call, answer, s, after)}")
        self.calls += 1

    def some(self, many):
        return self.rng.choices(CALLS, WEIGHTS, k=many)


def short_room(call, shape):
    """Fewer records are lent for a list than the shape has; judged before what stands in the memory."""
    places = {"get_availability_vec": shape.n, "piece_priorities": shape.n, "get_download_queue": shape.m}
    places |= {"get_downloaders": shape.b, "blocks_for_piece": shape.b}
    return call.room < places.get(call.name, 0)


def due(call, refusal, shape, s):
    """The answer, and the picker afterwards."""
    if call.name in MAKERS:
        return step(None, call)[:2]
    if refusal:
        return f"refused {2 if shape is not None and short_room(call, shape) else refusal}", s
    return step(s, call)[:2]


def left(call, answer, before, after):
    """The image that the call leaves."""
    if answer.startswith("refused") or call.name not in CHANGES.union(MAKERS):
        return "-"
    return "same" if after == before and call.name in CHANGES else image(after).hex()


# ---- memories
def every_length(needs):
    """Each buffer at each length up to its need and one more, the others as long as they have to be or one longer."""
    for which in range(3):
        for length in range(needs[which] + 2):
            lent = [need + length % 2 for need in needs]
            lent[which] = length
            yield tuple(lent)


def some_lengths(rng, shape):
    """One buffer cut anywhere, or all of them."""
    lent = [need + rng.randrange(2) for need in shape.needs]
    cut = range(3) if rng.random() < 0.2 else (rng.randrange(3),)
    for which in cut:
        lent[which] = rng.choice([rng.randrange(shape.needs[which] + 2), max(0, shape.needs[which] - 1)])
    return tuple(lent)


def some_edits(rng, shape, buffers):
    """Kinds of damage, one of each at most."""
    kinds = [list(make(rng, shape, buffers)) for make in (record_edits, list_edits, extent_edits)]
    picked = [rng.choice(kind) for kind in kinds if kind]
    for many in (1, 1, 1, 1, 2, 2, 3, 6):
        picked.append([an_edit(rng, shape, buffers) for _ in range(many)])
    return picked


def round_of(lines, s):
    """A picker, whole, edited and cut."""
    rng = lines.rng
    shape = lines.picker(s)
    lines.memory(lines.some(WHOLE))
    for edits in some_edits(rng, shape, lines.buffers):
        lines.memory(lines.some(EDITED), edits)
    for _ in range(6):
        lines.memory(lines.some(CUT), (), some_lengths(rng, shape))


def round_of_anything(lines):
    """No picker: all zero, or anything, sometimes behind a good geometry."""
    rng = lines.rng
    shape = Shape(*small_geometry(rng))
    words, cells, records = (need + 1 for need in shape.needs)
    if rng.random() < 0.3:
        lines.lay_out(([0] * words, [0] * cells, [0] * 3 * records))
    else:
        lines.lay_out((anything(rng, 64, words), anything(rng, 16, cells), anything(rng, 32, 3 * records)))
    total, size = small_geometry(rng)
    for edits in ([], [(WORDS, 0, total), (WORDS, 1, size)]):
        lines.memory(lines.some(EDITED), edits)
        lines.memory(lines.some(CUT), edits, some_lengths(rng, shape))


def short_geometry(rng):
    """One that needs few numbers, as every length of its buffers is tried."""
    while True:
        total, size = small_geometry(rng)
        if sum(Shape(total, size).needs) <= MOST_LENGTHS:
            return total, size


def every_call_at_every_length(lines, total, size):
    shape = lines.picker(a_picker(lines.rng, total, size))
    for lent in every_length(shape.needs):
        lines.memory(CALLS, (), lent)


def full_of_partials(lines):
    """As many partials as may stand, and Open pieces besides."""
    n = lines.rng.choice([513, 600, 1024])
    at = set(lines.rng.sample(range(n), MAX_PARTIALS))
    shape = lines.picker(a_picker(lines.rng, n, 1, at))
    marks = ("mark_as_downloading", "mark_as_writing", "mark_as_finished", "pick_pieces", "get_download_queue", "image")
    lines.memory(marks * 5)
    lines.memory(lines.some(EDITED), [an_edit(lines.rng, shape, lines.buffers)])


def largest(lines):
    """4,096 pieces of 256 blocks."""
    lines.picker(a_picker(lines.rng, MAX_PIECES * MAX_PIECE_SIZE - 1, MAX_PIECE_SIZE, set(lines.rng.sample(range(MAX_PIECES), 40))))
    lines.memory([name for name in lines.some(16) if name not in MAKERS])


def show_all(lines, many):
    every_call_at_every_length(lines, 1, 1)
    k = 0
    while lines.calls < many:
        rng = lines.rng
        round_of(lines, a_picker(rng, *(wide_geometry if k % 25 == 24 else small_geometry)(rng)))
        if k % 3 == 0:
            round_of_anything(lines)
            for _ in range(4):
                show_needs(*a_geometry(rng))
        if k % 40 == 0:
            full_of_partials(lines)
        if k % 300 == 5:
            largest(lines)
        if k % 100 == 99:
            every_call_at_every_length(lines, *short_geometry(rng))
        k += 1


def main():
    ap = argparse.ArgumentParser()
    ap.add_argument("calls", type=int)
    ap.add_argument("seed", type=int)
    a = ap.parse_args()
    show_all(Lines(random.Random(a.seed)), a.calls)
    print("end")
    return 0


if __name__ == "__main__":
    sys.exit(main())
