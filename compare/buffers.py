"""A picker in three lent buffers, by the layout of crates/memory_layout/specs/Offsets.antt: words, cells, and records of partials, three
numbers to a record. What stands there is judged by the reader of images: the numbers are written as an image, as far as one can hold them."""
from reference.bucket import bucket_at
from reference.geometry import HEAD_WORDS, blocks_of, length_of_piece, pieces_of, valid_geometry
from reference.image import BLOCK, EXTENT, HEAD, PARTIAL, PIECE, PLACE, Fault, read, record
from reference.state import FINISHED, MAX_EXTENTS, MAX_PARTIALS, REQUESTED, WRITING

RANK_UNIT = 65536
GOOD, SHORT, ILL_FORMED = 0, 2, 3


class Shape:
    """Where the numbers of n pieces of b blocks stand, and how many there have to be."""

    def __init__(self, total, size):
        self.n, self.b = pieces_of(total, size), blocks_of(size, size)
        self.m = min(self.n, MAX_PARTIALS)
        self.needs = (HEAD_WORDS + 2 * self.n + self.m * self.b, 4 * self.n + 3 * self.m * self.b, self.m)

    def pad(self, i):
        return HEAD_WORDS + i

    def place(self, k):
        return HEAD_WORDS + self.n + k

    def peer(self, p, j):
        return HEAD_WORDS + 2 * self.n + p * self.b + j

    def piece_cell(self, f, i):
        return f * self.n + i

    def block_cell(self, f, p, j):
        return 4 * self.n + (f * self.m + p) * self.b + j


# ---- a picker's numbers
def put_head(words, s):
    head = [s.total, s.size, s.seeds, s.cursor, s.reverse_cursor, int(s.stale), len(s.order), len(s.partials), len(s.extents)]
    words[: len(head)] = head
    words[9 : 9 + len(s.extents)] = s.extents


def put_pieces(words, cells, shape, s):
    for i, p in enumerate(s.pieces):
        words[shape.pad(i)] = p.pad
        for f, v in enumerate((p.count, p.state, p.wish, int(p.had))):
            cells[shape.piece_cell(f, i)] = v
    for k, i in enumerate(s.order):
        words[shape.place(k)] = (bucket_at(s, i) + 1) * RANK_UNIT + i


def put_partials(words, cells, records, shape, s, places):
    for k, (d, p) in enumerate(zip(s.partials, places)):
        records[3 * k : 3 * k + 3] = [d.piece, p, d.passed + 2 * d.locked + 4 * d.hashing]
        for j, b in enumerate(d.blocks):
            for f, v in enumerate((b.state, b.requesters, int(b.peer is not None))):
                cells[shape.block_cell(f, p, j)] = v
            if b.peer is not None:
                words[shape.peer(p, j)] = b.peer


def anything(rng, width, many):
    """Numbers of so many bits that mean nothing; small ones, which could pass for something, more often than others."""
    return rng.choices((0, 0, 0, 1, 1, 2, 3, 4, 1000, rng.getrandbits(width), 2**width - 1), k=many)


def laid_out(rng, s):
    """The buffers, longer than they have to be by a place's blocks and one. Random: what is not read, and which partial has which place."""
    shape = Shape(s.total, s.size)
    words, cells, lent = (need + 1 for need in shape.needs)
    words, cells, records = (anything(rng, *x) for x in ((64, words + shape.b), (16, cells + shape.b), (32, 3 * lent)))
    put_head(words, s)
    put_pieces(words, cells, shape, s)
    put_partials(words, cells, records, shape, s, rng.sample(range(shape.m), len(s.partials)))
    return words, cells, records


# ---- the verdict
class NoImage(Exception):
    """Numbers that no image could hold."""


def places_of(records, many, shape):
    """The places of the live records, each its own."""
    places = records[1 : 3 * many : 3]
    if len(set(places)) < many or any(p >= shape.m for p in places):
        raise NoImage
    return places


def image_of(words, cells, records, shape):
    total, size, seeds, cursor, reverse_cursor, stale, listed, many, extents = words[:9]
    if stale > 1 or listed > (0 if stale else shape.n) or many > shape.m or extents > MAX_EXTENTS:
        raise NoImage
    out = [record(HEAD, (total, size, seeds, cursor, reverse_cursor, stale))]
    for i in range(shape.n):
        out.append(record(PIECE, [cells[shape.piece_cell(f, i)] for f in range(4)] + [words[shape.pad(i)]]))
    for k, p in enumerate(places_of(records, many, shape)):
        piece, flags = records[3 * k], records[3 * k + 2]
        out.append(record(PARTIAL, (piece, flags)))
        blocks = blocks_of(length_of_piece(total, size, piece), size) if piece < shape.n else 0
        for j in range(blocks):
            state, requesters, has = (cells[shape.block_cell(f, p, j)] for f in range(3))
            out.append(record(BLOCK, (state, requesters, has, words[shape.peer(p, j)] if has == 1 else 0)))
    out += [record(EXTENT, (e,)) for e in words[9 : 9 + extents]]
    out += [record(PLACE, (words[shape.place(k)] % RANK_UNIT,)) for k in range(listed)]
    return b"".join(out)


def picker_in(words, cells, records, shape):
    """The picker that stands there; a fault where none does."""
    s = read(image_of(words, cells, records, shape))
    if any(words[shape.place(k)] // RANK_UNIT != bucket_at(s, i) + 1 for k, i in enumerate(s.order)):
        raise NoImage
    return s


def counts_of(s):
    """Of each partial: how many blocks are requested, being written and finished."""
    states = [[b.state for b in d.blocks] for d in s.partials]
    return [row.count(state) for row in states for state in (REQUESTED, WRITING, FINISHED)]


def standing(words, cells, records):
    """The refusal of docs/DECISIONS.md 4, or 0; where the head says which, the shape of the picker; and the picker where one stands."""
    if len(words) < HEAD_WORDS:
        return SHORT, None, None
    if not valid_geometry(words[0], words[1]):
        return ILL_FORMED, None, None
    shape = Shape(words[0], words[1])
    if any(have < need for have, need in zip((len(words), len(cells), len(records) // 3), shape.needs)):
        return SHORT, shape, None
    try:
        return GOOD, shape, picker_in(words, cells, records, shape)
    except (NoImage, OverflowError, Fault):
        return ILL_FORMED, shape, None


def judged(words, cells, records):
    """The refusal, and then the counts of each partial."""
    refusal, _, s = standing(words, cells, records)
    return refusal, [] if s is None else counts_of(s)
