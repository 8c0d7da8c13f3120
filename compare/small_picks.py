"""Picks of small geometries, from a seed: pickers built field by field and a few picks on each.

Two families. Runs: 2 to 8 pieces of 1 to 4 blocks, a run near a multiple of b, 1 to 3 suggestions. Extents: 4 to 8 pieces of so many
blocks that they make two extents or more, two or more of them recent, most pieces had. The other numbers are small, so that where a
run, N or the list ends is met often."""
from compare.lists import a_peer
from compare.states import BLOCK, a_picker, an_order
from reference.blocks import free_from, longest_free
from reference.geometry import blocks_of, num_extents
from reference.image import image
from reference.options import (
    ALIGN_EXPANDED_PIECES,
    ON_PAROLE,
    PIECE_EXTENT_AFFINITY,
    PRIORITIZE_PARTIALS,
    RAREST_FIRST,
    REVERSE,
    SEQUENTIAL,
)
from reference.state import MAX_EXTENTS, MIN_DRAWS, OPEN

RUN_PICKERS = 200
EXTENT_PICKERS = 100
PICKS_EACH = 3
ORDERS = (0, 0, 0, RAREST_FIRST, RAREST_FIRST, RAREST_FIRST | REVERSE, SEQUENTIAL, SEQUENTIAL | REVERSE)


# ---- pickers
def run_geometry(rng):
    """2 to 8 pieces of 1 to 4 blocks; a piece of one block may be a few bytes, a last one shorter."""
    b, n = rng.randint(1, 4), rng.randint(2, 8)
    size = rng.choice([1, 5, BLOCK]) if b == 1 else b * BLOCK - rng.choice([0, 0, 1, BLOCK - 1])
    return (n - 1) * size + rng.choice([size, size, rng.randint(1, size)]), size


def extent_geometry(rng):
    """Extents of one, two or four pieces, and two of them at least."""
    b, n = rng.choice([(64, 8), (86, 4), (100, 5), (127, 7), (128, 6), (128, 8), (200, 4)])
    return (n - 1) * b * BLOCK + rng.randint(1, b * BLOCK), b * BLOCK


def with_had(rng, s, share):
    """Open pieces become had, so many of them; wishes mostly alike, so that runs and lists are long."""
    wish = lambda p: p.wish if rng.random() < 0.3 else rng.choice([4, 4, 4, 7])
    change = lambda p: p if p.state != OPEN else p._replace(had=rng.random() < share, wish=wish(p), count=p.count % 4)
    s = s._replace(pieces=tuple(change(p) for p in s.pieces))
    return s if s.stale else s._replace(order=an_order(rng, s))


def a_run_picker(rng):
    return with_had(rng, a_picker(rng, *run_geometry(rng)), rng.choice([0.0, 0.1, 0.5, 0.7]))


def some_recent(rng, s):
    many = num_extents(len(s.pieces), blocks_of(s.size, s.size))
    return s._replace(extents=tuple(rng.sample(range(many), rng.randint(2, min(many, MAX_EXTENTS)))))


def an_extent_picker(rng):
    """With few partials, which are long here."""
    while True:
        s = a_picker(rng, *extent_geometry(rng))
        if len(s.partials) <= 2:
            return some_recent(rng, with_had(rng, s, rng.choice([0.6, 0.8, 0.9])))


# ---- picks
def some_options(rng, usual):
    odd = (PRIORITIZE_PARTIALS, 0.3), (ALIGN_EXPANDED_PIECES, 0.4), (ON_PAROLE, 0.15), (PIECE_EXTENT_AFFINITY, 0.3)
    options = rng.choice(ORDERS)
    for flag, share in odd:
        options |= flag if rng.random() < (0.95 if flag == usual else share) else 0
    return options


def near(rng, number, lowest):
    """The number, one less or one more."""
    return max(lowest, number + rng.choice([-1, 0, 1]))


def a_run(rng, s, b):
    """Near a multiple of b, now and then near the longest stretch of free blocks of a partial."""
    if s.partials and rng.random() < 0.3:
        return near(rng, longest_free(rng.choice(s.partials))[0], 0)
    return near(rng, rng.randint(0, 4) * b, 0)


def a_number_wanted(rng, s, n, b):
    """Few, near whole pieces, or near the number of free blocks of a partial."""
    if s.partials and rng.random() < 0.3:
        return near(rng, len(free_from(rng.choice(s.partials), 0)), 1)
    return rng.choice([1, 2, 3, b, b + 1, 2 * b, 3 * b + 1, n * b, n * b + 5])


def a_bitfield(rng, n):
    data = bytes(255 if rng.random() < 0.7 else rng.getrandbits(8) | rng.getrandbits(8) for _ in range(-(-n // 8)))
    return f"{n} {data.hex()}"


def some_suggestions(rng, n):
    return ",".join(str(rng.randrange(n) if rng.random() < 0.95 else n) for _ in range(rng.randint(1, 3)))


def some_draws(rng, n):
    if rng.random() < 0.5:
        return f"draws={MIN_DRAWS}:" + ",".join(str(rng.randrange(n)) for _ in range(4))
    return f"draws={MIN_DRAWS}~{rng.getrandbits(32)}"


def pick_line(rng, s, usual, suggested):
    n, b = len(s.pieces), blocks_of(s.size, s.size)
    peers = rng.choice([0, 1, 10, 10, 10])
    suggestions = some_suggestions(rng, n) if rng.random() < suggested else "-"
    run = a_run(rng, s, b) if rng.random() < 0.85 else 0
    fields = f"{some_options(rng, usual)} {a_number_wanted(rng, s, n, b)} {run} {peers} {a_peer(rng)} {a_bitfield(rng, n)} {suggestions}"
    return f"pick_pieces {fields} {some_draws(rng, n)}"


def picks_on(rng, s, usual, suggested):
    """Each pick on what the one before left: all but the list and the recent extents is the same."""
    return [f"read {image(s).hex()}"] + [pick_line(rng, s, usual, suggested) for _ in range(PICKS_EACH)]


def small_picks(rng):
    lines = ["zero"]
    for _ in range(RUN_PICKERS):
        lines += picks_on(rng, a_run_picker(rng), None, 0.85)
    for _ in range(EXTENT_PICKERS):
        lines += picks_on(rng, an_extent_picker(rng), PIECE_EXTENT_AFFINITY, 0.3)
    return lines
