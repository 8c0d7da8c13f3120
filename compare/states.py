"""Random pickers, built field by field: any state whose image is accepted, whether or not calls can lead there."""
from reference.bucket import NO_BUCKET, bucket_at
from reference.geometry import blocks_of, length_of_piece, num_extents, pieces_of
from reference.partials import make_reverse, progress, state_of
from reference.state import (
    DOWNLOADING,
    FINISHED,
    MAX_COUNT,
    MAX_EXTENTS,
    MAX_PARTIALS,
    OPEN,
    Block,
    Partial,
    Picker,
    Piece,
)

BLOCK = 16384
PEERS = (None, 0, 1, 2, 3, 2**64 - 1)


def small_geometry(rng):
    """Up to a dozen pieces of up to six blocks."""
    size = rng.choice([1, 2, 7, 100, BLOCK - 1, BLOCK, BLOCK + 1, 2 * BLOCK, 3 * BLOCK, 4 * BLOCK, 4 * BLOCK + 5, 6 * BLOCK])
    n = rng.choice([1, 2, 2, 3, 4, 5, 6, 8, 9, 12])
    return (n - 1) * size + rng.choice([1, size, rng.randint(1, size)]), size


def wide_geometry(rng):
    """Pieces and blocks in between, extents of two to eight pieces among them."""
    b = rng.choice([8, 16, 17, 31, 64, 100, 128, 200, 255, 256])
    size = b * BLOCK - rng.choice([0, 0, 1, BLOCK - 1])
    n = rng.choice([2, 5, 16, 17, 40, 70])
    return (n - 1) * size + rng.randint(1, size), size


def huge_geometry(rng):
    b = rng.choice([1, 1, 16, 256])
    size = b * BLOCK
    n = rng.choice([513, 600, 1024, 4096, 4096]) if b < 256 else rng.choice([520, 1024, 4096])
    return (n - 1) * size + rng.randint(1, size), size


def a_count(rng, seeds):
    most = MAX_COUNT - seeds
    return min(most, rng.choice([0, 0, 1, 1, 2, 3, rng.randint(0, 9), max(0, most - rng.randint(0, 1))]))


def a_pad(rng, length):
    if rng.random() < 0.75:
        return 0
    return min(length, rng.choice([length, 1, BLOCK, BLOCK + 1, 2 * BLOCK, rng.randint(0, length)]))


def a_block(rng, idle):
    state = 0 if idle else rng.choice([0, 0, 1, 1, 2, 3, 3])
    requesters = rng.choice([0, 1, 1, 2, 3, MAX_COUNT - 1, MAX_COUNT]) if rng.random() < 0.5 else int(state == 1)
    return Block(state, requesters, rng.choice(PEERS))


def some_blocks(rng, many):
    """Free ones, all alike, all at work, or a mixture."""
    kind = rng.random()
    if kind < 0.25:
        return tuple(a_block(rng, True) for _ in range(many))
    if kind < 0.45:
        return (Block(rng.choice([1, 1, 2, FINISHED]), rng.choice([0, 1, 2]), rng.choice(PEERS)),) * many
    if kind < 0.6:
        return tuple(a_block(rng, False)._replace(state=rng.choice([1, 2, 3])) for _ in range(many))
    return tuple(a_block(rng, False) for _ in range(many))


def a_state(rng, d, wish, many):
    """A state that the partial may stand in."""
    if wish > 0 and progress(d) == 0:
        return rng.choice([k for k in range(7) if k != OPEN])
    due = state_of(d, wish, many, DOWNLOADING)
    return rng.choice([due, make_reverse(due)])


def a_partial(rng, i, many):
    flag = lambda: rng.random() < 0.2
    return Partial(i, flag(), flag(), flag(), some_blocks(rng, many))


def a_piece(rng, s, i, partial_share):
    """A piece, and its partial or None."""
    length = length_of_piece(s.total, s.size, i)
    wish = rng.choice([0, 1, 4, 4, 4, 4, 6, 7, 7, 7])
    piece = Piece(a_count(rng, s.seeds), OPEN, wish, False, a_pad(rng, length))
    if rng.random() < partial_share:
        many = blocks_of(length, s.size)
        d = a_partial(rng, i, many)
        return piece._replace(state=a_state(rng, d, wish, many)), d
    return piece._replace(had=rng.random() < 0.15), None


def an_order(rng, s):
    """The list in a random order of each group."""
    listed = [i for i in range(len(s.pieces)) if bucket_at(s, i) != NO_BUCKET]
    rng.shuffle(listed)
    return tuple(sorted(listed, key=lambda i: bucket_at(s, i)))


def some_extents(rng, n, b):
    many = num_extents(n, b)
    return tuple(rng.sample(range(many), rng.randint(0, min(many, MAX_EXTENTS))))


def a_picker(rng, total, size, at=None):
    """Any picker of this geometry; with `at`, one with partials of just these pieces."""
    n = pieces_of(total, size)
    seeds = rng.choice([0, 0, 0, 1, 1, 2, rng.randint(0, MAX_COUNT)])
    stale = rng.random() < 0.4
    b = blocks_of(size, size)
    s = Picker(total, size, seeds, rng.randint(0, n), rng.randint(0, n), stale, (), (), some_extents(rng, n, b), ())
    share = rng.choice([0.0, 0.2, 0.5, 0.9] if n <= MAX_PARTIALS else [0.05, 0.5, 1.0])
    shares = [share if i < MAX_PARTIALS else 0 for i in range(n)] if at is None else [int(i in at) for i in range(n)]
    made = [a_piece(rng, s, i, x) for i, x in enumerate(shares)]
    s = s._replace(pieces=tuple(p for p, _ in made), partials=tuple(d for _, d in made if d is not None))
    return s if stale else s._replace(order=an_order(rng, s))
