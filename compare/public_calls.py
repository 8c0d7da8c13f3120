"""Random calls of every export, as lines of docs/CALLS.md, with arguments of every kind: sensible ones, negative and huge ones, and too
little lent for draws, output and lists."""
from typing import NamedTuple, Optional

from compare.states import PEERS
from reference.calls import MORE_OUTPUT
from reference.geometry import blocks_in_piece
from reference.image import image
from reference.script import HEX, LIST, NUMBER, OPTIONS, PEER, SHAPES, WITH_DRAWS
from reference.state import MIN_DRAWS, OPEN

CALLS = [name for name in SHAPES if name != "zero"]
LOWEST, HIGHEST = -(2**31), 2**31 - 1
SENSIBLE = 0.88


class Around(NamedTuple):
    """What a call's arguments are drawn around: the shape and the picker where there is one, a geometry and bytes to read."""

    shape: Optional[object]
    picker: Optional[object]
    geometry: tuple
    data: bytes

    @property
    def n(self):
        return 3 if self.shape is None else self.shape.n

    @property
    def b(self):
        return 2 if self.shape is None else self.shape.b


def outside(rng, end):
    return rng.choice([LOWEST, -1, end, end + 1, 511, 512, 4096, 65536, HIGHEST])


# ---- pieces, blocks and places
def a_piece(rng, around):
    """One with a partial or an Open one more often than others."""
    if rng.random() > SENSIBLE:
        return outside(rng, around.n)
    s, at = around.picker, rng.randrange(around.n)
    if s is not None and s.partials and rng.random() < 0.6:
        return rng.choice(s.partials).piece
    if s is not None and rng.random() < 0.3:
        return rng.choice([i for i, p in enumerate(s.pieces) if p.state == OPEN] or [at])
    return at


def a_block(rng, around, piece):
    s = around.picker
    many = blocks_in_piece(s, piece) if s is not None and 0 <= piece < around.n else around.b
    return rng.randrange(many) if rng.random() < SENSIBLE else outside(rng, many)


def a_place(rng, around):
    s = around.picker
    end = rng.choice([5, 6, around.n] if s is None else [len(s.partials), len(s.extents), len(s.order)])
    return rng.randrange(end) if end and rng.random() < 0.7 else outside(rng, end)


def a_peer(rng):
    peer = rng.choice(PEERS + (rng.getrandbits(64),))
    return "-" if peer is None else str(peer)


def options(rng):
    return rng.choice([0, 1, 2, 16, 128, 130, rng.getrandbits(8), rng.getrandbits(16)])


# ---- picks
def a_number(rng, low, high):
    """Within the limits, at them, or beyond."""
    if rng.random() < 0.95:
        return rng.choice([low, high, low + 1, min(high, low + 3), rng.randint(low, high)])
    return rng.choice([LOWEST, -1, low - 1, high + 1, HIGHEST])


def bits_and_bytes(rng, n):
    """As many as there are pieces, or not."""
    kind = rng.random()
    bits = n if kind < 0.95 else rng.choice([0, n - 1, n + 1, n + 8, 2**63 - 1])
    many = (n + 7) // 8 if kind < 0.9 or kind > 0.97 else rng.choice([0, (n + 7) // 8 + 1, max(0, (n + 7) // 8 - 1)])
    full = rng.random() < 0.5
    return bits, bytes(255 if full else rng.getrandbits(8) | rng.getrandbits(8) for _ in range(many))


def suggestions(rng, n):
    many = rng.choice([0, 0, 0, 1, 2, 5, 256] if rng.random() < 0.97 else [257, 300])
    return [rng.randrange(n) if rng.random() < 0.9 else outside(rng, n) for _ in range(many)]


def a_pick(rng, around):
    picked = options(rng)
    if picked & 17 == 17 and rng.random() < 0.9:
        picked ^= rng.choice([1, 16])
    wanted, run, peers = a_number(rng, 1, 2048), rng.choice([0, a_number(rng, 0, 2048)]), a_number(rng, 0, 1000)
    bits, data = bits_and_bytes(rng, around.n)
    listed = ",".join(map(str, suggestions(rng, around.n))) or "-"
    need = max(0, wanted + run + MORE_OUTPUT) if wanted + run < 4097 else 4351
    free = rng.choice([need, need, need + 2]) if rng.random() < SENSIBLE else rng.choice([0, need - 1, max(0, need - 300)])
    return f"pick_pieces {picked} {wanted} {run} {peers} {a_peer(rng)} {bits} {data.hex() or '-'} {listed} free={max(0, free)}"


# ---- what is lent
def draws(rng):
    kind = rng.random()
    if kind < 0.94:
        return f"draws={MIN_DRAWS + int(kind < 0.05)}~{rng.getrandbits(64)}"
    return f"draws={rng.choice([0, 1, 100, MIN_DRAWS - 1])}" if kind < 0.98 else f"draws={MIN_DRAWS}"


def room(rng, need):
    return f"room={need + rng.randrange(2) if rng.random() < 0.8 else rng.choice([0, rng.randrange(need + 1), max(0, need - 1)])}"


def room_of(rng, name, around):
    shape = around.shape
    if name == "image":
        return room(rng, 700 if around.picker is None else len(image(around.picker)))
    needs = {"get_download_queue": 3 if shape is None else shape.m, "get_downloaders": around.b, "blocks_for_piece": around.b}
    return room(rng, needs.get(name, around.n))


# ---- a call
TAKES_ROOM = {"image", "get_availability_vec", "piece_priorities", "get_download_queue", "get_downloaders", "blocks_for_piece"}
OF_PLACE = {"partial_at", "recent_extent", "list_place"}


def arguments(rng, name, around):
    """Of any call but those that make a picker and the pick."""
    piece = a_place(rng, around) if name in OF_PLACE else a_piece(rng, around)
    second = rng.choice([0, 1, 4, 7, 7, 8, 255]) if name == "set_piece_priority" else a_block(rng, around, piece)
    numbers = iter((piece, second))
    words = {NUMBER: lambda: str(next(numbers)), PEER: lambda: a_peer(rng), OPTIONS: lambda: str(options(rng))}
    return [words[kind]() for kind in SHAPES[name]]


def a_call(rng, name, around):
    """A line of docs/CALLS.md."""
    if name == "new":
        return "new {} {}".format(*around.geometry)
    if name == "read":
        return f"read {around.data.hex() or '-'}"
    if name == "pick_pieces":
        return f"{a_pick(rng, around)} {draws(rng)}"
    words = [name] + arguments(rng, name, around)
    if name in WITH_DRAWS:
        words.append(draws(rng))
    if name in TAKES_ROOM:
        words.append(room_of(rng, name, around))
    return " ".join(words)
