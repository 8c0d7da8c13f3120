"""The picker's state: exactly the image's fields. Nothing here can be computed from something else here, and `order` is empty
while `stale`."""
from typing import NamedTuple, Optional

# DownloadQueue
DOWNLOADING, FULL, FINISHED_QUEUE, ZERO_PRIO, OPEN, DOWNLOADING_REVERSE, FULL_REVERSE = range(7)
# BlockState
NONE, REQUESTED, WRITING, FINISHED = range(4)
# wishes (DownloadPriority)
DONT_DOWNLOAD, DEFAULT, TOP = 0, 4, 7

MAX_PIECES = 4096
MAX_PIECE_SIZE = 4_194_304
MAX_COUNT = 1000
MAX_PARTIALS = 512
MAX_EXTENTS = 5
MIN_DRAWS = 4352


class Piece(NamedTuple):
    count: int
    state: int
    wish: int
    had: bool
    pad: int


class Block(NamedTuple):
    state: int
    requesters: int
    peer: Optional[int]


class Partial(NamedTuple):
    piece: int
    passed: bool
    locked: bool
    hashing: bool
    blocks: tuple


class Picker(NamedTuple):
    total: int
    size: int
    seeds: int
    cursor: int
    reverse_cursor: int
    stale: bool
    pieces: tuple
    partials: tuple  # by rising piece
    extents: tuple  # oldest first
    order: tuple  # the bucket list


FRESH_PIECE = Piece(count=0, state=OPEN, wish=DEFAULT, had=False, pad=0)


def replaced(items, place, item):
    """The tuple with another item at a place."""
    return items[:place] + (item,) + items[place + 1 :]


def with_piece(s, i, piece):
    return s._replace(pieces=replaced(s.pieces, i, piece))


def with_state(s, i, state):
    return with_piece(s, i, s.pieces[i]._replace(state=state))


def outdated(s):
    """The state with its list stale."""
    return s._replace(stale=True, order=())
