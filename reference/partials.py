"""Partials and their blocks: finding, opening, closing, `update_piece_state`, the four queues and the counts."""
from .bucket import bucket_at, is_reverse
from .geometry import blocks_in_piece, payload_blocks_in_piece
from .order import relist
from .state import (
    DOWNLOADING,
    DOWNLOADING_REVERSE,
    FINISHED,
    FINISHED_QUEUE,
    FULL,
    FULL_REVERSE,
    NONE,
    OPEN,
    REQUESTED,
    ZERO_PRIO,
    Block,
    Partial,
    replaced,
    with_state,
)

NUM_QUEUES = 4


def queue(state):
    """The queue of a state: the reverse ones stand with the plain ones."""
    return {DOWNLOADING_REVERSE: DOWNLOADING, FULL_REVERSE: FULL}.get(state, state)


def make_reverse(state):
    return {DOWNLOADING: DOWNLOADING_REVERSE, FULL: FULL_REVERSE}.get(state, state)


unreverse = queue


def find(s, piece):
    """The partial of a piece, or None."""
    return next((d for d in s.partials if d.piece == piece), None)


def blocks_in_state(d, state):
    return sum(1 for b in d.blocks if b.state == state)


def progress(d):
    """Blocks that are not free."""
    return len(d.blocks) - blocks_in_state(d, NONE)


def in_queue(s, which):
    """The partials of a queue, by rising piece."""
    return [d for d in s.partials if queue(s.pieces[d.piece].state) == which]


def put(s, d):
    """The partial of its piece replaced."""
    return s._replace(partials=tuple(d if e.piece == d.piece else e for e in s.partials))


def put_block(s, d, j, block):
    """Block j of a partial replaced, and the partial with it."""
    d = d._replace(blocks=replaced(d.blocks, j, block))
    return put(s, d), d


def close(s, piece):
    """The partial gone, its piece Open. The list is the caller's to mend."""
    s = s._replace(partials=tuple(d for d in s.partials if d.piece != piece))
    return with_state(s, piece, OPEN)


def state_of(d, wish, blocks, current):
    """The state that `update_piece_state` gives; Open where it would leave the piece as it is."""
    if wish == 0:
        return ZERO_PRIO
    if progress(d) == 0 and not d.hashing:
        return OPEN
    if progress(d) < blocks:
        return DOWNLOADING_REVERSE if is_reverse(current) else DOWNLOADING
    if blocks_in_state(d, REQUESTED) > 0:
        return FULL_REVERSE if is_reverse(current) else FULL
    return FINISHED_QUEUE


def update_piece_state(s, piece, draws, used):
    """The piece's state made that of its blocks and wish, and the list with it."""
    current = s.pieces[piece].state
    new = state_of(find(s, piece), s.pieces[piece].wish, blocks_in_piece(s, piece), current)
    if new in (current, OPEN):
        return s, used
    old = bucket_at(s, piece)
    return relist(with_state(s, piece, new), old, piece, draws, used)


def fresh_blocks(s, piece):
    """The blocks of a piece just opened: those of pad bytes alone are Finished."""
    payload = payload_blocks_in_piece(s, piece)
    return tuple(Block(NONE if j < payload else FINISHED, 0, None) for j in range(blocks_in_piece(s, piece)))


def open_partial(s, piece, state, draws, used):
    """An Open piece becomes a partial in `state`; its blocks may move it on at once."""
    old = bucket_at(s, piece)
    s, used = relist(with_state(s, piece, state), old, piece, draws, used)
    return add_download_piece(s, piece, draws, used)


def add_download_piece(s, piece, draws, used):
    d = Partial(piece, False, False, False, fresh_blocks(s, piece))
    s = s._replace(partials=tuple(sorted(s.partials + (d,), key=lambda e: e.piece)))
    return update_piece_state(s, piece, draws, used)


def shut(s, piece, draws, used):
    """The partial closed and the list mended."""
    old = bucket_at(s, piece)
    return relist(close(s, piece), old, piece, draws, used)
