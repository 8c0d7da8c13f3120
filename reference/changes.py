"""The changes of a standing picker, refusals apart. Each gives the answer (None, or True or False), the next state and the draws
used."""
from .bucket import NO_BUCKET, bucket_at, is_reverse
from .geometry import EXTENT_BLOCKS, blocks_in_piece, blocks_per_piece, extent_for, extent_pieces, num_pieces
from .options import PIECE_EXTENT_AFFINITY, REVERSE, contains
from .order import relist
from .partials import (
    add_download_piece,
    blocks_in_state,
    close,
    find,
    make_reverse,
    progress,
    put,
    put_block,
    shut,
    unreverse,
    update_piece_state,
)
from .state import (
    DOWNLOADING,
    DOWNLOADING_REVERSE,
    DONT_DOWNLOAD,
    FINISHED,
    MAX_EXTENTS,
    NONE,
    OPEN,
    REQUESTED,
    WRITING,
    Block,
    outdated,
    with_piece,
    with_state,
)


# ---- availability
def with_count(s, i, count):
    return with_piece(s, i, s.pieces[i]._replace(count=count))


def all_counts(s, step):
    return s._replace(pieces=tuple(p._replace(count=p.count + step) for p in s.pieces))


def inc_refcount(s, i, draws):
    old = bucket_at(s, i)
    s, used = relist(with_count(s, i, s.pieces[i].count + 1), old, i, draws, 0)
    return None, s, used


def break_one_seed(s):
    """A seed turns out to lack a piece: it counts with each piece from now on."""
    return outdated(all_counts(s._replace(seeds=s.seeds - 1), 1))


def dec_refcount(s, i, draws):
    if s.pieces[i].count == 0:
        s = break_one_seed(s)
    old = bucket_at(s, i)
    s, used = relist(with_count(s, i, s.pieces[i].count - 1), old, i, draws, 0)
    return None, s, used


def with_seeds(s, seeds):
    """A first seed, or no seed any more, changes which pieces have a bucket."""
    out = s._replace(seeds=seeds)
    return outdated(out) if (seeds == 0) != (s.seeds == 0) else out


def inc_refcount_all(s):
    return None, with_seeds(s, s.seeds + 1), 0


def dec_refcount_all(s):
    return None, with_seeds(s, s.seeds - 1) if s.seeds > 0 else outdated(all_counts(s, -1)), 0


# ---- cursors
def settled(p):
    """Nothing of the piece is wanted any more."""
    return p.had or p.wish == DONT_DOWNLOAD


def cursor_after(s, i):
    """The first piece from i on that is not settled."""
    return next((j for j in range(i, num_pieces(s)) if not settled(s.pieces[j])), num_pieces(s))


def reverse_cursor_before(s, i):
    """One past the last piece below i that is not settled."""
    return next((j for j in range(i, 0, -1) if not settled(s.pieces[j - 1])), 0)


def no_range(s):
    return s._replace(cursor=num_pieces(s), reverse_cursor=0)


def cursors_past(s, i):
    """Piece i is settled now: a cursor that stands at it moves on."""
    if s.cursor == i and s.reverse_cursor == i + 1:
        return no_range(s)
    if s.cursor == i:
        return s._replace(cursor=cursor_after(s, i + 1))
    if s.reverse_cursor == i + 1:
        return s._replace(reverse_cursor=reverse_cursor_before(s, i))
    return s


# ---- wishes
def filter_cursors(s, i, wish):
    """The cursors where piece i, not had, begins or ends to be filtered."""
    if wish == DONT_DOWNLOAD:
        return cursors_past(s, i)
    return no_range(s) if s.cursor == s.reverse_cursor else s


def set_piece_priority(s, i, wish, draws):
    piece = s.pieces[i]
    if wish == piece.wish:
        return False, s, 0
    turned = (wish == DONT_DOWNLOAD) != (piece.wish == DONT_DOWNLOAD)
    if turned and not piece.had:
        s = filter_cursors(s, i, wish)
    old = bucket_at(s, i)
    s, used = relist(with_piece(s, i, piece._replace(wish=wish)), old, i, draws, 0)
    if piece.state != OPEN:
        s, used = update_piece_state(s, i, draws, used)
    return turned, s, used


# ---- extents
def worth_recording(s, i):
    """The other pieces of the extent have this one's wish, and not all are had."""
    others = [s.pieces[j] for j in extent_pieces(s, extent_for(s, i)) if j != i]
    return all(p.wish == s.pieces[i].wish for p in others) and not all(p.had for p in others)


def record_downloading_piece(s, i):
    if blocks_per_piece(s) >= EXTENT_BLOCKS or extent_for(s, i) in s.extents or len(s.extents) >= MAX_EXTENTS:
        return s
    return s._replace(extents=s.extents + (extent_for(s, i),)) if worth_recording(s, i) else s


# ---- marks
def opened(s, i, state, options, draws):
    """Open piece i becomes a partial, first in `state`."""
    old = bucket_at(s, i)
    s, used = relist(with_state(s, i, state), old, i, draws, 0)
    if contains(options, PIECE_EXTENT_AFFINITY):
        s = record_downloading_piece(s, i)
    return add_download_piece(s, i, draws, used)


def set_block(s, i, j, block, draws, used):
    """Block j of partial i replaced, and the piece's state after it."""
    s, _ = put_block(s, find(s, i), j, block)
    return update_piece_state(s, i, draws, used)


def mark_opening(s, i, j, state, block, options, draws):
    """A block of an Open piece marked: it becomes `block` unless it is Finished by its pad bytes."""
    s, used = opened(s, i, state, options, draws)
    if find(s, i).blocks[j].state == FINISHED:
        return False, s, used
    s, used = set_block(s, i, j, block, draws, used)
    return True, s, used


def turn(s, i, state, draws, used):
    """The piece's state turned reverse or back. A piece that gets a bucket by it is not put into the list: the list is stale."""
    old = bucket_at(s, i)
    out = with_state(s, i, state)
    if old == NO_BUCKET and bucket_at(out, i) != NO_BUCKET:
        return outdated(out), used
    return relist(out, old, i, draws, used)


def mark_as_downloading(s, i, j, peer, options, draws):
    reverse = contains(options, REVERSE)
    d = find(s, i)
    if d is None:
        state = DOWNLOADING_REVERSE if reverse else DOWNLOADING
        return mark_opening(s, i, j, state, Block(REQUESTED, 1, peer), options, draws)
    block = d.blocks[j]
    if block.state in (WRITING, FINISHED):
        return False, s, 0
    used = 0
    if reverse and not is_reverse(s.pieces[i].state) and blocks_in_state(d, REQUESTED) == 0:
        s, used = turn(s, i, make_reverse(s.pieces[i].state), draws, used)
    s, used = set_block(s, i, j, Block(REQUESTED, block.requesters + 1, peer), draws, used)
    if not reverse and is_reverse(s.pieces[i].state):
        s, used = turn(s, i, unreverse(s.pieces[i].state), draws, used)
    return True, s, used


def mark_as_writing(s, i, j, peer, draws):
    d = find(s, i)
    if d is None and s.pieces[i].had:
        return False, s, 0
    if d is None:
        return mark_opening(s, i, j, DOWNLOADING, Block(WRITING, 0, peer), 0, draws)
    block = d.blocks[j]
    if block.state in (WRITING, FINISHED):
        return False, put_block(s, d, j, block._replace(peer=peer))[0], 0
    s, used = set_block(s, i, j, Block(WRITING, 0, peer), draws, 0)
    return True, s, used


def piece_flushed(s, i):
    """The whole piece is on disk: had, its partial gone. It has no bucket before or after. A locked one stays."""
    if find(s, i).locked:
        return s
    s = close(s, i)
    return cursors_past(with_piece(s, i, s.pieces[i]._replace(had=True)), i)


def all_finished(s, d):
    return blocks_in_state(d, FINISHED) >= blocks_in_piece(s, d.piece)


def mark_as_finished(s, i, j, peer, draws):
    d = find(s, i)
    if d is None and s.pieces[i].had:
        return None, s, 0
    if d is None:
        _, s, used = mark_opening(s, i, j, DOWNLOADING, Block(FINISHED, 0, peer), 0, draws)
        return None, s, used
    block = d.blocks[j]
    if block.state == FINISHED:
        return None, s, 0
    # a Writing block keeps its peer where none brings the news
    keeper = block.peer if block.state == WRITING and peer is None else peer
    s, used = set_block(s, i, j, Block(FINISHED, block.requesters, keeper), draws, 0)
    d = find(s, i)
    if all_finished(s, d) and d.passed and not d.hashing:
        s = piece_flushed(s, i)
    return None, s, used


def give_back(s, d, j, block, draws):
    """Block j, which was in use, becomes `block`, which is free. A partial without a block in use is closed, unless it is hashed."""
    s, d = put_block(s, d, j, block)
    close_it = progress(d) == 0 and not d.hashing
    return shut(s, d.piece, draws, 0) if close_it else update_piece_state(s, d.piece, draws, 0)


def mark_as_canceled(s, i, j, peer, draws):
    """A Writing block is given back. It and every other one that is not Finished goes to the peer named, its requesters as they were."""
    d = find(s, i)
    if d is None or d.blocks[j].state == FINISHED:
        return None, s, 0
    block = d.blocks[j]._replace(peer=peer)
    if block.state != WRITING:
        return None, put_block(s, d, j, block)[0], 0
    s, used = give_back(s, d, j, block._replace(state=NONE), draws)
    return None, s, used


def abort_download(s, i, j, peer, draws):
    d = find(s, i)
    if d is None or d.blocks[j].state != REQUESTED:
        return None, s, 0
    block = d.blocks[j]
    requesters = max(block.requesters - 1, 0)
    if requesters > 0:
        left = Block(REQUESTED, requesters, None if block.peer == peer else block.peer)
        return None, put_block(s, d, j, left)[0], 0
    s, used = give_back(s, d, j, Block(NONE, 0, None), draws)
    return None, s, used


def lock_piece(s, i):
    d = find(s, i)
    return None, s if d is None else put(s, d._replace(passed=False, locked=True)), 0


def piece_passed(s, i):
    d = find(s, i)
    if d is None or d.locked:
        return None, s, 0
    d = d._replace(passed=True)
    s = put(s, d)
    return None, piece_flushed(s, i) if all_finished(s, d) else s, 0
