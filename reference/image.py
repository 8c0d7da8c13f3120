"""The image: writer, and a reader that accepts or gives the place of the first fault. Records of one byte of kind and a body whose
length the kind fixes, high byte first."""
from typing import NamedTuple, Optional

from .bucket import NO_BUCKET, bucket_at
from .geometry import blocks_in_piece, blocks_per_piece, length_of_piece, num_extents, pieces_of, valid_geometry
from .partials import make_reverse, progress, state_of, unreverse
from .state import MAX_COUNT, MAX_EXTENTS, MAX_PARTIALS, OPEN, Block, Partial, Picker, Piece

HEAD, PIECE, PARTIAL, BLOCK, EXTENT, PLACE, PICK = range(1, 8)
BODY_LENGTH = (23, 9, 5, 12, 4, 4, 17)
WIDTHS = {
    HEAD: (8, 4, 2, 4, 4, 1),
    PIECE: (2, 1, 1, 1, 4),
    PARTIAL: (4, 1),
    BLOCK: (1, 2, 1, 8),
    EXTENT: (4,),
    PLACE: (4,),
    PICK: (2, 2, 2, 2, 1, 8),
}


def body_length(kind):
    return BODY_LENGTH[kind - 1]


# ---- writer
def record(kind, values):
    return bytes([kind]) + b"".join(v.to_bytes(w, "big") for v, w in zip(values, WIDTHS[kind]))


def put_peer(peer):
    return (0, 0) if peer is None else (1, peer)


def put_block(b):
    return record(BLOCK, (b.state, b.requesters) + put_peer(b.peer))


def put_partial(d):
    flags = d.passed + 2 * d.locked + 4 * d.hashing
    return record(PARTIAL, (d.piece, flags)) + b"".join(put_block(b) for b in d.blocks)


def image(s):
    return (
        record(HEAD, (s.total, s.size, s.seeds, s.cursor, s.reverse_cursor, s.stale))
        + b"".join(record(PIECE, p) for p in s.pieces)
        + b"".join(put_partial(d) for d in s.partials)
        + b"".join(record(EXTENT, (e,)) for e in s.extents)
        + b"".join(record(PLACE, (i,)) for i in s.order)
    )


# ---- reader
class Fault(Exception):
    """Bytes that are no well-formed image; `place` is the start of the first record at fault."""

    def __init__(self, place):
        super().__init__(place)
        self.place = place


def split(body, widths):
    out, at = [], 0
    for w in widths:
        out.append(int.from_bytes(body[at : at + w], "big"))
        at += w
    return out


def take(data, at, kind, rule):
    """The fields of the record of this kind at this place, if they obey the rule; and the place after it."""
    end = at + 1 + body_length(kind)
    if end > len(data) or data[at] != kind:
        raise Fault(at)
    fields = split(data[at + 1 : end], WIDTHS[kind])
    if not rule(*fields):
        raise Fault(at)
    return fields, end


def peer_ok(has_peer, peer):
    return has_peer == 1 or (has_peer == 0 and peer == 0)


def get_peer(has_peer, peer):
    return peer if has_peer else None


def head_ok(total, size, seeds, cursor, reverse_cursor, stale):
    if not valid_geometry(total, size):
        return False
    n = pieces_of(total, size)
    return seeds <= MAX_COUNT and cursor <= n and reverse_cursor <= n and stale <= 1


def piece_ok(s, i):
    def rule(count, state, wish, had, pad):
        in_range = count + s.seeds <= MAX_COUNT and state <= 6 and wish <= 7 and had <= 1
        return in_range and (had == 0 or state == OPEN) and pad <= length_of_piece(s.total, s.size, i)

    return rule


def get_head(data):
    (total, size, seeds, cursor, reverse_cursor, stale), at = take(data, 0, HEAD, head_ok)
    return Picker(total, size, seeds, cursor, reverse_cursor, stale == 1, (), (), (), ()), at


def get_pieces(data, at, s):
    pieces = []
    for i in range(pieces_of(s.total, s.size)):
        (count, state, wish, had, pad), at = take(data, at, PIECE, piece_ok(s, i))
        pieces.append(Piece(count, state, wish, had == 1, pad))
    return s._replace(pieces=tuple(pieces)), at


def block_ok(state, requesters, has_peer, peer):
    return state <= 3 and requesters <= MAX_COUNT and peer_ok(has_peer, peer)


def state_ok(s, d):
    """The partial's piece stands in the state of its blocks and wish; without a block in hand in any."""
    piece = s.pieces[d.piece]
    due = state_of(d, piece.wish, len(d.blocks), OPEN)
    return (piece.wish > 0 and progress(d) == 0) or piece.state in (unreverse(due), make_reverse(due))


def get_blocks(data, at, many):
    blocks, last = [], at
    for _ in range(many):
        last = at
        (state, requesters, has_peer, peer), at = take(data, at, BLOCK, block_ok)
        blocks.append(Block(state, requesters, get_peer(has_peer, peer)))
    return tuple(blocks), last, at


def get_partial(data, at, s, i, before):
    """The partial of piece i, judged at its last block."""
    rule = lambda piece, flags: piece == i and flags <= 7 and before < MAX_PARTIALS
    (_, flags), at = take(data, at, PARTIAL, rule)
    blocks, last, at = get_blocks(data, at, blocks_in_piece(s, i))
    d = Partial(i, flags & 1 != 0, flags & 2 != 0, flags & 4 != 0, blocks)
    if not state_ok(s, d):
        raise Fault(last)
    return d, at


def get_partials(data, at, s):
    partials = []
    for i, piece in enumerate(s.pieces):
        if piece.state != OPEN:
            d, at = get_partial(data, at, s, i, len(partials))
            partials.append(d)
    return s._replace(partials=tuple(partials)), at


def get_extents(data, at, s):
    many = num_extents(len(s.pieces), blocks_per_piece(s))
    extents = []
    while at < len(data) and data[at] == EXTENT:
        rule = lambda e: e < many and e not in extents and len(extents) < MAX_EXTENTS
        (e,), at = take(data, at, EXTENT, rule)
        extents.append(e)
    return s._replace(extents=tuple(extents)), at


def get_order(data, at, s):
    """Where the list is not stale: each piece with a bucket once, buckets never falling."""
    if s.stale:
        return s, at
    buckets = [bucket_at(s, i) for i in range(len(s.pieces))]
    order, seen, lowest = [], set(), 0
    for _ in range(sum(1 for k in buckets if k != NO_BUCKET)):
        rule = lambda i: i < len(buckets) and buckets[i] != NO_BUCKET and i not in seen and buckets[i] >= lowest
        (i,), at = take(data, at, PLACE, rule)
        order.append(i)
        seen.add(i)
        lowest = buckets[i]
    return s._replace(order=tuple(order)), at


def read_front(data):
    """The picker whose image the bytes start with, and the place after it."""
    s, at = get_head(data)
    for part in (get_pieces, get_partials, get_extents, get_order):
        s, at = part(data, at, s)
    return s, at


def read(data):
    s, at = read_front(data)
    if at < len(data):
        raise Fault(at)
    return s


class PickRecord(NamedTuple):
    options: int
    wanted: int
    run: int
    peers: int
    peer: Optional[int]


def read_with_pick(data):
    """An image and one pick record, nothing left over."""
    s, at = read_front(data)
    rule = lambda options, wanted, run, peers, has_peer, peer: peer_ok(has_peer, peer)
    (options, wanted, run, peers, has_peer, peer), at = take(data, at, PICK, rule)
    if at < len(data):
        raise Fault(at)
    return s, PickRecord(options, wanted, run, peers, get_peer(has_peer, peer))
