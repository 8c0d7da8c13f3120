"""The questions: the Rust's getters, then one for each field of the image that no getter shows by itself. Each gives a list of
numbers, NOTHING or STALE. Totals are counted from the fields."""
from .bucket import bucket_at
from .geometry import (
    block_size,
    blocks_in_piece,
    blocks_per_piece,
    num_pieces,
    payload_blocks_in_piece,
    piece_size,
)
from .partials import NUM_QUEUES, blocks_in_state, find, in_queue
from .state import DONT_DOWNLOAD, FINISHED, NONE, OPEN, REQUESTED, WRITING

NOTHING = "nothing"
STALE = "stale"


# ---- totals
def has(s, i):
    """`have_piece`: had, or passed while still a partial."""
    d = find(s, i)
    return s.pieces[i].had or (d is not None and d.passed)


def passed_pieces(s):
    return {d.piece for d in s.partials if d.passed}


def held(s):
    """The pieces that are had or passed."""
    passed = passed_pieces(s)
    return [i for i, p in enumerate(s.pieces) if p.had or i in passed]


def unwished(s, pieces):
    return [i for i in pieces if s.pieces[i].wish == DONT_DOWNLOAD]


def pads(s, pieces):
    return sum(s.pieces[i].pad for i in pieces)


def not_held(s):
    there = set(held(s))
    return [i for i in range(num_pieces(s)) if i not in there]


def num_have(s):
    return len(held(s))


def num_filtered(s):
    return len(unwished(s, not_held(s)))


def num_have_filtered(s):
    return len(unwished(s, held(s)))


def num_pad_bytes(s):
    return pads(s, range(num_pieces(s)))


def last(s):
    return num_pieces(s) - 1


def wishes_last(s):
    return s.pieces[last(s)].wish != DONT_DOWNLOAD


def want(s):
    left_out = unwished(s, range(num_pieces(s)))
    return [num_pieces(s) - len(left_out), num_pad_bytes(s) - pads(s, left_out), wishes_last(s)]


def have_want(s):
    there = held(s)
    left_out = unwished(s, there)
    return [len(there) - len(left_out), pads(s, there) - pads(s, left_out), has(s, last(s)) and wishes_last(s)]


def have(s):
    return [num_have(s), pads(s, held(s)), has(s, last(s))]


def all_pieces(s):
    return [num_pieces(s), num_pad_bytes(s), True]


def is_finished(s):
    return num_pieces(s) - num_filtered(s) <= num_have(s)


def num_want_left(s):
    return num_pieces(s) - num_have(s) - num_filtered(s) + num_have_filtered(s)


def distributed_copies(s):
    """The lowest count of the pieces, a had one counting once more, with the seeds; and how many pieces are above it, in thousandths."""
    copies = [p.count + p.had for p in s.pieces]
    lowest = min(copies)
    above = sum(1 for c in copies if c > lowest)
    return [lowest + s.seeds, above * 1000 // num_pieces(s)]


# ---- pieces
def is_piece_finished(s, i):
    d = find(s, i)
    if s.pieces[i].had or d is None:
        return s.pieces[i].had
    return blocks_in_state(d, FINISHED) + blocks_in_state(d, WRITING) >= blocks_in_piece(s, i)


def piece_stats(s, i):
    p = s.pieces[i]
    return [p.count + s.seeds, bucket_at(s, i), p.had, p.state != OPEN]


def info(d):
    counts = [blocks_in_state(d, k) for k in (FINISHED, WRITING, REQUESTED)]
    return [d.piece, counts[0], d.passed, counts[1], d.locked, counts[2], d.hashing]


def piece_info(s, i):
    d = find(s, i)
    if d is not None:
        return info(d)
    return [i, blocks_in_piece(s, i) if s.pieces[i].had else 0, 0, 0, 0, 0, 0]


def get_download_queue(s):
    return [v for q in range(NUM_QUEUES) for d in in_queue(s, q) for v in info(d)]


def get_download_queue_sizes(s):
    return [len(in_queue(s, q)) for q in range(NUM_QUEUES)]


# ---- blocks
def peer_or_none(peer):
    return [0, 0] if peer is None else [1, peer]


def block_at(s, i, j):
    d = find(s, i)
    return None if d is None else d.blocks[j]


def is_downloaded(s, i, j):
    block = block_at(s, i, j)
    return s.pieces[i].had or (block is not None and block.state in (WRITING, FINISHED))


def is_finished_block(s, i, j):
    block = block_at(s, i, j)
    return s.pieces[i].had or (block is not None and block.state == FINISHED)


def is_requested(s, i, j):
    block = block_at(s, i, j)
    return block is not None and block.state == REQUESTED


def num_peers_block(s, i, j):
    block = block_at(s, i, j)
    return 0 if block is None else block.requesters


def get_downloader(s, i, j):
    block = block_at(s, i, j)
    return peer_or_none(None if block is None or block.state == NONE else block.peer)


def get_downloaders(s, i):
    d = find(s, i)
    peers = [None] * blocks_in_piece(s, i) if d is None else [b.peer for b in d.blocks]
    return [v for peer in peers for v in peer_or_none(peer)]


def blocks_for_piece(s, i):
    d = find(s, i)
    return NOTHING if d is None else [v for b in d.blocks for v in [b.state, b.requesters] + peer_or_none(b.peer)]


# ---- fields
def partial_field(name):
    def ask(s, i):
        d = find(s, i)
        return NOTHING if d is None else [getattr(d, name)]

    return ask


def block_field(read):
    def ask(s, i, j):
        block = block_at(s, i, j)
        return NOTHING if block is None else read(block)

    return ask


def place_in(items, place):
    return [items[place]] if 0 <= place < len(items) else NOTHING


def list_place(s, place):
    return STALE if s.stale else [s.order[place]]


def one(ask):
    """A question with a single number."""
    return lambda s, *args: [ask(s, *args)]


WHOLE = {
    "num_pieces": one(num_pieces),
    "block_size": one(block_size),
    "blocks_per_piece": one(blocks_per_piece),
    "num_pad_bytes": one(num_pad_bytes),
    "cursor": one(lambda s: s.cursor),
    "reverse_cursor": one(lambda s: s.reverse_cursor),
    "num_have": one(num_have),
    "num_filtered": one(num_filtered),
    "num_have_filtered": one(num_have_filtered),
    "num_seeds": one(lambda s: s.seeds),
    "is_finished": one(is_finished),
    "is_seeding": one(lambda s: num_have(s) == num_pieces(s)),
    "num_want_left": one(num_want_left),
    "get_download_queue_size": one(lambda s: len(s.partials)),
    "distributed_copies": distributed_copies,
    "want": want,
    "have_want": have_want,
    "have": have,
    "all_pieces": all_pieces,
    "get_download_queue_sizes": get_download_queue_sizes,
    "total_size": one(lambda s: s.total),
    "full_piece_size": one(lambda s: s.size),
    "dirty": one(lambda s: s.stale),
}

# with an answer of several records
LISTS = {
    "get_availability_vec": lambda s: [p.count + s.seeds for p in s.pieces],
    "piece_priorities": lambda s: [p.wish for p in s.pieces],
    "get_download_queue": get_download_queue,
}

OF_PIECE = {
    "blocks_in_piece": one(blocks_in_piece),
    "payload_blocks_in_piece": one(payload_blocks_in_piece),
    "piece_size": one(piece_size),
    "pad_bytes_in_piece": one(lambda s, i: s.pieces[i].pad),
    "get_availability": one(lambda s, i: s.pieces[i].count + s.seeds),
    "have_piece": one(has),
    "is_piece_finished": one(is_piece_finished),
    "is_downloading": one(lambda s, i: s.pieces[i].state != OPEN),
    "is_hashing": one(lambda s, i: find(s, i) is not None and find(s, i).hashing),
    "is_piece_flushed": one(lambda s, i: s.pieces[i].had),
    "piece_priority": one(lambda s, i: s.pieces[i].wish),
    "piece_stats": piece_stats,
    "piece_info": piece_info,
    "peer_count": one(lambda s, i: s.pieces[i].count),
    "download_state": one(lambda s, i: s.pieces[i].state),
    "passed_hash_check": partial_field("passed"),
    "locked": partial_field("locked"),
    "hashing": partial_field("hashing"),
}

LISTS_OF_PIECE = {"get_downloaders": get_downloaders, "blocks_for_piece": blocks_for_piece}

OF_BLOCK = {
    "num_peers_block": one(num_peers_block),
    "is_requested": one(is_requested),
    "is_downloaded": one(is_downloaded),
    "is_finished_block": one(is_finished_block),
    "get_downloader": get_downloader,
    "block_state": block_field(lambda b: [b.state]),
    "block_num_peers": block_field(lambda b: [b.requesters]),
    "block_peer": block_field(lambda b: peer_or_none(b.peer)),
}

OF_PLACE = {
    "partial_at": lambda s, place: place_in([d.piece for d in s.partials], place),
    "recent_extent": lambda s, place: place_in(s.extents, place),
    "list_place": list_place,
}
