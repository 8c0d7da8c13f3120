"""Blocks for a pick: which pieces may be picked, the run around a piece, and what a piece adds to the pick.

`Work` is what a pick has come to. `left` (blocks still wanted) and `run` (blocks wanted in a row) may fall below 0, as in the Rust."""
from typing import NamedTuple, Optional

from .geometry import blocks_in_piece, blocks_per_piece, num_pieces, payload_blocks_in_piece
from .options import ALIGN_EXPANDED_PIECES, ON_PAROLE, PRIORITIZE_PARTIALS, contains
from .partials import find, queue
from .state import DONT_DOWNLOAD, DOWNLOADING, NONE, OPEN, REQUESTED, Picker

PARTIAL, SUGGEST, REVERSE_RARE, RARE, RAND_START, RAND, BUSY = range(7)


class Ask(NamedTuple):
    """The arguments of a pick."""

    options: int
    wanted: int
    run: int
    peers: int
    peer: Optional[int]
    bits: tuple
    suggestions: tuple


class Work(NamedTuple):
    picker: Picker
    ask: Ask
    left: int
    run: int
    out: tuple
    backup: tuple
    ignored: frozenset
    flags: int
    loops: tuple
    used: int


def begin(s, ask):
    return Work(s, ask, ask.wanted, ask.run, (), (), frozenset(), 0, (0,) * 7, 0)


def flagged(w, flag):
    return w._replace(flags=w.flags | flag)


def counted(w, counter, steps=1):
    loops = w.loops
    return w._replace(loops=loops[:counter] + (loops[counter] + steps,) + loops[counter + 1 :])


def spent(w):
    return w.left <= 0


def option(w, flag):
    return contains(w.ask.options, flag)


# ---- which pieces
def get_bit(ask, i):
    return 0 <= i < len(ask.bits) and ask.bits[i]


def is_piece_free(w, i):
    """The peer has it, it is not had, and it is wished for."""
    return get_bit(w.ask, i) and not w.picker.pieces[i].had and w.picker.pieces[i].wish != DONT_DOWNLOAD


def can_pick(w, i):
    return is_piece_free(w, i) and w.picker.pieces[i].state == OPEN


def whole_pieces(run, b):
    """Pieces that hold a run; 0 where the run has fallen below 0, which it does by less than b."""
    return max(run + b - 1, 0) // b


def lowest_start(w, i, whole):
    return i - i % whole if option(w, ALIGN_EXPANDED_PIECES) else max(i - whole + 1, 0)


def down_to(w, i, lowest):
    while i > lowest and can_pick(w, i - 1):
        i -= 1
    return i


def up_to(w, end, highest):
    while end < highest and can_pick(w, end):
        end += 1
    return end


def expand_piece(w, i, run):
    """The pieces of a run around piece i, as a first one and one past the last. A run below 0 is the piece alone."""
    whole = whole_pieces(run, blocks_per_piece(w.picker))
    if run == 0 or whole == 0:
        return i, i + 1
    lowest = lowest_start(w, i, whole)
    start = down_to(w, i, lowest)
    highest = (lowest if option(w, ALIGN_EXPANDED_PIECES) else start) + whole
    return start, up_to(w, i + 1, min(highest, num_pieces(w.picker)))


# ---- new pieces
def took(w, i, j):
    return w._replace(left=w.left - 1, run=w.run - 1, out=w.out + ((i, j),))


def run_met(w):
    """Exactly the run has been given, and no block is wanted."""
    return w.run == 0 and w.left <= 0


def run_over(w):
    return w.run <= 0 and w.left <= 0


def take_piece(w, i, blocks, ends):
    """The first blocks of piece i, up to where `ends` holds."""
    for j in range(blocks):
        w = took(w, i, j)
        if ends(w):
            return w
    return w


def take_run(w, start, end, take):
    """A run of pieces: an ignored one only shortens the run; another is ignored from now on, and `take` has its blocks."""
    for k in range(start, end):
        if k in w.ignored:
            w = w._replace(run=w.run - 1)
            if run_met(w):
                return w
        else:
            w = take(w._replace(ignored=w.ignored | {k}), k)
    return w


def take_payload(w, k):
    return take_piece(w, k, payload_blocks_in_piece(w.picker, k), run_met)


def add_new_piece(w, i):
    """Blocks of an Open piece: without a run as many as are wanted, else the whole run around it."""
    payload = payload_blocks_in_piece(w.picker, i)
    if w.run == 0:
        return take_piece(w, i, min(payload, w.left), lambda _: False)
    start, end = expand_piece(w, i, w.run)
    return take_run(w, start, end, take_payload)


def add_blocks(w, i):
    """What piece i adds; the pick's own run stays as it is."""
    state = queue(w.picker.pieces[i].state)
    if i in w.ignored or state not in (OPEN, DOWNLOADING):
        return w
    if state == DOWNLOADING:
        return w if option(w, PRIORITIZE_PARTIALS) else add_blocks_downloading(w, find(w.picker, i))
    out = add_new_piece(w, i)
    return out._replace(left=max(out.left, 0), run=w.run)


# ---- partials
class Held(NamedTuple):
    """Who works on a partial: only `peer`; no other peer has a request; the longest run of free blocks and where it starts."""

    exclusive: bool
    exclusive_active: bool
    longest: int
    first: int


def requested_from(d, peer):
    others = [b for b in d.blocks if b.state != NONE and b.peer != peer]
    longest, first = longest_free(d)
    return Held(not others, not any(b.state == REQUESTED and b.peer is not None for b in others), longest, first)


def longest_free(d):
    """The length of the longest run of free blocks and its start, the first of equals; 0 and 0 without one."""
    longest = first = run = 0
    for j, b in enumerate(d.blocks):
        run = run + 1 if b.state == NONE else 0
        if run > longest:
            longest, first = run, j + 1 - run
    return longest, first


def free_from(d, first):
    """The free blocks, from `first` round the piece."""
    n = len(d.blocks)
    return [j for j in ((k + first) % n for k in range(n)) if d.blocks[j].state == NONE]


def set_aside(w, d, first):
    """The free blocks kept as backup, unless as many as are wanted are there already."""
    if len(w.backup) >= w.left:
        return w
    return w._replace(backup=w.backup + tuple((d.piece, j) for j in free_from(d, first)))


def take_free(w, d, first):
    """The free blocks taken: a whole run where one is wanted, then as many as are wanted."""
    for j in free_from(d, first):
        in_run = w.run > 0
        w = took(w, d.piece, j) if in_run else took(w, d.piece, j)._replace(run=w.run)
        if not in_run and spent(w):
            return w
    return w


def add_blocks_downloading(w, d):
    """What a partial adds; the pick's own run stays as it is."""
    if not get_bit(w.ask, d.piece) or d.locked:
        return w
    held = requested_from(d, w.ask.peer)
    parole = option(w, ON_PAROLE)
    if parole and not held.exclusive:
        return w
    first = 0 if w.run == 0 else held.first
    if w.run > held.longest and not held.exclusive_active and not parole:
        return set_aside(w, d, first)
    out = take_free(w, d, first)
    return out._replace(left=max(out.left, 0), run=w.run)


def append_backup(w):
    """As many as are wanted of the blocks set aside."""
    many = min(len(w.backup), w.left)
    return w._replace(left=w.left - many, out=w.out + w.backup[:many], backup=w.backup[many:])


def blocks_of_piece(w, k):
    return blocks_in_piece(w.picker, k)
