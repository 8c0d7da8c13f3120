"""One pick: partials, suggestions, sequential, rarest or random, backup blocks, end game. A spent N stops it."""
from .blocks import (
    BUSY,
    PARTIAL,
    RAND,
    RAND_START,
    RARE,
    REVERSE_RARE,
    SUGGEST,
    add_blocks,
    add_blocks_downloading,
    append_backup,
    begin,
    blocks_of_piece,
    counted,
    expand_piece,
    flagged,
    get_bit,
    is_piece_free,
    option,
    run_over,
    spent,
    take_run,
    took,
)
from .bucket import draw
from .geometry import blocks_per_piece, extent_pieces, num_pieces
from .options import (
    FLAG_BACKUP1,
    FLAG_END_GAME,
    FLAG_EXTENT_AFFINITY,
    FLAG_PARTIAL_RATIO,
    FLAG_PREFER_CONTIGUOUS,
    FLAG_PRIO_SEQUENTIAL_PIECES,
    FLAG_PRIORITIZE_PARTIALS,
    FLAG_RANDOM_PIECES,
    FLAG_RAREST_FIRST,
    FLAG_RAREST_FIRST_PARTIALS,
    FLAG_REVERSE_RAREST_FIRST,
    FLAG_REVERSE_SEQUENTIAL,
    FLAG_SEQUENTIAL_PIECES,
    FLAG_SUGGESTED_PIECES,
    ON_PAROLE,
    PIECE_EXTENT_AFFINITY,
    PRIORITIZE_PARTIALS,
    RAREST_FIRST,
    REVERSE,
    SEQUENTIAL,
)
from .order import fresh
from .partials import in_queue, progress
from .state import DOWNLOADING, FULL, OPEN, REQUESTED, TOP

MAX_PARTIAL_BLOCKS = 2048
END_GAME_PIECES = 200


# ---- the forcing rule
def forced(partials, b, peers):
    """Too many partials for the peers, or too many blocks in them."""
    return partials > peers * 3 // 2 or partials * b > MAX_PARTIAL_BLOCKS


def start_pick(s, ask):
    if forced(len(in_queue(s, DOWNLOADING)), blocks_per_piece(s), ask.peers):
        ask = ask._replace(options=ask.options | PRIORITIZE_PARTIALS, run=0)
        return flagged(begin(s, ask), FLAG_PARTIAL_RATIO)
    w = begin(s, ask)
    return flagged(w, FLAG_PREFER_CONTIGUOUS) if ask.run > 0 else w


# ---- partials
def rarest_partials(w):
    return option(w, RAREST_FIRST) and not option(w, ON_PAROLE)


def ordered_partials(w):
    """Smaller count first, then more progress, then lower piece; by piece alone outside RAREST_FIRST, and ON_PAROLE."""
    usable = [d for d in in_queue(w.picker, DOWNLOADING) if is_piece_free(w, d.piece) and not d.locked]
    if not rarest_partials(w):
        return usable
    return sorted(usable, key=lambda d: (w.picker.pieces[d.piece].count, -progress(d)))


def pick_partials(w):
    if not option(w, PRIORITIZE_PARTIALS):
        return w
    w = counted(w, PARTIAL, len(in_queue(w.picker, DOWNLOADING)))
    if rarest_partials(w):
        w = flagged(w, FLAG_RAREST_FIRST_PARTIALS)
    for d in ordered_partials(w):
        w = add_blocks_downloading(flagged(w, FLAG_PRIORITIZE_PARTIALS), d)
        if spent(w):
            return w
        if len(w.backup) >= w.left:
            break
    return append_backup(w)


# ---- walks over pieces
def visit(w, i, flag):
    """A free piece adds its blocks."""
    return add_blocks(flagged(w, flag), i) if is_piece_free(w, i) else w


def walk(w, pieces, step):
    """The steps of a list, up to the one that spends N."""
    for i in pieces:
        w = step(w, i)
        if spent(w):
            return w
    return w


def suggest(w, i):
    w = counted(w, SUGGEST)
    if not is_piece_free(w, i):
        return w
    w = visit(w, i, FLAG_SUGGESTED_PIECES)
    return w._replace(ignored=w.ignored | {i})


def pick_suggested(w):
    return walk(w, w.ask.suggestions, suggest)


# ---- sequential
def leading_top(s):
    """The list up to the first wish that is not 7."""
    for k, i in enumerate(s.order):
        if s.pieces[i].wish != TOP:
            return s.order[:k]
    return s.order


def visit_below_top(flag):
    return lambda w, i: w if w.picker.pieces[i].wish == TOP else visit(w, i, flag)


def pick_range(w):
    s = w.picker
    stretch = range(s.cursor, s.reverse_cursor)
    if option(w, REVERSE):
        return walk(w, reversed(stretch), visit_below_top(FLAG_REVERSE_SEQUENTIAL))
    return walk(w, stretch, visit_below_top(FLAG_SEQUENTIAL_PIECES))


def pick_sequential(w):
    w = walk(w, leading_top(w.picker), lambda w, i: visit(w, i, FLAG_PRIO_SEQUENTIAL_PIECES))
    return w if spent(w) else pick_range(w)


# ---- rarest first
def in_stretch(w, i):
    """A sequential pick has walked over piece i."""
    return option(w, SEQUENTIAL) and w.picker.cursor <= i < w.picker.reverse_cursor


def visit_outside(w, i, flag):
    return w if in_stretch(w, i) else visit(w, i, flag)


def rare(w, i):
    return visit_outside(counted(w, RARE), i, FLAG_RAREST_FIRST)


def reverse_rare(w, i):
    return visit_outside(counted(w, REVERSE_RARE), i, FLAG_REVERSE_RAREST_FIRST)


def all_had(w, e):
    return all(w.picker.pieces[i].had for i in extent_pieces(w.picker, e))


def walk_extents(w):
    """The recent extents in turn; also the place of the last one walked whole whose pieces are all had."""
    finished = None
    for place, e in enumerate(w.picker.extents):
        w = walk(w, extent_pieces(w.picker, e), lambda w, i: visit_outside(w, i, FLAG_EXTENT_AFFINITY))
        if spent(w):
            return w, finished
        if all_had(w, e):
            finished = place
    return w, finished


def pick_extents(w):
    """One finished extent is forgotten, the last found."""
    w, finished = walk_extents(w)
    if finished is None:
        return w
    extents = w.picker.extents
    return w._replace(picker=w.picker._replace(extents=extents[:finished] + extents[finished + 1 :]))


def pick_rarest(w):
    if option(w, REVERSE):
        return walk(w, reversed(w.picker.order), reverse_rare)
    if option(w, PIECE_EXTENT_AFFINITY):
        w = pick_extents(w)
    return w if spent(w) else walk(w, w.picker.order, rare)


# ---- random: round the torrent from a drawn piece
def stands_open(w, i):
    return is_piece_free(w, i) and i not in w.ignored


def onward(w, i):
    return 0 if i + 1 >= num_pieces(w.picker) else i + 1


def skip(w, i, start):
    """From i to the next piece that may be picked, or round to the start; and whether it came to the start."""
    while not stands_open(w, i):
        w, i = counted(w, RAND_START), onward(w, i)
        if i == start:
            return w, i, True
    return w, i, False


def take_all_blocks(w, k):
    """All blocks of a piece, pads too, up to where run and N are over."""
    w = flagged(w, FLAG_RANDOM_PIECES)
    for j in range(blocks_of_piece(w, k)):
        w = took(counted(w, RAND), k, j)
        if run_over(w):
            return w
    return w


def random_visit(w, i):
    """A whole run from an Open piece where one is wanted, else the piece; and where the walk goes on."""
    if w.run > 1 and w.picker.pieces[i].state == OPEN:
        start, end = expand_piece(w, i, w.run)
        return take_run(w, start, end, take_all_blocks), onward(w, end - 1)
    return add_blocks(flagged(w, FLAG_RANDOM_PIECES), i), onward(w, i)


def trace(w):
    """What tells whether a lap did anything."""
    return len(w.out), len(w.backup), len(w.ignored)


def pick_random(w, draws):
    start = draw(draws, w.used, num_pieces(w.picker) - 1)
    w = w._replace(used=w.used + 1)
    i, seen = start, trace(w)
    while not spent(w):
        w, i, back = skip(w, i, start)
        if not stands_open(w, i) or (back and trace(w) == seen):
            return w
        if back:
            seen = trace(w)
        w, i = random_visit(w, i)
        if i == start:
            return w
    return w


# ---- end game
def busy_blocks(w, d):
    """Requested from another peer value than this one."""
    return [j for j, b in enumerate(d.blocks) if b.state == REQUESTED and b.peer != w.ask.peer]


def end_game_pieces(w):
    return [d for d in in_queue(w.picker, FULL) if get_bit(w.ask, d.piece)][:END_GAME_PIECES]


def swap_remove(items, k):
    """The last item takes the place of the one that goes."""
    return items[:k] + items[-1:] + items[k + 1 : -1] if k < len(items) - 1 else items[:-1]


def pick_end_game(w, draws):
    """One block of a drawn Full piece; a piece with none for this peer is dropped."""
    pieces = end_game_pieces(w)
    while pieces:
        w = counted(w, BUSY)
        k = draw(draws, w.used, len(pieces) - 1)
        w = w._replace(used=w.used + 1)
        busy = busy_blocks(w, pieces[k])
        if busy:
            j = busy[draw(draws, w.used, len(busy) - 1)]
            w = flagged(w, FLAG_END_GAME)
            return w._replace(used=w.used + 1, out=w.out + ((pieces[k].piece, j),))
        pieces = swap_remove(pieces, k)
    return w


# ---- the pick
def refreshed(w, draws):
    s, used = fresh(w.picker, draws, w.used)
    return w._replace(picker=s, used=used)


def pick_main(w, draws):
    """Sequential and rarest, or random."""
    if not option(w, SEQUENTIAL) and not option(w, RAREST_FIRST):
        return pick_random(w, draws)
    w = refreshed(w, draws)
    if option(w, SEQUENTIAL):
        w = pick_sequential(w)
    return w if spent(w) else pick_rarest(w)


def pick_rest(w, draws):
    """Backup blocks, then the end game."""
    w = append_backup(flagged(w, FLAG_BACKUP1))
    return w if spent(w) or option(w, ON_PAROLE) else pick_end_game(w, draws)


def run_phases(w, draws):
    """The phases in turn, up to where N is spent."""
    phases = (pick_partials, pick_suggested, lambda w: pick_main(w, draws), lambda w: pick_rest(w, draws))
    for phase in phases:
        w = phase(w)
        if spent(w):
            return w
    return w


def pick_pieces(s, ask, draws):
    """What the pick has come to; its `picker` is the next state."""
    return run_phases(start_pick(s, ask), draws)
