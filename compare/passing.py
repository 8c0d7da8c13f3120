"""`python3 -m compare.passing PICKS SEED`: random picks of the reference, and what the two theorems about a pick say of each.

Sound: a block that is given lies in a piece that the peer has, that is not had and is wished for, and is free: any block of an Open
piece, or one in state None of a Downloading partial that is not locked, ON_PAROLE of one that no other peer has a block of. Or it is the
last one given, by the end game. Complete: where blocks are still wanted, each free block of such a piece is given, unless one of REASONS
holds of the piece.

Prints the figures. An exception ends it with status 1, with the smallest script that it could be brought to; so does a case or a reason
that was met too seldom."""
import argparse
import collections
import random
import sys
from typing import NamedTuple

from compare import lists, small_picks
from compare.lists import peer_word
from compare.states import a_picker, an_order, small_geometry, wide_geometry
from reference.blocks import Ask, requested_from
from reference.calls import Refused, bits_of, check_pick
from reference.geometry import blocks_in_piece, payload_blocks_in_piece
from reference.image import Fault, image, read
from reference.options import FLAG_END_GAME, ON_PAROLE, PIECE_EXTENT_AFFINITY, PRIORITIZE_PARTIALS, RAREST_FIRST, SEQUENTIAL, contains
from reference.partials import find, progress, queue
from reference.pick_pieces import pick_pieces
from reference.script import call_of
from reference.state import DOWNLOADING, FULL, MAX_COUNT, NONE, OPEN, REQUESTED, TOP

CASES = ("free of open", "free of partial", "end game")
SEEN = ("pad blocks", "blocks given twice")
SHARE = 250  # in so many picks each case and each reason is met at least once, a reason where no other holds


class Pick(NamedTuple):
    """A picker, and the line of a pick on it."""

    state: object
    line: str


class Broken(Exception):
    """A pick of which one of the two does not hold."""


# ---- picks
def changed(line, **fields):
    """The line of a pick with other arguments."""
    places = {"options": 1, "wanted": 2, "run": 3, "peers": 4, "peer": 5, "bits": 6, "bytes": 7, "suggestions": 8}
    words = line.split(" ")
    for name, value in fields.items():
        words[places[name]] = str(value)
    return " ".join(words)


def a_sequential_picker(rng):
    """Most of the torrent between the cursors; pieces of wish 7 with many peers, so that they stand behind others in the list."""
    s = a_picker(rng, *small_geometry(rng))
    peers = lambda p: p._replace(count=rng.choice([p.count, min(9, MAX_COUNT - s.seeds)])) if p.wish == TOP else p
    ends = {"cursor": min(s.cursor, 1), "reverse_cursor": max(s.reverse_cursor, len(s.pieces) - 1)}
    s = s._replace(pieces=tuple(peers(p) for p in s.pieces), **ends)
    return s if s.stale else s._replace(order=an_order(rng, s))


def a_sequential_pick(rng):
    """As many blocks in order as there are."""
    s = a_sequential_picker(rng)
    options = SEQUENTIAL | rng.choice([0, 0, PIECE_EXTENT_AFFINITY, PRIORITIZE_PARTIALS, ON_PAROLE])
    return Pick(s, changed(lists.pick_line(rng, s), options=options, wanted=300) + lists.some_draws(rng))


def a_pick(rng):
    """Small pickers mostly, of any fields; others where runs, extents or the order are met often; some with long pieces."""
    kind = rng.random()
    if kind < 0.35:
        s = small_picks.a_run_picker(rng)
        return Pick(s, small_picks.pick_line(rng, s, None, 0.4))
    if kind < 0.4:
        s = small_picks.an_extent_picker(rng)
        return Pick(s, small_picks.pick_line(rng, s, PIECE_EXTENT_AFFINITY, 0.3))
    if kind < 0.5:
        return a_sequential_pick(rng)
    s = a_picker(rng, *(wide_geometry if kind > 0.97 else small_geometry)(rng))
    return Pick(s, lists.pick_line(rng, s) + lists.some_draws(rng))


def asked(s, call):
    """What the pick is asked; Refused where it is refused."""
    check_pick(s, call, *call.args)
    if call.draws.many < lists.MIN_DRAWS:
        raise Refused(4)
    options, wanted, run, peers, peer, bits, data, suggestions = call.args
    return Ask(options, wanted, run, peers, peer, bits_of(data, bits), suggestions)


# ---- Sound
def wanted_piece(s, ask, i):
    return 0 <= i < len(s.pieces) and ask.bits[i] and not s.pieces[i].had and s.pieces[i].wish > 0


def case_of(s, ask, i, j, last):
    """The case of a block given, or None."""
    if not wanted_piece(s, ask, i) or not 0 <= j < blocks_in_piece(s, i):
        return None
    if s.pieces[i].state == OPEN:
        return "free of open"
    d, state = find(s, i), queue(s.pieces[i].state)
    parole = contains(ask.options, ON_PAROLE)
    if state == DOWNLOADING and not d.locked and d.blocks[j].state == NONE:
        return "free of partial" if not parole or requested_from(d, ask.peer).exclusive else None
    busy = state == FULL and d.blocks[j].state == REQUESTED and d.blocks[j].peer != ask.peer
    return "end game" if busy and last and not parole else None


def check_sound(s, ask, w, figures):
    for k, (i, j) in enumerate(w.out):
        last = k + 1 == len(w.out) and w.left > 0 and contains(w.flags, FLAG_END_GAME)
        case = case_of(s, ask, i, j, last)
        if case is None:
            raise Broken(f"sound: block {j} of piece {i} is given")
        figures[case] += 1
        figures["pad blocks"] += case == "free of open" and j >= payload_blocks_in_piece(s, i)
    figures["blocks"] += len(w.out)
    figures["blocks given twice"] += len(w.out) - len(set(w.out))


# ---- Complete
def by_list(ask):
    return contains(ask.options, RAREST_FIRST) or contains(ask.options, SEQUENTIAL)


def between_cursors(s, i):
    return s.cursor <= i < s.reverse_cursor


def held_by_another(s, ask, i):
    d = find(s, i)
    return d is not None and not requested_from(d, ask.peer).exclusive


def idle_elsewhere(s, i):
    """Neither Open nor Downloading; with a free block no block of it is at work."""
    if queue(s.pieces[i].state) in (OPEN, DOWNLOADING):
        return False
    return progress(find(s, i)) == 0


REASONS = {
    "not counted": lambda s, ask, i: by_list(ask) and s.pieces[i].count + s.seeds == 0,
    "locked": lambda s, ask, i: find(s, i) is not None and find(s, i).locked,
    "parole": lambda s, ask, i: contains(ask.options, ON_PAROLE) and held_by_another(s, ask, i),
    "other state": lambda s, ask, i: idle_elsewhere(s, i),
    "top in range": lambda s, ask, i: contains(ask.options, SEQUENTIAL) and s.pieces[i].wish == TOP and between_cursors(s, i),
}


def free_blocks(s, i):
    """Of an Open piece each block that holds more than pad bytes, of a partial each in state None."""
    if s.pieces[i].state == OPEN:
        return range(payload_blocks_in_piece(s, i))
    return [j for j, b in enumerate(find(s, i).blocks) if b.state == NONE]


def check_complete(s, ask, w, figures):
    if w.left <= 0:
        return
    figures["fewer"] += 1
    given = set(w.out)
    for i in range(len(s.pieces)):
        free = free_blocks(s, i) if wanted_piece(s, ask, i) else ()
        passed = [j for j in free if (i, j) not in given]
        figures["pieces"] += bool(free)
        if not passed:
            continue
        why = [name for name, holds in REASONS.items() if holds(s, ask, i)]
        if not why:
            raise Broken(f"complete: block {passed[0]} of piece {i} is passed over")
        figures.update(f"for {name}" for name in why)
        figures[f"only for {why[0]}"] += len(why) == 1


def check(pick, figures):
    """Both, of one pick. A refused one is not counted."""
    s, call = pick.state, call_of(pick.line)
    try:
        ask = asked(s, call)
    except Refused:
        return
    w = pick_pieces(s, ask, call.draws)
    figures["picks"] += 1
    check_sound(s, ask, w, figures)
    check_complete(s, ask, w, figures)


# ---- the smallest script
def script(pick):
    return f"zero\nread {image(pick.state).hex()}\n{pick.line}\nend\n"


def wrong(pick):
    """What is wrong with it, or None; a picker whose image is not accepted counts as none."""
    try:
        if read(image(pick.state)) == pick.state:
            check(pick, collections.Counter())
    except Broken as why:
        return str(why)
    except Fault:
        pass
    return None


def without_partial(s, d):
    pieces = tuple(p._replace(state=OPEN) if k == d.piece else p for k, p in enumerate(s.pieces))
    return s._replace(pieces=pieces, partials=tuple(e for e in s.partials if e.piece != d.piece))


def shorter(s):
    """The torrent without its last piece, where it has another."""
    n = max(1, len(s.pieces) - 1)
    partials = tuple(d for d in s.partials if d.piece < n)
    ends = {"cursor": min(s.cursor, n), "reverse_cursor": min(s.reverse_cursor, n)}
    return s._replace(total=min(s.total, n * s.size), pieces=s.pieces[:n], partials=partials, **ends)


def simpler_states(s):
    """The picker with something less: the list, the extents, the last piece, the seeds, pads, a partial, cursors, peers."""
    yield s._replace(stale=True, order=())
    yield s._replace(extents=())
    yield shorter(s)
    yield s._replace(seeds=0)
    yield s._replace(pieces=tuple(p._replace(pad=0) for p in s.pieces))
    for d in s.partials:
        yield without_partial(s, d)
    yield s._replace(cursor=0)
    yield s._replace(reverse_cursor=len(s.pieces))
    yield s._replace(pieces=tuple(p._replace(count=min(p.count, 1)) for p in s.pieces))


def simpler_lines(line):
    """The pick with an argument less: the draws, the suggestions, the run, the peer, or an option."""
    words = line.split(" ")
    yield " ".join(words[:9])
    for fields in ({"suggestions": "-"}, {"run": 0}, {"peer": peer_word(None)}, {"peers": 1000}):
        yield changed(line, **fields)
    for bit in range(16):
        yield changed(line, options=int(words[1]) & ~(1 << bit))


def fitted(pick, s):
    """The pick on another picker, with a bitfield of its length."""
    n = len(s.pieces)
    data = pick.line.split(" ")[7][: 2 * -(-n // 8)]
    return Pick(s, changed(pick.line, bits=n, bytes=data))


def smallest(pick):
    """Simpler and simpler, as long as the exception stays; with as many blocks wanted as may be, where that leaves it."""
    many = pick._replace(line=changed(pick.line, wanted=2048))
    pick = many if wrong(many) else pick
    while True:
        simpler = [fitted(pick, s) for s in simpler_states(pick.state)] + [pick._replace(line=k) for k in simpler_lines(pick.line)]
        found = next((p for p in simpler if p != pick and wrong(p)), None)
        if found is None:
            return pick
        pick = found


# ---- the run
def report(figures):
    print(f"{figures['picks']} picks, no exception")
    print(f"  sound: {figures['blocks']} blocks given, " + ", ".join(f"{name} {figures[name]}" for name in CASES + SEEN))
    reasons = ", ".join(f"{name} {figures[f'for {name}']} ({figures[f'only for {name}']} for it alone)" for name in REASONS)
    print(f"  complete: {figures['fewer']} picks gave fewer than N, {figures['pieces']} pieces with a free block; excused: {reasons}")


def too_seldom(figures):
    names = (*CASES, *SEEN, *(f"only for {name}" for name in REASONS))
    return [name for name in names if figures[name] < figures["picks"] // SHARE]


def run(picks, seed):
    rng, figures = random.Random(seed), collections.Counter()
    while figures["picks"] < picks:
        pick = a_pick(rng)
        try:
            check(pick, figures)
        except Broken:
            pick = smallest(pick)
            print(f"passing: exception, {wrong(pick)}\n{script(pick)}", file=sys.stderr)
            return 1
    report(figures)
    seldom = too_seldom(figures)
    if seldom:
        print("passing: met too seldom: " + ", ".join(seldom), file=sys.stderr)
    return 1 if seldom else 0


def main():
    ap = argparse.ArgumentParser()
    ap.add_argument("picks", type=int)
    ap.add_argument("seed", type=int)
    a = ap.parse_args()
    return run(a.picks, a.seed)


if __name__ == "__main__":
    sys.exit(main())
