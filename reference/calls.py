"""Calls: a script's line taken apart, the refusals in the table's order, and a step from one state to the next."""
from typing import NamedTuple, Optional

from . import changes, questions
from .blocks import Ask
from .geometry import HEAD_WORDS, Memory, blocks_in_piece, blocks_per_piece, is_short, memory_needed, new, num_pieces, valid_geometry
from .image import Fault, image, read
from .options import RAREST_FIRST, SEQUENTIAL, contains
from .partials import find
from .pick_pieces import pick_pieces
from .state import FINISHED, MAX_COUNT, MAX_PARTIALS, MIN_DRAWS, NONE, OPEN, REQUESTED

ENOUGH = 1 << 62
MAX_WANTED = MAX_RUN = 2048
MAX_PEERS = 1000
MAX_SUGGESTIONS = 256
MORE_OUTPUT = 255


# ---- lent words
class Zeros(NamedTuple):
    """Words listed in front, then zeros."""

    many: int
    words: tuple

    def __getitem__(self, i):
        assert i < self.many
        return self.words[i] if i < len(self.words) else 0


class Seeded(NamedTuple):
    """Words made from a seed."""

    many: int
    seed: int

    def __getitem__(self, i):
        assert i < self.many
        mask = 2**64 - 1
        z = (self.seed + (i + 1) * 0x9E3779B97F4A7C15) & mask
        z = ((z ^ z >> 30) * 0xBF58476D1CE4E5B9) & mask
        z = ((z ^ z >> 27) * 0x94D049BB133111EB) & mask
        return (z ^ z >> 31) >> 32


class Call(NamedTuple):
    name: str
    args: tuple
    memory: Memory
    draws: object
    room: int
    free: int


class Outcome(NamedTuple):
    answer: str
    state: object
    used: int


# ---- refusals
class Refused(Exception):
    def __init__(self, number, place=None):
        super().__init__(number, place)
        self.number = number
        self.place = place


def refuse(number, test):
    if test:
        raise Refused(number)


def check_memory(s, call, room=0):
    """2, 3 and 2: the head must be there and well-formed before it says how much is needed."""
    refuse(2, call.memory.words < HEAD_WORDS)
    refuse(3, s is None)
    refuse(2, is_short(call.memory, memory_needed(s)))
    refuse(2, call.room < room)


def check_draws(call):
    refuse(4, call.draws.many < MIN_DRAWS)


def check_piece(s, i):
    refuse(5, not 0 <= i < num_pieces(s))


def check_block(s, i, j):
    check_piece(s, i)
    refuse(5, not 0 <= j < blocks_in_piece(s, i))


def check_opening(s, i):
    """10: a partial would be opened past the last."""
    opens = s.pieces[i].state == OPEN and not s.pieces[i].had
    refuse(10, opens and len(s.partials) >= MAX_PARTIALS)


def full_count(s, i):
    return s.pieces[i].count + s.seeds >= MAX_COUNT


def check_inc_refcount(s, i):
    check_piece(s, i)
    refuse(6, full_count(s, i))


def check_inc_refcount_all(s):
    refuse(6, any(full_count(s, i) for i in range(num_pieces(s))))


def check_dec_refcount(s, i):
    check_piece(s, i)
    refuse(7, s.seeds == 0 and s.pieces[i].count == 0)


def check_dec_refcount_all(s):
    refuse(7, s.seeds == 0 and any(p.count == 0 for p in s.pieces))


def check_priority(s, i, wish):
    check_piece(s, i)
    refuse(5, not 0 <= wish <= 7)


def block_at(s, i, j):
    d = find(s, i)
    return None if d is None else d.blocks[j]


def check_downloading(s, i, j, peer, options):
    check_block(s, i, j)
    block = block_at(s, i, j)
    refuse(6, block is not None and block.state in (NONE, REQUESTED) and block.requesters >= MAX_COUNT)
    refuse(8, s.pieces[i].had)
    check_opening(s, i)


def check_writing(s, i, j, peer):
    check_block(s, i, j)
    check_opening(s, i)


def check_finished(s, i, j, peer):
    check_block(s, i, j)
    block = block_at(s, i, j)
    refuse(9, block is not None and block.state == REQUESTED)
    check_opening(s, i)


def check_given_back(s, i, j, peer):
    check_block(s, i, j)


def check_pick(s, call, options, wanted, run, peers, peer, bits, data, suggestions):
    refuse(11, not 1 <= wanted <= MAX_WANTED)
    refuse(11, not 0 <= run <= MAX_RUN)
    refuse(11, not 0 <= peers <= MAX_PEERS)
    refuse(11, len(suggestions) > MAX_SUGGESTIONS)
    refuse(11, contains(options, RAREST_FIRST) and contains(options, SEQUENTIAL))
    refuse(11, bits != num_pieces(s) or len(data) != (bits + 7) // 8)
    refuse(12, call.free < wanted + run + MORE_OUTPUT)


# ---- the calls
DRAWING = {
    "inc_refcount": (check_inc_refcount, changes.inc_refcount),
    "dec_refcount": (check_dec_refcount, changes.dec_refcount),
    "set_piece_priority": (check_priority, changes.set_piece_priority),
    "mark_as_downloading": (check_downloading, changes.mark_as_downloading),
    "mark_as_writing": (check_writing, changes.mark_as_writing),
    "mark_as_finished": (check_finished, changes.mark_as_finished),
    "mark_as_canceled": (check_given_back, changes.mark_as_canceled),
    "abort_download": (check_given_back, changes.abort_download),
}

STILL = {
    "inc_refcount_all": (check_inc_refcount_all, changes.inc_refcount_all),
    "dec_refcount_all": (check_dec_refcount_all, changes.dec_refcount_all),
    "lock_piece": (check_piece, changes.lock_piece),
    "piece_passed": (check_piece, changes.piece_passed),
}


def told(value):
    """An answer in the script's words."""
    if isinstance(value, str):
        return value
    return "answer" + "".join(f" {int(v)}" for v in value)


def told_change(value):
    return "done" if value is None else told([value])


def step_drawing(s, call):
    check, act = DRAWING[call.name]
    check_memory(s, call)
    check_draws(call)
    check(s, *call.args)
    value, s, used = act(s, *call.args, call.draws)
    return Outcome(f"{told_change(value)} draws {used}", s, used)


def step_still(s, call):
    check, act = STILL[call.name]
    check_memory(s, call)
    check(s, *call.args)
    value, s, used = act(s, *call.args)
    return Outcome(told_change(value), s, used)


def bits_of(data, many):
    """The high bit of the first byte is piece 0."""
    return tuple(data[i // 8] >> (7 - i % 8) & 1 == 1 for i in range(many))


def told_pick(w):
    loops = " ".join(map(str, w.loops))
    blocks = "".join(f" {i}.{j}" for i, j in w.out)
    return f"picked {w.flags} loops {loops} blocks{blocks} draws {w.used}"


def step_pick(s, call):
    options, wanted, run, peers, peer, bits, data, suggestions = call.args
    check_memory(s, call)
    check_draws(call)
    check_pick(s, call, *call.args)
    w = pick_pieces(s, Ask(options, wanted, run, peers, peer, bits_of(data, bits), suggestions), call.draws)
    return Outcome(told_pick(w), w.picker, w.used)


def room_needed(s, name):
    if s is None:
        return 0
    if name in questions.LISTS_OF_PIECE:
        return blocks_per_piece(s)
    if name == "get_download_queue":
        return min(num_pieces(s), MAX_PARTIALS)
    return num_pieces(s) if name in questions.LISTS else 0


def check_place(s, place):
    refuse(5, not s.stale and not 0 <= place < len(s.order))


def no_check(s, *args):
    pass


QUESTIONS = [
    (questions.WHOLE, no_check),
    (questions.LISTS, no_check),
    (questions.OF_PIECE, check_piece),
    (questions.LISTS_OF_PIECE, check_piece),
    (questions.OF_BLOCK, check_block),
    (questions.OF_PLACE, no_check),
]
ASKED = {name: (check, ask) for table, check in QUESTIONS for name, ask in table.items()}
ASKED["list_place"] = (check_place, questions.list_place)


def step_question(s, call):
    check, ask = ASKED[call.name]
    check_memory(s, call, room_needed(s, call.name))
    check(s, *call.args)
    return Outcome(told(ask(s, *call.args)), s, 0)


def step_new(s, call):
    total, size = call.args
    refuse(1, not valid_geometry(total, size) if size > 0 else True)
    out = new(total, size)
    refuse(2, is_short(call.memory, memory_needed(out)))
    return Outcome("done", out, 0)


def step_read(s, call):
    try:
        out = read(call.args[0])
    except Fault as fault:
        raise Refused(13, fault.place)
    refuse(2, is_short(call.memory, memory_needed(out)))
    return Outcome("done", out, 0)


def step_image(s, call):
    check_memory(s, call)
    data = image(s)
    refuse(2, call.room < len(data))
    return Outcome(f"bytes {data.hex()}", s, 0)


def step_zero(s, call):
    return Outcome("done", None, 0)


STEPS = {"new": step_new, "read": step_read, "image": step_image, "zero": step_zero, "pick_pieces": step_pick}
STEPS.update({name: step_drawing for name in DRAWING})
STEPS.update({name: step_still for name in STILL})
STEPS.update({name: step_question for name in ASKED})


def step(s, call):
    """The outcome of one call; refused, the state stays."""
    try:
        return STEPS[call.name](s, call)
    except Refused as no:
        place = "" if no.place is None else f" {no.place}"
        return Outcome(f"refused {no.number}{place}", s, 0)
