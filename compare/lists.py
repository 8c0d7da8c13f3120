"""Random lists of calls from a seed, each a list of script lines with the outcome that the reference gives."""
import random
from typing import NamedTuple

from compare.states import PEERS, a_picker, huge_geometry, small_geometry, wide_geometry
from reference import questions
from reference.calls import Outcome, step
from reference.geometry import HEAD_WORDS, blocks_in_piece, blocks_per_piece, memory_needed, num_pieces
from reference.image import image, read
from reference.options import RAREST_FIRST, SEQUENTIAL
from reference.script import call_of
from reference.state import MAX_PARTIALS, MIN_DRAWS

WRONG = 0.04
CROWDED = 0.01
RESTARTED = 0.01
BARE_MEMORY = ["", " words=15", " words=16", " words=15 cells=0", " words=16 cells=0 partials=0", " partials=0"]


class Step(NamedTuple):
    line: str
    answer: str
    image: bytes  # None where no picker stands


class Limits(Exception):
    """The reference breaks one of its own promises."""


# ---- arguments
def peer_word(peer):
    return "-" if peer is None else str(peer)


def a_peer(rng):
    return peer_word(rng.choice(PEERS))


def a_piece_number(rng, s):
    n = num_pieces(s)
    if rng.random() < WRONG:
        return rng.choice([-1, n, n + 1, 2**31, 2**32, -(2**31), 2**63 - 1])
    if s.partials and rng.random() < 0.5:
        return rng.choice(s.partials).piece
    return rng.randrange(n)


def a_block_number(rng, s, i):
    many = blocks_in_piece(s, i) if 0 <= i < num_pieces(s) else 1
    if rng.random() < WRONG:
        return rng.choice([-1, many, many + 1, 2**32])
    return rng.randrange(many)


def some_draws(rng):
    kind = rng.random()
    if kind < 0.02:
        return f" draws={rng.choice([0, 1, MIN_DRAWS - 1])}"
    if kind < 0.2:
        return f" draws={MIN_DRAWS}:" + ",".join(str(rng.choice([0, 1, 2, 3, 5, 2**32 - 1])) for _ in range(rng.randint(1, 6)))
    if kind < 0.3:
        return ""
    return f" draws={rng.choice([MIN_DRAWS, MIN_DRAWS, 5000])}~{rng.getrandbits(32)}"


def a_length(rng, need):
    return rng.choice([0, HEAD_WORDS - 1, HEAD_WORDS, need - 1, need, need, need + 1])


def some_memory(rng, s, share=0.03):
    """In a share of cases one buffer short, exact or longer, or all three."""
    if s is None or rng.random() > share:
        return ""
    need = memory_needed(s)._asdict()
    given = rng.choice([[name] for name in need] + [list(need)])
    return "".join(f" {name}={a_length(rng, need[name])}" for name in given)


# ---- calls
def piece_call(name):
    return lambda rng, s: f"{name} {a_piece_number(rng, s)}"


def block_call(name, tail):
    def line(rng, s):
        i = a_piece_number(rng, s)
        return f"{name} {i} {a_block_number(rng, s, i)}{tail(rng)}"

    return line


def peer_tail(rng):
    return f" {a_peer(rng)}"


def downloading_tail(rng):
    return f" {a_peer(rng)} {rng.choice([0, 2, 128, 130, rng.randrange(256), rng.randrange(65536)])}"


def priority_line(rng, s):
    wish = rng.choice([-1, 8, 255]) if rng.random() < WRONG else rng.choice([0, 0, 1, 4, 4, 6, 7, 7])
    return f"set_piece_priority {a_piece_number(rng, s)} {wish}"


def some_options(rng):
    options = rng.randrange(256) if rng.random() < 0.9 else rng.randrange(65536)
    if options & RAREST_FIRST and options & SEQUENTIAL and rng.random() > 0.03:
        options &= ~rng.choice([RAREST_FIRST, SEQUENTIAL])
    if rng.random() < 0.3:
        options &= ~(RAREST_FIRST | SEQUENTIAL)
    return options


def around(rng, usual, odd):
    return rng.choice(odd) if rng.random() < 0.03 else rng.choice(usual)


def a_bitfield(rng, n):
    """Bits, and bytes in hexadecimal; spare bits as they fall."""
    many = -(-n // 8)
    kind = rng.random()
    data = bytes([255] * many) if kind < 0.4 else bytes(rng.getrandbits(8) | (rng.getrandbits(8) if kind < 0.6 else 0) for _ in range(many))
    if kind > 0.9:
        data = bytes(1 << (7 - n % 8) if k == rng.randrange(many) else 0 for k in range(many))
    bits = around(rng, [n], [n - 1, n + 1, 0, -1])
    data = around(rng, [data], [data + b"\0", data[1:]])
    return f"{bits} {data.hex() or '-'}"


def some_suggestions(rng, n):
    if rng.random() < 0.6:
        return "-"
    many = around(rng, [1, 2, 3, 5, 20], [256, 257])
    return ",".join(str(around(rng, [rng.randrange(n)], [-1, n, 2**31 - 1, -(2**31)])) for _ in range(many))


def pick_line(rng, s):
    n, b = num_pieces(s), blocks_per_piece(s)
    wanted = around(rng, [1, 1, 2, 3, 5, 8, 13, 40, 300, 2047, 2048], [0, -1, 2049, 2**40])
    run = around(rng, [0, 0, 0, 1, 2, 3, b, b + 1, 2 * b, min(5 * b, 2048), 2047, 2048, rng.randint(0, 4 * b) % 2049], [-1, 2049])
    peers = around(rng, [0, 1, 2, 3, 5, 10, 300, 1000], [-1, 1001])
    free = ""
    if rng.random() < 0.05:
        free = f" free={max(0, wanted + run + rng.choice([254, 255, 256]))}"
    return f"pick_pieces {some_options(rng)} {wanted} {run} {peers} {a_peer(rng)} {a_bitfield(rng, n)} {some_suggestions(rng, n)}{free}"


def place_line(rng, s):
    name = rng.choice(list(questions.OF_PLACE))
    most = {"partial_at": len(s.partials), "recent_extent": len(s.extents), "list_place": len(s.order)}[name]
    return f"{name} {rng.choice([rng.randint(0, most), rng.randint(-1, most + 1), most - 1, 2**40])}"


def room_of(rng, s, name):
    if rng.random() > 0.1:
        return ""
    need = len(image(s)) if name == "image" else rng.choice([num_pieces(s), blocks_per_piece(s), min(num_pieces(s), 512)])
    return f" room={max(0, need + rng.choice([-1, 0, 1]))}"


def question_line(rng, s):
    tables = [questions.WHOLE, questions.LISTS, questions.OF_PIECE, questions.LISTS_OF_PIECE, questions.OF_BLOCK]
    table = rng.choice(tables)
    name = rng.choice(list(table))
    if table is questions.OF_BLOCK:
        return block_call(name, lambda _: "")(rng, s)
    words = name if table in (questions.WHOLE, questions.LISTS) else f"{name} {a_piece_number(rng, s)}"
    return words + (room_of(rng, s, name) if table in (questions.LISTS, questions.LISTS_OF_PIECE) else "")


def image_line(rng, s):
    return "image" + room_of(rng, s, "image")


DRAWING = [
    (8, piece_call("inc_refcount")),
    (6, piece_call("dec_refcount")),
    (7, priority_line),
    (14, block_call("mark_as_downloading", downloading_tail)),
    (8, block_call("mark_as_writing", peer_tail)),
    (10, block_call("mark_as_finished", peer_tail)),
    (8, block_call("mark_as_canceled", peer_tail)),
    (8, block_call("abort_download", peer_tail)),
    (24, pick_line),
]
STILL = [
    (2, lambda rng, s: "inc_refcount_all"),
    (2, lambda rng, s: "dec_refcount_all"),
    (2, piece_call("lock_piece")),
    (5, piece_call("piece_passed")),
    (14, question_line),
    (5, place_line),
    (1, image_line),
]
KINDS = [(weight, make, True) for weight, make in DRAWING] + [(weight, make, False) for weight, make in STILL]
WEIGHTS = [weight for weight, _, _ in KINDS]


def a_line(rng, s):
    _, make, draws = rng.choices(KINDS, WEIGHTS)[0]
    return make(rng, s) + (some_draws(rng) if draws else "") + some_memory(rng, s)


# ---- lists
def new_line(rng, total, size):
    if rng.random() < 0.05:
        total, size = rng.choice([(0, 5), (-1, 5), (5, 0), (5, -3), (5, 4194305), (4097, 1), (4096 * 7 + 1, 7), (2**62, 4194304)])
    return f"new {total} {size}"


def crowded_geometry(rng):
    """Pieces of a byte, more than there may be partials."""
    return rng.choice([600, 1024, 1500]), 1


def crowded_line(rng):
    """A picker with as many partials as may stand, so that one more is refused."""
    while True:
        s = a_picker(rng, *crowded_geometry(rng))
        if len(s.partials) == MAX_PARTIALS:
            return f"read {image(s).hex()}"


def start_line(rng, geometry):
    """A picker made new, or read from an image built field by field."""
    if geometry is crowded_geometry:
        return crowded_line(rng)
    total, size = geometry(rng)
    if rng.random() < 0.35:
        return new_line(rng, total, size)
    return f"read {image(a_picker(rng, total, size)).hex()}"


def restart_line(rng, geometry):
    """A start where a picker stands already; it may find the memory too short."""
    line = start_line(rng, geometry)
    return line + some_memory(rng, step(None, call_of(line)).state, 0.4)


def bare_line(rng):
    """A call where no picker stands."""
    return rng.choice(["num_pieces", "image", "inc_refcount 0", "list_place 0", "pick_pieces 0 1 0 0 - 1 80 -"]) + rng.choice(BARE_MEMORY)


def check_limits(call, outcome, before):
    """Draws and output stay within what is lent."""
    if outcome.used > MIN_DRAWS:
        raise Limits(f"{outcome.used} draws")
    if call.name == "pick_pieces" and outcome.answer.startswith("picked"):
        blocks = outcome.answer.split(" blocks")[1].split(" draws")[0].split()
        if len(blocks) > call.args[1] + call.args[2] + 255:
            raise Limits(f"{len(blocks)} blocks")
    if outcome.state is not before and outcome.state is not None and read(image(outcome.state)) != outcome.state:
        raise Limits("the image does not give the state back")


def led(state, line):
    call = call_of(line)
    outcome = step(state, call)
    check_limits(call, outcome, state)
    return outcome


def follow(lines, state=None):
    """The steps of given lines."""
    steps, now = [], None
    for line in lines:
        before = state
        outcome = led(state, line)
        state = outcome.state
        now = now if state is before else None if state is None else image(state)
        steps.append(Step(line, outcome.answer, now))
    return steps


def a_list(rng, geometry, length):
    """A list of calls: `zero` first, now and then a call on nothing, a start, then calls."""
    lines = ["zero"] + ([bare_line(rng)] if rng.random() < 0.1 else []) + [start_line(rng, geometry)]
    steps = follow(lines)
    state = None if steps[-1].image is None else read(steps[-1].image)
    while state is not None and len(steps) < length:
        line = restart_line(rng, geometry) if rng.random() < RESTARTED else a_line(rng, state)
        outcome = led(state, line)
        now = steps[-1].image if outcome.state is state else image(outcome.state)
        state = outcome.state
        steps.append(Step(line, outcome.answer, now))
    return steps


def taken_up(rng, steps):
    """The end of a list once more, from the image where it is cut: a picker saved and read back goes on as the one that was not."""
    cuts = [k for k, at in enumerate(steps) if at.image is not None]
    if not cuts:
        return []
    cut = rng.choice(cuts)
    return [Step(f"read {steps[cut].image.hex()}", "done", steps[cut].image)] + steps[cut + 1 :]


def geometry_of(rng, huge):
    kind = rng.random()
    if kind > 1 - CROWDED:
        return crowded_geometry
    return huge_geometry if kind < huge else wide_geometry if kind < 0.2 + huge else small_geometry


def lists(seed, calls, huge=0.0):
    """Lists of calls, at least so many calls in all."""
    rng = random.Random(seed)
    made = 0
    while made < calls:
        geometry = geometry_of(rng, huge)
        steps = a_list(rng, geometry, rng.choice([5, 10, 20, 40, 80]))
        again = taken_up(rng, steps) if rng.random() < 0.3 else []
        made += len(steps) + len(again)
        yield steps + again
