"""`python3 -m compare.list_ops COUNT SEED`: pickers led through list operations, for a program that runs the proved code beside.

Oracle and reference go through the same calls and are compared after each. Each call changes the list once: a peer more or less, another
wish of an Open piece, the rebuild of a dirty list by a pick; or it makes the list dirty: a whole-copy peer more or less. A line for
each, words parted by spaces, lists by commas (`-` for none):

    start WORDS CELLS PARTIALS QUEUE QUEUE QUEUE QUEUE
    update PIECE USED SEEDS PIECES DRAWS AFTER
    dirty
    rebuild USED SEEDS PIECES DRAWS AFTER

In WORDS, CELLS and PARTIALS, three numbers to a record, the picker stands; a QUEUE is the places of its partials among all partials.
PIECES are all pieces after the call, each as count.state.wish.had; DRAWS the words lent, USED how many were used; AFTER is the list, a
word of rank and piece each."""
import argparse
import random
import sys

from compare.buffers import RANK_UNIT, laid_out
from compare.lists import Limits, Step, follow, led
from compare.run import Figures, Mismatch, compare
from compare.states import a_picker, huge_geometry, small_geometry, wide_geometry
from reference.bucket import bucket_at
from reference.calls import Seeded
from reference.image import image
from reference.partials import NUM_QUEUES, in_queue
from reference.state import MIN_DRAWS, OPEN

SHOWN_DRAWS = 8
LENGTH = 15


def a_geometry(rng):
    kind = rng.random()
    return (huge_geometry if kind < 0.02 else wide_geometry if kind < 0.3 else small_geometry)(rng)


def a_call(rng, s):
    """A call that changes the list once, makes it anew or makes it dirty, and the piece it is about."""
    n, kind = len(s.pieces), rng.random()
    if s.stale and kind < 0.7:
        return f"pick_pieces 1 1 0 1000 - {n} {bytes(-(-n // 8)).hex()} -", None
    if kind < 0.05:
        return rng.choice(["inc_refcount_all", "dec_refcount_all"]), None
    i = rng.randrange(n)
    if s.pieces[i].state == OPEN and rng.random() < 0.4:
        return f"set_piece_priority {i} {rng.randint(0, 7)}", i
    return rng.choice(["inc_refcount", "dec_refcount"]) + f" {i}", i


def shown(numbers):
    return ",".join(map(str, numbers)) or "-"


def places(s, q):
    members = {d.piece for d in in_queue(s, q)}
    return [k for k, d in enumerate(s.partials) if d.piece in members]


def pieces(s):
    return f"{s.seeds} " + shown(f"{p.count}.{p.state}.{p.wish}.{int(p.had)}" for p in s.pieces)


def list_words(s):
    return shown((bucket_at(s, i) + 1) * RANK_UNIT + i for i in s.order)


def operation(before, after, i, used, draws):
    """The line of a call that led from one state to the other, or None where it left the list as it was, or dirty."""
    if after.stale:
        return None if before.stale else "dirty"
    if i is None and not before.stale:
        return None
    words = shown(draws[k] for k in range(used if before.stale else SHOWN_DRAWS))
    what = "rebuild" if before.stale else f"update {i}"
    return f"{what} {used} {pieces(after)} {words} {list_words(after)}"


def lead(rng):
    """A picker led through calls: the steps, and the lines of its list operations."""
    s = a_picker(rng, *a_geometry(rng))
    steps = follow(["zero", f"read {image(s).hex()}"])
    lines = [" ".join(["start", *map(shown, laid_out(rng, s)), *(shown(places(s, q)) for q in range(NUM_QUEUES))])]
    for _ in range(LENGTH):
        call, i = a_call(rng, s)
        seed = rng.getrandbits(32)
        line = call if call.endswith("_all") else f"{call} draws={MIN_DRAWS}~{seed}"
        outcome = led(s, line)
        now = steps[-1].image if outcome.state is s else image(outcome.state)
        steps.append(Step(line, outcome.answer, now))
        if not outcome.answer.startswith("refused"):
            lines.append(operation(s, outcome.state, i, outcome.used, Seeded(MIN_DRAWS, seed)))
        s = outcome.state
    return steps, [line for line in lines if line]


def main():
    ap = argparse.ArgumentParser()
    ap.add_argument("count", type=int, help="pickers")
    ap.add_argument("seed", type=int)
    a = ap.parse_args()
    rng = random.Random(a.seed)
    led_ones = [lead(rng) for _ in range(a.count)]
    try:
        compare([step for steps, _ in led_ones for step in steps], Figures())
    except (Mismatch, Limits) as why:
        print(f"list_ops: {why}", file=sys.stderr)
        return 1
    for _, lines in led_ones:
        print("\n".join(lines))
    print("end")
    return 0


if __name__ == "__main__":
    sys.exit(main())
