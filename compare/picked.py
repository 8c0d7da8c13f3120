"""`python3 -m compare.picked [MANY] [SEED]`: the proved pick program, as `rt ci` linked it, on every input of compare/pick_programs.py and on
picks of random pickers, some with a damaged byte; the reference's program says what is due."""
import random
import subprocess
import sys
from pathlib import Path

from compare.bad_scripts import TOP
from compare.pick_programs import PICKS
from compare.small_picks import ORDERS, a_run_picker
from compare.states import BLOCK, a_picker
from reference.image import PICK, image, record
from reference.pick import lines

BINARY = Path(TOP, "crates", "pick", "out", "pick")
MANY, SEED = 300, 11


def a_small_picker(rng):
    """Up to 68 pieces of up to 18 blocks, so that the limits are met."""
    if rng.random() < 0.5:
        return a_run_picker(rng)
    b, n = rng.choice([1, 2, 3, 15, 16, 17, 18]), rng.choice([1, 2, 7, 8, 9, 40, 63, 64, 65, 68])
    return a_picker(rng, (n - 1) * b * BLOCK + rng.randint(1, b * BLOCK), b * BLOCK)


def a_record(rng):
    options = rng.choice(ORDERS) | rng.choice([0, 0, 4, 8, 64, 128, 32, rng.randrange(65536)])
    wanted = rng.choice([1, 2, 3, 5, 17, 60, 2048, rng.choice([0, 2049])])
    run = rng.choice([0, 0, 1, 3, 8, 17, 2048, rng.choice([5, 2049])])
    peers = rng.choice([0, 1, 3, 10, 1000, rng.choice([7, 1001])])
    has = rng.choice([0, 0, 1])
    return record(PICK, (options, wanted, run, peers, has, rng.choice([0, 1, 2**64 - 1]) if has else 0))


def an_input(rng):
    data = bytearray(image(a_small_picker(rng)) + a_record(rng))
    fate = rng.random()
    if fate < 0.1:
        data[rng.randrange(len(data))] ^= 1 << rng.randrange(8)
    elif fate < 0.15:
        del data[rng.randrange(len(data)) :]
    elif fate < 0.18:
        data += bytes(rng.randrange(1, 9))
    return bytes(data)


def inputs(many, seed):
    yield from ((name, data, due) for name, (data, due) in PICKS.items())
    rng = random.Random(seed)
    for k in range(many):
        data = an_input(rng)
        yield f"random input {k} of seed {seed}", data, "\n".join(lines(data)) + "\n"


def main(many=MANY, seed=SEED):
    tried, picks = 0, 0
    for name, data, due in inputs(many, seed):
        out = subprocess.run([str(BINARY)], input=data, capture_output=True, cwd="/")
        if (out.returncode, out.stdout.decode(), out.stderr) != (0, due, b""):
            print(f"picked: {name}: {out.stdout.decode()!r} where {due!r} is due", file=sys.stderr)
            return 1
        tried, picks = tried + 1, picks + (not due.startswith("refused"))
    print(f"{tried} inputs of the pick program as they should be, {picks} of them picks")
    return 0


if __name__ == "__main__":
    sys.exit(main(*map(int, sys.argv[1:])))
