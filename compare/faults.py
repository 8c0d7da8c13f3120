"""`python3 -m compare.faults SEED IMAGES`: damaged images, read by the reference and by the oracle.

The two find the place of fault in different ways: the reference reads on from record to record and stops; the oracle cuts the bytes
into records first and then judges each with those before it. Every image is cut at every length, every byte of it is changed, and it
is lengthened by a byte and by a record of every kind."""
import argparse
import random
import sys

from compare.lists import follow
from compare.run import Figures, Mismatch, compare
from compare.states import BLOCK, a_picker
from reference.image import BODY_LENGTH, image

CHANGES = (1, 0x80, 0xFF)
BATCH = 20000


def small_geometry(rng):
    size = rng.choice([5, BLOCK, 2 * BLOCK, 3 * BLOCK])
    n = rng.choice([1, 2, 3, 4, 6])
    return (n - 1) * size + rng.randint(1, size), size


def images(rng, many):
    return [image(a_picker(rng, *small_geometry(rng))) for _ in range(many)]


def lengthened(data):
    yield data + b"\0"
    for kind, length in enumerate(BODY_LENGTH, 1):
        yield data + bytes([kind]) + bytes(length)
        yield data + bytes([kind]) + bytes(length - 1)


def swapped(rng, data):
    """Two records' worth of bytes changed at once."""
    for _ in range(40):
        out = bytearray(data)
        for _ in range(rng.randint(2, 4)):
            out[rng.randrange(len(out))] = rng.choice([0, 1, 2, 3, 4, 5, 6, 7, 255])
        yield bytes(out)


def damaged(rng, data):
    yield from (data[:k] for k in range(len(data)))
    for k, byte in enumerate(data):
        yield from (data[:k] + bytes([byte ^ c]) + data[k + 1 :] for c in CHANGES)
    yield from lengthened(data)
    yield from swapped(rng, data)


def read_line(data):
    return f"read {data.hex() or '-'}"


def judge(lines, figures):
    compare(follow(["zero"] + lines), figures)


def main():
    ap = argparse.ArgumentParser()
    ap.add_argument("seed", type=int)
    ap.add_argument("images", type=int)
    a = ap.parse_args()
    rng = random.Random(a.seed)
    figures, lines = Figures(), []
    try:
        for data in images(rng, a.images):
            lines += [read_line(d) for d in damaged(rng, data)]
            if len(lines) >= BATCH:
                judge(lines, figures)
                lines = []
        if lines:
            judge(lines, figures)
    except Mismatch as why:
        print(f"compare: {why}", file=sys.stderr)
        return 1
    accepted = figures["call read"] - figures["refused 13"]
    print(f"{figures['call read']} damaged images read, {figures['refused 13']} refused at the same place, {accepted} accepted by both")
    return 0


if __name__ == "__main__":
    sys.exit(main())
