"""`python3 -m compare.images COUNT SEED`: pickers in three buffers, each with the reference's image, and geometries with the image of a
new picker. COUNT small ones, and some of many pieces, blocks and partials. Lines, their numbers parted by spaces; `end` is the last one:

    words WORDS..
    cells CELLS..
    partials INDEX INFO_IDX FLAGS ..
    image BYTES
    new TOTAL SIZE BYTES

An `image` line is about the buffers above it. BYTES are hexadecimal."""
import argparse
import random
import sys

from compare.buffers import laid_out
from compare.memory import LARGE
from compare.states import BLOCK, a_picker, small_geometry, wide_geometry
from reference.geometry import new
from reference.image import image
from reference.state import MAX_PARTIALS, MAX_PIECE_SIZE, MAX_PIECES


def show(rng, s):
    for name, buffer in zip(("words", "cells", "partials"), laid_out(rng, s)):
        print(name, *buffer)
    print("image", image(s).hex())


def show_new(total, size):
    print("new", total, size, image(new(total, size)).hex())


def pickers(rng, count):
    for k in range(count):
        yield a_picker(rng, *(wide_geometry if k % 30 == 0 else small_geometry)(rng))
    for n, b, partials, _ in LARGE + ((MAX_PIECES, 256, MAX_PARTIALS, 0),):
        at = set(rng.sample(range(n), partials))
        yield a_picker(rng, (n - 1) * b * BLOCK + rng.randint(1, b * BLOCK), b * BLOCK, at)


def geometries(rng, count):
    for k in range(count):
        yield (wide_geometry if k % 10 == 0 else small_geometry)(rng)
    yield 1, 1
    yield MAX_PIECES * MAX_PIECE_SIZE, MAX_PIECE_SIZE


def main():
    ap = argparse.ArgumentParser()
    ap.add_argument("count", type=int)
    ap.add_argument("seed", type=int)
    a = ap.parse_args()
    rng = random.Random(a.seed)
    for s in pickers(rng, a.count):
        show(rng, s)
    for total, size in geometries(rng, a.count):
        show_new(total, size)
    print("end")
    return 0


if __name__ == "__main__":
    sys.exit(main())
