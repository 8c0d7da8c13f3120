"""`python3 -m compare.judged SEED IMAGES`: images, whole and damaged, alone and with a pick record behind them, with the place that the
reference's reader gives, for a program that runs the proved judge. A line for each:

    image BYTES PLACE
    job BYTES PLACE

BYTES in hex, `-` for none; PLACE is that of the first fault, `-` where there is none."""
import argparse
import random

from compare.faults import damaged, images
from compare.states import a_picker
from reference.image import PICK, Fault, image, read, read_with_pick, record

LARGE = [(4096 * 5, 5), (700 * 40000, 40000), (3 * 4194304 - 1, 4194304)]


def place(reader, data):
    try:
        reader(data)
    except Fault as why:
        return str(why.place)
    return "-"


def a_pick(rng):
    peer = rng.choice([(0, 0), (1, rng.getrandbits(64)), (0, 1), (2, 0), (1, 0)])
    return record(PICK, (rng.getrandbits(16), rng.randint(0, 3000), rng.randint(0, 3000), rng.randint(0, 1100)) + peer)


def some(rng, data, many):
    """The image itself and a few damaged ones, where it is too long for all."""
    yield data
    for _ in range(many):
        out = bytearray(data)
        for _ in range(rng.randint(1, 2)):
            out[rng.randrange(len(out))] ^= rng.choice([1, 2, 4, 0x80, 0xFF])
        yield bytes(out[: rng.randint(0, len(out))] if rng.random() < 0.2 else out)


def main():
    ap = argparse.ArgumentParser()
    ap.add_argument("seed", type=int)
    ap.add_argument("images", type=int)
    a = ap.parse_args()
    rng = random.Random(a.seed)
    small = images(rng, a.images)
    cases = [d for data in small for d in [data, *damaged(rng, data)]]
    cases += [d for total, size in LARGE for d in some(rng, image(a_picker(rng, total, size)), 30)]
    for data in cases:
        print("image", data.hex() or "-", place(read, data))
    for data in small:
        for d in [data + a_pick(rng) for _ in range(8)] + list(damaged(rng, data + a_pick(rng))):
            print("job", d.hex() or "-", place(read_with_pick, d))


if __name__ == "__main__":
    main()
