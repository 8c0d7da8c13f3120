"""`python3 -m reference.pick`: the pick program. An image and one pick record on standard input, bitfield all ones, every draw 0."""
import sys

from .blocks import Ask
from .calls import MAX_RUN, MAX_WANTED, MORE_OUTPUT, Call, Refused, Zeros, check_pick, refuse
from .geometry import blocks_per_piece, num_pieces
from .image import Fault, read_with_pick
from .pick_pieces import pick_pieces
from .state import MIN_DRAWS

MOST_PIECES = 64
MOST_BLOCKS = 16


def picked(data):
    """What the pick on standard input's bytes comes to."""
    s, ask = read_with_pick(data)
    n = num_pieces(s)
    refuse(2, n > MOST_PIECES or blocks_per_piece(s) > MOST_BLOCKS)
    draws = Zeros(MIN_DRAWS, ())
    call = Call("pick_pieces", (), 0, draws, 0, MAX_WANTED + MAX_RUN + MORE_OUTPUT)
    check_pick(s, call, *ask, n, bytes((n + 7) // 8), ())
    return pick_pieces(s, Ask(*ask, (True,) * n, ()), draws)


def lines(data):
    try:
        w = picked(data)
    except Fault as fault:
        return [f"refused 13 {fault.place}"]
    except Refused as no:
        return [f"refused {no.number}"]
    blocks = [f"{i} {j}" for i, j in w.out]
    return blocks + [f"flags {w.flags}", f"draws {w.used}", "loops " + " ".join(map(str, w.loops))]


def main():
    print("\n".join(lines(sys.stdin.buffer.read())))


if __name__ == "__main__":
    main()
