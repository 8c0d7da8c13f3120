"""Inputs of the pick program, and what it prints for each. `python3 -m compare.pick_programs`: the oracle, given the same image and the
same pick as calls, with a bitfield of ones and draws of 0, comes to the same."""
import re
import sys

from compare.run import Mismatch, ask_oracle
from reference.geometry import new
from reference.image import HEAD, PICK, PIECE, WIDTHS, image, record, split

EXAMPLE = record(HEAD, (65536, 32768, 0, 0, 2, 1)) + record(PIECE, (2, 4, 4, 0, 0)) + record(PIECE, (1, 4, 4, 0, 0))
ASK = record(PICK, (3, 3, 0, 10, 0, 0))
NONE_WANTED = record(PICK, (3, 0, 0, 10, 0, 0))
BOTH_ORDERS = record(PICK, (17, 3, 0, 10, 0, 0))
NO_PEER_BUT_ITS_NUMBER = record(PICK, (3, 3, 0, 10, 0, 1))
SIXTEEN = "0 0\n0 1\n0 2\n0 3\n0 4\n0 5\n0 6\n0 7\n0 8\n0 9\n0 10\n0 11\n0 12\n0 13\n0 14\n0 15\n"
SIX_LINES = "0 0\n0 1\n1 0\nflags 16\ndraws 0\nloops 0 0 2 0 0 0 0\n"
BLOCK = 16384


def with_seed(total, size):
    """A new picker with one peer that has everything."""
    return image(new(total, size)._replace(seeds=1))


PIECES_64, PIECES_65 = with_seed(64, 1), with_seed(65, 1)
BLOCKS_16, BLOCKS_17 = with_seed(16 * BLOCK, 16 * BLOCK), with_seed(17 * BLOCK, 17 * BLOCK)
LARGEST = with_seed(64 * 16 * BLOCK, 16 * BLOCK)

# standard input of the pick program, and what it prints
PICKS = {
    "the example": (EXAMPLE + ASK, SIX_LINES),
    "nothing": (b"", "refused 13 0\n"),
    "no pick record": (EXAMPLE, "refused 13 44\n"),
    "a pick record cut short": (EXAMPLE + ASK[:-1], "refused 13 44\n"),
    "something after it": (EXAMPLE + ASK + b"\0", "refused 13 62\n"),
    "a piece missing": (EXAMPLE[:-10] + ASK, "refused 13 34\n"),
    "an absent peer with a number": (EXAMPLE + NO_PEER_BUT_ITS_NUMBER, "refused 13 44\n"),
    "64 pieces, sequential from the end": (
        PIECES_64 + record(PICK, (18, 3, 0, 10, 0, 0)),
        "63 0\n62 0\n61 0\nflags 4096\ndraws 63\nloops 0 0 0 0 0 0 0\n",
    ),
    "64 pieces, a run from the drawn one": (
        PIECES_64 + record(PICK, (0, 2, 3, 10, 1, 7)),
        "0 0\n1 0\n2 0\nflags 3072\ndraws 1\nloops 0 0 0 0 0 3 0\n",
    ),
    "65 pieces": (PIECES_65 + ASK, "refused 2\n"),
    "65 pieces, made new": (image(new(65, 1)) + ASK, "refused 2\n"),
    "16 blocks a piece": (BLOCKS_16 + record(PICK, (1, 17, 0, 10, 0, 0)), SIXTEEN + "flags 8200\ndraws 0\nloops 0 0 0 1 0 0 0\n"),
    "17 blocks a piece": (BLOCKS_17 + ASK, "refused 2\n"),
    "17 blocks, the last of one byte": (image(new(1, 16 * BLOCK + 1)) + ASK, "refused 2\n"),
    "64 pieces of 16 blocks": (
        LARGEST + record(PICK, (2, 2, 17, 10, 0, 0)),
        SIXTEEN + "1 0\nflags 3072\ndraws 1\nloops 0 0 0 0 0 17 0\n",
    ),
    "65 pieces and no blocks wanted": (PIECES_65 + NONE_WANTED, "refused 2\n"),
    "65 pieces and both orders": (PIECES_65 + BOTH_ORDERS, "refused 2\n"),
    "17 blocks and no blocks wanted": (BLOCKS_17 + NONE_WANTED, "refused 2\n"),
    "17 blocks and both orders": (BLOCKS_17 + BOTH_ORDERS, "refused 2\n"),
    "65 pieces and no pick record": (PIECES_65, "refused 13 674\n"),
    "65 pieces and something after": (PIECES_65 + NONE_WANTED + b"\7", "refused 13 692\n"),
    "65 pieces, an absent peer with a number": (PIECES_65 + NO_PEER_BUT_ITS_NUMBER, "refused 13 674\n"),
    "17 blocks and a piece missing": (BLOCKS_17[:24] + BOTH_ORDERS, "refused 13 24\n"),
    "no blocks wanted": (EXAMPLE + NONE_WANTED, "refused 11\n"),
    "2,048 blocks wanted, a run of 2,048, 1,000 peers": (
        EXAMPLE + record(PICK, (0, 2048, 2048, 1000, 0, 0)),
        "0 0\n0 1\n1 0\n1 1\nflags 11264\ndraws 1\nloops 0 0 0 0 0 4 0\n",
    ),
    "2,049 blocks wanted": (EXAMPLE + record(PICK, (0, 2049, 0, 10, 0, 0)), "refused 11\n"),
    "a run of 2,049": (EXAMPLE + record(PICK, (0, 3, 2049, 10, 0, 0)), "refused 11\n"),
    "1,001 peers": (EXAMPLE + record(PICK, (0, 3, 0, 1001, 0, 0)), "refused 11\n"),
    "both orders": (EXAMPLE + BOTH_ORDERS, "refused 11\n"),
    "both orders, 64 pieces": (PIECES_64 + BOTH_ORDERS, "refused 11\n"),
    "both orders, 16 blocks": (BLOCKS_16 + BOTH_ORDERS, "refused 11\n"),
}


LEAST_BY_ORACLE = 13


def for_the_oracle(due):
    """The program alone knows 2, which is its own bound here, and the pick record behind an image."""
    return not due.startswith(("refused 2\n", "refused 13 "))


def script_of(data):
    """The same pick as a script."""
    at = len(data) - len(ASK)
    total, size = split(data[1:13], WIDTHS[HEAD][:2])
    options, wanted, run, peers, has_peer, number = split(data[at + 1 :], WIDTHS[PICK])
    n = -(-total // size)
    bits = bytes([255] * -(-n // 8)).hex()
    return f"read {data[:at].hex()}\npick_pieces {options} {wanted} {run} {peers} {number if has_peer else '-'} {n} {bits} -\nend\n"


def printed(answer):
    """The oracle's answer as the pick program prints it."""
    pick = re.fullmatch(r"picked (\d+) loops ([\d ]+) blocks([\d. ]*) draws (\d+)", answer)
    if not pick:
        return f"{answer}\n"
    flags, loops, blocks, draws = pick.groups()
    return "".join(f"{b.replace('.', ' ')}\n" for b in blocks.split()) + f"flags {flags}\ndraws {draws}\nloops {loops}\n"


def main():
    asked = 0
    for name, (data, due) in PICKS.items():
        if for_the_oracle(due):
            asked += 1
            (_, first, _), (_, answer, _) = ask_oracle(script_of(data))
            if first != "done" or printed(answer) != due:
                raise Mismatch(f"{name}: {first}, {printed(answer)!r} where {due!r} is due")
    if asked < LEAST_BY_ORACLE:
        raise Mismatch(f"{asked} picks, fewer than {LEAST_BY_ORACLE}")
    print(f"{asked} picks of the program made by the oracle too")
    return 0


if __name__ == "__main__":
    try:
        sys.exit(main())
    except (Mismatch, OSError) as why:
        sys.exit(f"pick_programs: {why}")
