"""`python3 -m compare.list_words COUNT SEED`: lists of words, each mended once or made anew by the reference, for a program that runs the
proved code. A line for each, lists by commas (`-` for none):

    update PIECE OLD NEW USED DRAWS WORDS TAIL AFTER NEXT
    rebuild RANKS USED DRAWS LENT AFTER NEXT

WORDS are the list with the old ranks, TAIL what lies behind it in the lent slice; RANKS are those of all pieces, LENT is what lies in the
slice before; AFTER is the list with its ranks, NEXT the number of the next draw."""
import argparse
import random

from reference.bucket import draw
from reference.order import earlier, groups, later, placed, removed, shuffled, size, start, swap

SIZES = [1, 2, 3, 5, 8, 17, 40, 200, 1500]
TOPS = [1, 2, 3, 6, 30, 300, 1022, 1023, 1024]
REBUILDS = 10
MAX_RANK = 21021
UNIT = 65536


def moved(b, old, i, draws, used, items):
    """i, of rank `old` until now, at a drawn place of its new group."""
    new, k = b(i), items.index(i)
    ranks = [b(x) for x in items]
    first, many = start(ranks, new), size(ranks, new)
    near = first + many - 1 if new < old else first
    out = earlier(b, near, k, items) if new < old else later(b, k, near, items)
    if many == 1:
        return out, used
    return swap(out, near, first + draw(draws, used, many - 1)), used + 1


def mended(b, old, i, draws, used, items):
    """The list after i came from rank `old` to b(i), and the number of the next draw."""
    if b(i) == old:
        return items, used
    if b(i) == 0:
        return removed(b, items.index(i), items), used
    if old != 0:
        return moved(b, old, i, draws, used, items)
    ranks = [b(x) for x in items]
    first, many = start(ranks, b(i)), size(ranks, b(i))
    if many == 0:
        return placed(b, first, i, items), used
    return placed(b, first + draw(draws, used, many), i, items), used + 1


def shown(numbers):
    return ",".join(map(str, numbers)) or "-"


def words(ranks, items):
    return [ranks[x] * UNIT + x for x in items]


def a_case(rng):
    pieces = rng.sample(range(4096), rng.choice(SIZES))
    top = rng.choice(TOPS + [MAX_RANK])
    ranks = {x: rng.randint(0, top) for x in pieces}
    listed = tuple(sorted((x for x in pieces if ranks[x]), key=lambda x: ranks[x]))
    i, new = rng.choice(pieces), rng.choice([0, rng.randint(0, top), rng.randint(1, top)])
    old = ranks[i]
    draws = [rng.getrandbits(32) for _ in range(rng.randint(0, 4))]
    used = rng.randint(0, len(draws))
    tail = [rng.getrandbits(64) for _ in range(rng.randint(1, 3))]
    before = words(ranks, listed)
    ranks[i] = new
    after, following = mended(lambda x: ranks[x], old, i, draws + [0] * 2, used, listed)
    return f"update {i} {old} {new} {used} {shown(draws)} {shown(before)} {shown(tail)} {shown(words(ranks, after))} {following}"


def rebuilt(ranks, draws, used):
    """The pieces with a rank by rank, each group shuffled, and the number of the next draw."""
    order = ()
    for group in groups(ranks.__getitem__, sorted((x for x, rank in enumerate(ranks) if rank), key=ranks.__getitem__)):
        mixed, used = shuffled(group, draws, used)
        order += mixed
    return order, used


def a_rebuild(rng):
    n = rng.choice([0] + SIZES + [4096])
    top = rng.choice(TOPS + [MAX_RANK])
    ranks = [rng.choice([0, rng.randint(0, top), rng.randint(max(0, top - 2), top)]) for _ in range(n)]
    draws = [rng.getrandbits(32) for _ in range(rng.choice([0, n // 2, n]))]
    used = rng.randint(0, len(draws))
    lent = [rng.getrandbits(64) for _ in range(n + rng.randint(0, 3))]
    after, following = rebuilt(ranks, draws + [0] * n, used)
    return f"rebuild {shown(ranks)} {used} {shown(draws)} {shown(lent)} {shown(words(ranks, after))} {following}"


def main():
    ap = argparse.ArgumentParser()
    ap.add_argument("count", type=int)
    ap.add_argument("seed", type=int)
    a = ap.parse_args()
    rng = random.Random(a.seed)
    for k in range(a.count):
        print(a_case(rng) if k % REBUILDS else a_rebuild(rng))
    print("end")


if __name__ == "__main__":
    main()
