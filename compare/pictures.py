"""`python3 -m compare.pictures PICKS SEED`: pictures of random picks are drawn whole: the text is well-formed, the blocks are the
reference's, and each has the phase that gave it. The sample in docs/pictures is what its input gives, and bad input gets status 2 and
one line."""
import pathlib
import random
import subprocess
import sys
from xml.etree import ElementTree

from compare.bad_scripts import TOP
from compare.passing import a_pick, asked
from draw.choosing import PHASES, choose
from draw.picture import draw
from reference.calls import Refused
from reference.pick_pieces import pick_pieces
from reference.script import call_of

SAMPLE = pathlib.Path(TOP, "docs", "pictures")


def run(data, *words):
    return subprocess.run([sys.executable, "-m", "draw", *words], input=data, capture_output=True, cwd=TOP)


def wrong_picture(pick):
    """What is wrong with the picture of a pick, or None; a refused one has none."""
    s, call = pick.state, call_of(pick.line)
    try:
        ask = asked(s, call)
    except Refused:
        return None
    chosen, due = choose(s, ask, call.draws), pick_pieces(s, ask, call.draws)
    ElementTree.fromstring(draw(s, ask, chosen))
    if chosen.blocks != due.out or tuple(chosen.work) != tuple(due):
        return "another pick"
    if len(chosen.phases) != len(due.out) or not all(phase in PHASES and due.flags & phase for phase in chosen.phases):
        return "a block without its phase"
    in_turn = [list(PHASES).index(phase) for phase in chosen.phases]
    return None if in_turn == sorted(in_turn) else "phases out of turn"


def wrong_runs():
    data = (SAMPLE / "pick.bin").read_bytes()
    if run(data).stdout != (SAMPLE / "pick.svg").read_bytes():
        yield "docs/pictures/pick.svg is stale"
    bad = {"nothing": (b"", ()), "cut short": (data[:-1], ()), "bitfield": (data, ("--bits", "xx")), "few bits": (data, ("--bits", "ff"))}
    bad["suggestions"] = (data, ("--suggest", "1,,2"))
    for name, (given, words) in bad.items():
        out = run(given, *words)
        if out.returncode != 2 or out.stdout or out.stderr.count(b"\n") != 1 or not out.stderr.startswith(b"draw: "):
            yield f"bad input, {name}: status {out.returncode}, {out.stderr!r}"


def main():
    picks, seed = int(sys.argv[1]), int(sys.argv[2])
    rng = random.Random(seed)
    wrong = list(wrong_runs()) + [f"pick {k}: {why}" for k in range(picks) if (why := wrong_picture(a_pick(rng)))]
    for line in wrong[:10]:
        print(f"pictures: {line}", file=sys.stderr)
    if not wrong:
        print(f"{picks} pictures drawn, the sample is as its input gives it")
    return 1 if wrong else 0


if __name__ == "__main__":
    sys.exit(main())
