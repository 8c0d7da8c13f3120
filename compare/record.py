"""`python3 -m compare.record`: writes recorded/calls.txt and recorded/outcomes.txt, the oracle's answers to a fixed list of calls. With
`--check` it compares instead of writing: the oracle still gives the recorded outcomes, and oracle and reference agree on the whole of
the scripts that are recorded in part. Status 1 where they do not, 2 where the recorded files are not as they have to be."""
import argparse
import os
import random
import subprocess
import sys

from compare.kept import is_cut, paths, recorded_form, whole
from compare.lists import a_list
from compare.recorded import CALLS, OUTCOMES, Lacking, check, recorded
from compare.replay import first_other
from compare.run import ORACLE
from compare.small_picks import small_picks
from compare.states import BLOCK, a_picker
from reference.calls import STEPS
from reference.image import image

SEED = 20261115
STEPS_WANTED = 6000
MOST_STEPS = 20000


class Failed(Exception):
    """The oracle does not answer, or not as recorded."""


def part(name):
    """Each part of the script has draws of its own, so that one can change without the others."""
    return random.Random(f"{SEED} {name}")


def tiny_geometry(rng):
    size = rng.choice([3, BLOCK, 2 * BLOCK, 4 * BLOCK])
    n = rng.choice([1, 2, 3, 4, 5])
    return (n - 1) * size + rng.choice([1, size, rng.randint(1, size)]), size


def full_of_partials(rng):
    """A picker with 512 partials and one piece more."""
    while True:
        s = a_picker(rng, 513, 1)
        if len(s.partials) == 512 and not s.pieces[512].had:
            marks = ["mark_as_downloading 512 0 - 0", "mark_as_writing 512 0 1", "mark_as_finished 512 0 1"]
            return ["zero", f"read {image(s).hex()}"] + marks


def damaged(rng):
    """A few images with one byte changed or cut off."""
    lines = ["zero"]
    for _ in range(60):
        data = image(a_picker(rng, *tiny_geometry(rng)))
        k = rng.randrange(len(data))
        lines.append(f"read {(data[:k] + bytes([data[k] ^ 1]) + data[k + 1:]).hex()}")
        lines.append(f"read {data[:k].hex() or '-'}")
    return lines


def random_lists(rng):
    lines = []
    while len(lines) < STEPS_WANTED or missing(lines):
        lines += [s.line for s in a_list(rng, tiny_geometry, 30)]
        if len(lines) > MOST_STEPS:
            raise Failed(f"no random list makes these calls: {', '.join(sorted(missing(lines)))}")
    return lines


def missing(lines):
    """Calls that no line makes yet."""
    return set(STEPS) - {line.split(" ")[0] for line in lines}


def script_lines():
    kept = [line for path in paths() for line in recorded_form(path)]
    return random_lists(part("lists")) + kept + small_picks(part("picks")) + damaged(part("damaged")) + full_of_partials(part("partials"))


def answers(script):
    try:
        run = subprocess.run([ORACLE], input=script, capture_output=True, text=True)
    except OSError as why:
        raise Failed(f"the oracle does not run: {why}")
    if run.returncode != 0:
        raise Failed(f"the oracle ended with status {run.returncode}: {run.stderr.strip()}")
    return run.stdout


def write(path, text):
    os.makedirs(os.path.dirname(path), exist_ok=True)
    with open(path, "w", encoding="ascii") as f:
        f.write(text)


def script_of(lines):
    return "\n".join(lines) + "\nend\n"


def record_anew():
    script = script_of(script_lines())
    outcomes = answers(script)
    check(script, outcomes)
    write(CALLS, script)
    write(OUTCOMES, outcomes)
    print(f"{script.count(chr(10)) - 1} calls recorded")


def still_holds():
    script, outcomes = recorded()
    if answers(script) != outcomes:
        raise Failed("the oracle's outcomes are not those recorded")
    cut = [path for path in paths() if is_cut(path)]
    for path in cut:
        script_whole = script_of(whole(path))
        other = first_other(script_whole, answers(script_whole))
        if other:
            raise Failed(f"{path}: {other}")
    print(f"{script.count(chr(10)) - 1} recorded outcomes still hold; {len(cut)} scripts recorded in part agree as a whole")


def main():
    ap = argparse.ArgumentParser()
    ap.add_argument("--check", action="store_true")
    try:
        still_holds() if ap.parse_args().check else record_anew()
    except (Failed, Lacking) as why:
        print(f"record: {why}", file=sys.stderr)
        return 2 if isinstance(why, Lacking) else 1
    return 0


if __name__ == "__main__":
    sys.exit(main())
