"""`python3 -m compare.planted`: faults planted one at a time, each of which the comparison with the Rust has to find.

A fault is an edit of one line, kept in compare/planted/: in the definition (crates/model/specs), in the reference, or in the oracle's
own judging. The file at fault stands in a temporary copy, and what the project compares is compared with that copy:

    definition  the recorded calls, the pick program's inputs, random lists, damaged images, the lists of compare/edges.py
    reference   the same, by reference.run, compare.programs and compare.run
    oracle      built anew; compare.record --check, compare.run, compare.faults

A fault with `survives:` changes nothing that anyone can see, for the reason given there. Status 1 where a fault is not found, where a
survivor is found, or where the unchanged text is found at fault; 2 where an edit does not apply, the edited text does not run, or
there are fewer faults than LEAST says.
`--only KIND` plants one kind; `--sample N` plants N faults drawn with `--seed S` from all kinds, and no survivor, and leads the
unchanged text through the recorded calls alone."""
import argparse
import collections
import multiprocessing
import os
import random
import shutil
import signal
import subprocess
import sys
import tempfile
import time
from typing import NamedTuple

from compare.antt import with_deep_stack
from compare.antt_parse import AnttError
from compare.definition import compare_definition, oracle_outcomes, recorded_outcomes, script_lines, wrong_program
from compare.edges import edges
from compare.faults import damaged, images, read_line
from compare.lists import lists
from compare.recorded import CALLS, OUTCOMES
from compare.run import TOP, Mismatch

FAULTS = os.path.join(TOP, "compare", "planted")
FOLDERS = {
    "definition": os.path.join("crates", "model", "specs"),
    "reference": "reference",
    "oracle": os.path.join("oracle", "src", "oracle"),
}
COPIED = {"definition": FOLDERS["definition"], "reference": "reference", "oracle": "oracle"}  # what a fault of a kind has a copy of
KEYS = ("file", "old", "new", "fault", "survives")
LEAST = {"definition": 60, "reference": 20, "oracle": 5}  # of the definition in these files alone
COUNTED = ("pick/Pick.antt", "pick/Blocks.antt", "change/Changes.antt", "list/Order.antt", "image/Image.antt")
SEED = 9
RANDOM_CALLS = 3000
DAMAGED_IMAGES = 3
SECONDS = 150  # an edit may make a walk endless
WORKERS = 2
ALL_WAYS = 99
SCRIPTS = []  # the evidence, for the workers


class Unusable(Exception):
    """A fault that cannot be planted."""


class Fault(NamedTuple):
    kind: str
    number: int
    file: str
    old: str
    new: str
    what: str
    survives: str

    def __str__(self):
        return f"{self.kind} {self.number}, {self.file}: {self.what}"


class Evidence(NamedTuple):
    """Calls, and what the unchanged oracle answers."""

    name: str
    lines: list
    outcomes: list


# ---- the faults
def blocks_of(text):
    """The blocks of a file of faults: each the lines between empty ones, without comments."""
    block = []
    for number, line in enumerate(text.split("\n") + [""], 1):
        if line.strip() and not line.startswith("#"):
            block.append((number, line))
        elif block and not line.strip():
            yield block
            block = []


def fault_of(kind, number, block):
    values = {}
    for at, line in block:
        key, colon, value = line.partition(": ")
        if not colon or key not in KEYS or key in values:
            raise Unusable(f"{kind}.txt, line {at}: none of the keys {', '.join(KEYS)}, or one given twice")
        values[key] = value
    missing = [key for key in KEYS[:-1] if not values.get(key)]
    if missing or values["old"] == values["new"]:
        raise Unusable(f"{kind}.txt, line {block[0][0]}: {'no ' + missing[0] if missing else 'the edit changes nothing'}")
    return Fault(kind, number, *(values.get(key, "") for key in KEYS))


def faults_of(kind):
    with open(os.path.join(FAULTS, f"{kind}.txt"), encoding="utf-8") as f:
        found = [fault_of(kind, k, block) for k, block in enumerate(blocks_of(f.read()), 1)]
    edits = collections.Counter((f.file, f.old, f.new) for f in found)
    twice = [f for f in found if edits[f.file, f.old, f.new] > 1]
    if twice:
        raise Unusable(f"{twice[0]}: planted twice")
    many = sum(1 for f in found if not f.survives and (kind != "definition" or f.file in COUNTED))
    if many < LEAST[kind]:
        raise Unusable(f"{kind}.txt: {many} faults to be found, fewer than {LEAST[kind]}")
    return found


def edited(fault):
    """The text of the file with the fault in it."""
    path = os.path.join(TOP, FOLDERS[fault.kind], fault.file)
    try:
        with open(path, encoding="utf-8") as f:
            text = f.read()
    except OSError as why:
        raise Unusable(f"{fault}: {why.strerror}")
    many = text.count(fault.old)
    if many != 1:
        raise Unusable(f"{fault}: the text to edit stands {many} times in the file: {fault.old}")
    out = text.replace(fault.old, fault.new)
    if fault.kind == "reference":
        try:
            compile(out, fault.file, "exec")
        except SyntaxError as why:
            raise Unusable(f"{fault}: {why}")
    return out


def control(kind):
    """The unchanged text, which nothing may find at fault."""
    return Fault(kind, 0, "", "", "", "the unchanged text", "it is not at fault")


def sample(faults, many, seed):
    """So many faults that are to be found: half of them of the definition, a third of the reference, the others of the oracle."""
    rng, out = random.Random(seed), []
    shares = {"definition": many - many // 3 - -(-many // 6), "reference": many // 3, "oracle": -(-many // 6)}
    for kind, share in shares.items():
        found = [f for f in faults if f.kind == kind and not f.survives]
        out += rng.sample(found, min(share, len(found)))
    return out


# ---- the evidence
def evidence():
    """Made once; the workers inherit it."""
    rng = random.Random(SEED)
    broken = ["zero"] + [read_line(d) for data in images(rng, DAMAGED_IMAGES) for d in damaged(rng, data)]
    made = [step.line for steps in lists(SEED, RANDOM_CALLS, 0.0) for step in steps]
    asked = [("random", made), ("damaged", broken), ("edges", edges())]
    kept = Evidence("recorded", script_lines(CALLS), recorded_outcomes(OUTCOMES))
    return [kept] + [Evidence(name, lines, oracle_outcomes(lines)) for name, lines in asked]


# ---- a copy with the fault in it
def copy(fault, folder):
    """The project in a folder: links to all of it, but a copy of what the fault changes. Answers where the copy is."""
    part = COPIED[fault.kind]
    if fault.kind != "definition":
        for name in os.listdir(TOP):
            if name != part and not name.startswith(".") and not (fault.kind == "oracle" and name == "build"):
                os.symlink(os.path.join(TOP, name), os.path.join(folder, name))
    out = os.path.join(folder, part)
    shutil.copytree(os.path.join(TOP, part), out, ignore=shutil.ignore_patterns("__pycache__"))
    if fault.number:
        with open(os.path.join(folder, FOLDERS[fault.kind], fault.file), "w", encoding="utf-8") as f:
            f.write(edited(fault))
    return out


def run(folder, command, text=""):
    """A command in the folder; its status, output and errors."""
    rust = os.environ.get("PICKER_RUST_SRC") or os.path.join(TOP, "..", "shared", "docs", "src")
    env = {**os.environ, "PICKER_RUST_SRC": os.path.abspath(rust), "PYTHONDONTWRITEBYTECODE": "1"}
    env.pop("PYTHONPATH", None)
    pipe = subprocess.PIPE
    job = subprocess.Popen(command, cwd=folder, env=env, stdin=pipe, stdout=pipe, stderr=pipe, text=True, start_new_session=True)
    try:
        out, err = job.communicate(text, timeout=SECONDS)
    except subprocess.TimeoutExpired:
        os.killpg(job.pid, signal.SIGKILL)
        job.communicate()
        raise TooLong
    return job.returncode, out, err


def python(*words):
    return [sys.executable, "-m", *map(str, words)]


# ---- what may find a fault: names, and tests that pass where something is found
class TooLong(Exception):
    """No end in the time that was given."""


def definition_differs(specs, script):
    wrong = compare_definition(specs, script.lines, script.outcomes, seconds=SECONDS)
    if wrong and wrong.endswith(f"no answer within {SECONDS} s"):
        raise TooLong
    if wrong and ("no value: TypeError" in wrong or "no value: AttributeError" in wrong):
        raise Unusable(f"the edited text has no value:\n{wrong[:2000]}")
    return wrong


def reference_differs(folder, script):
    status, out, _ = run(folder, python("reference.run"), "".join(f"{line}\n" for line in script.lines) + "end\n")
    shown = [line for _, answer, image in script.outcomes for line in (answer, image)]
    return status != 0 or out.split("\n") != shown + [f"end {len(script.lines)}", ""]


def fails(folder, *words):
    """A command finds a fault by status 1."""

    def test():
        status, _, err = run(folder, python(*words))
        if status not in (0, 1):
            raise Unusable(f"{words[0]} ended with status {status}: {err[:2000]}")
        return status

    return test


def definition_ways(specs):
    ways = [(s.name, lambda s=s: definition_differs(specs, s)) for s in SCRIPTS]
    return ways[:1] + [("programs", lambda: with_deep_stack(lambda: wrong_program(specs)))] + ways[1:]


def reference_ways(folder):
    ways = [(s.name, lambda s=s: reference_differs(folder, s)) for s in SCRIPTS if s.name != "random"]
    own = [("programs", fails(folder, "compare.programs")), ("random", fails(folder, "compare.run", RANDOM_CALLS, SEED, "--workers", 1))]
    return ways[:1] + own + ways[1:]


def oracle_ways(folder):
    status, _, err = run(folder, [os.path.join(folder, "oracle", "build")])
    if status != 0:
        raise Unusable(f"the oracle does not build: {err[:2000]}")
    return [
        ("recorded", fails(folder, "compare.record", "--check")),
        ("random", fails(folder, "compare.run", 4 * RANDOM_CALLS, SEED, "--workers", 1)),
        ("damaged", fails(folder, "compare.faults", SEED, 10 * DAMAGED_IMAGES)),
    ]


WAYS = {"definition": definition_ways, "reference": reference_ways, "oracle": oracle_ways}


class Job(NamedTuple):
    fault: Fault
    most: int  # so many ways are tried


def found(job):
    """The name of what finds the fault, or None."""
    with tempfile.TemporaryDirectory() as folder:
        part = copy(job.fault, folder)
        for name, test in WAYS[job.fault.kind](part if job.fault.kind == "definition" else folder)[: job.most]:
            try:
                if test():
                    return name
            except TooLong:
                return "time"
    return None


class Planted(NamedTuple):
    fault: Fault
    found: str  # by what, or None
    unusable: str
    seconds: float


def plant(job):
    start = time.monotonic()
    try:
        by, why = found(job), None
    except (AnttError, Unusable) as error:
        by, why = None, str(error)
    return Planted(job.fault, by, why, time.monotonic() - start)


# ---- the report
def line_of(p):
    took = f"{p.seconds:5.1f} s"
    if p.unusable:
        return f"{took}  NOT PLANTED: {p.fault}: {p.unusable}"
    if p.found:
        return f"{took}  {'LISTED AS A SURVIVOR, BUT ' if p.fault.survives else ''}found by {p.found}: {p.fault}"
    return f"{took}  survives: {p.fault}: {p.fault.survives}" if p.fault.survives else f"{took}  NOT FOUND: {p.fault}"


def as_listed(p):
    return not p.unusable and bool(p.found) != bool(p.fault.survives)


def figures(done):
    for kind in FOLDERS:
        ways = collections.Counter(p.found for p in done if p.fault.kind == kind and p.found)
        if ways:
            print(f"  {kind}: {sum(ways.values())} found, by " + ", ".join(f"{name} {many}" for name, many in ways.most_common()))


def planted(faults, ways_of_control):
    """Every fault planted, each kind's unchanged text before them; the status."""
    global SCRIPTS
    SCRIPTS = evidence()
    kinds = [kind for kind in FOLDERS if any(f.kind == kind for f in faults)]
    jobs = [Job(control(kind), ways_of_control) for kind in kinds]
    jobs += [Job(f, ALL_WAYS) for f in sorted(faults, key=lambda f: f.kind != "oracle")]  # the longest first
    done = []
    with multiprocessing.get_context("fork").Pool(WORKERS, maxtasksperchild=1) as pool:
        for p in pool.imap_unordered(plant, jobs):
            print(line_of(p), flush=True)
            done.append(p)
    wrong = [p for p in done if not as_listed(p)]
    done = [p for p in done if p.fault.number]
    figures(done)
    for p in wrong:
        print(f"planted: {line_of(p)}", file=sys.stderr)
    many = sum(1 for p in done if p.found)
    print(f"{len(done)} faults planted, {many} found, {sum(1 for p in done if p.fault.survives and as_listed(p))} survive as listed")
    return 2 if any(p.unusable for p in wrong) else 1 if wrong else 0


def arguments():
    ap = argparse.ArgumentParser()
    ap.add_argument("--sample", type=int, default=0, metavar="N", help="N faults drawn from all kinds")
    ap.add_argument("--seed", type=int, default=SEED, metavar="S", help="of the sample")
    ap.add_argument("--only", choices=FOLDERS, help="faults of one kind")
    ap.add_argument("--number", type=int, nargs="+", default=[], help="faults of these numbers")
    return ap.parse_args()


def main():
    a = arguments()
    try:
        faults = [f for kind in FOLDERS if a.only in (None, kind) for f in faults_of(kind)]
        for f in faults:
            edited(f)
    except Unusable as why:
        print(f"planted: {why}", file=sys.stderr)
        return 2
    if a.number:
        faults = [f for f in faults if f.number in a.number]
    try:
        return planted(sample(faults, a.sample, a.seed), 1) if a.sample else planted(faults, ALL_WAYS)
    except (Mismatch, OSError) as why:
        print(f"planted: no evidence: {why}", file=sys.stderr)
        return 2


if __name__ == "__main__":
    sys.exit(main())
