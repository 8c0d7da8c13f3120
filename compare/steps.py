"""`python3 -m compare.steps`: writes runs of recorded/ as theorems, which the checker computes from the definition (proofs/ of the crates
replayed and replayed_more), and edits that make one of them false (must-fail/). With `--check` it writes nothing and fails where a file is
not what recorded/ gives.

A run is what follows a `new` or a `read` that is accepted, up to the next of these or a `zero`; before a picker stands, each call is one.
Runs are chosen without chance: first those that add a call with a kind of answer, a refusal, a flag, counter or option of a pick, or a
difference not yet there, then others up to LEAST steps. It fails where a call, refusal, flag or difference that is recorded is left out."""
import argparse
import glob
import os
import re
import sys

from compare.record import CALLS, OUTCOMES
from compare.run import TOP
from compare.terms import LIBRARY, Terms, theorem, used_draws
from reference.script import SHAPES, WITH_DRAWS, calls_of

# ---- sizes
LEAST = 1500
PART = 250
FIRST, REST = "replayed", "replayed_more"
SMALL = 400
BY_HAND = "Replaying.antt"


# ---- what is recorded
class Step:
    def __init__(self, number, call, answer, image, same, differences):
        self.number, self.call, self.answer, self.image, self.same, self.differences = number, call, answer, image, same, differences

    def makes(self):
        return self.call.name in ("new", "read") and self.answer[0] == "done"


def recorded():
    """The steps of recorded/, each with the image after it."""
    with open(CALLS, encoding="ascii") as f:
        calls = calls_of(f.read())
    with open(OUTCOMES, encoding="ascii") as f:
        lines = f.read().split("\n")
    steps, differences, image, at = [], [], "", 0
    for number, call in enumerate(calls, 1):
        while lines[at].startswith("difference "):
            differences.append(lines[at].split(" ")[1])
            at += 1
        word = lines[at + 1].split(" ")[1]
        image = {"same": image, "none": ""}.get(word, word)
        steps.append(Step(number, call, lines[at].split(" "), image, word == "same", tuple(differences)))
        differences, at = [], at + 2
    return steps


def numbers_in(value):
    """Every number of an argument."""
    if isinstance(value, tuple):
        return [n for v in value for n in numbers_in(v)]
    return [value] if isinstance(value, int) else []


def sayable(step):
    """The definition has no negative numbers, and no memory without a picker in it."""
    return step.answer != ["refused", "3"] and all(n >= 0 for n in numbers_in(step.call.args))


def runs_of(steps):
    """Runs of steps. One that cannot be said is left out, and ends its run where it changed the picker."""
    runs, on = [[]], True
    for step in steps:
        if step.call.name == "zero" or step.makes() or not step.image:
            runs.append([])
            on = True
        if step.call.name == "zero" or not on:
            continue
        if step.image or step.call.name in ("new", "read"):
            if sayable(step):
                runs[-1].append(step)
            elif not step.same:
                on = False
    return [run for run in runs if run]


# ---- the choice
def bits_of(number):
    return [k for k in range(number.bit_length()) if number >> k & 1]


def needed(step):
    """What must be there: the call by name, the refusal, the flags of a pick."""
    name, answer = step.call.name, step.answer
    keys = {("call", name)} | {("difference", d) for d in step.differences}
    if answer[0] == "refused":
        keys.add(("refused", answer[1]))
    if answer[0] == "picked":
        keys |= {("flag", k) for k in bits_of(int(answer[1]))}
    return keys


def telling(step):
    """What tells one step from another, beyond what must be there."""
    name, answer = step.call.name, step.answer
    if answer[0] == "picked":
        loops = {("loop", k) for k in range(7) if answer[3 + k] != "0"}
        return needed(step) | loops | {("option", k) for k in bits_of(step.call.args[0])}
    by_value = answer[0] == "refused" or name in WITH_DRAWS
    keys = needed(step) | {("answer", name, *answer[: 2 if by_value else 1])}
    if answer[:2] == ["refused", "13"]:
        keys.add(("fault", *step.call.args[0][int(answer[2]) :][:1]))
    return keys


def size(step):
    """The bytes of the image after a step, or of one that it reads, whichever are more."""
    return max(len(step.image) // 2, len(step.call.args[0]) if step.call.name == "read" else 0)


def cost(step):
    """Roughly what a step costs to check: a large image is dear."""
    return 1 + size(step) / SMALL * (1 if size(step) < SMALL else 100)


def best(runs, taken, have):
    """The run and the length of it that add most for their cost."""
    top, choice = 0, None
    for k, run in enumerate(runs):
        new, spent = set(), 0
        for n, step in enumerate(run, 1):
            spent += cost(step) if n > taken[k] else 0
            more = telling(step) - have - new
            if more and n > taken[k]:
                new |= more
                if len(new) / spent > top:
                    top, choice = len(new) / spent, (k, n)
    return choice


def chosen(runs):
    """As many steps of each run as are replayed."""
    taken, have = [0] * len(runs), set()
    while (choice := best(runs, taken, have)) is not None:
        k, n = choice
        taken[k] = n
        have |= {key for step in runs[k][:n] for key in telling(step)}
    for k, run in enumerate(runs):
        if sum(taken) < LEAST and all(size(step) < SMALL for step in run):
            taken[k] = min(len(run), taken[k] + LEAST - sum(taken))
    return [run[:n] for run, n in zip(runs, taken) if n]


def left_out(steps, picked):
    """What must be there and is not: every call and refusal, 3 apart, which the definition has not, and what is recorded."""
    due = {("call", name) for name in SHAPES} | {("refused", str(k)) for k in range(1, 14)}
    due |= {key for step in steps for key in needed(step)}
    due -= {("call", "zero"), ("refused", "3")}
    return sorted(due - {key for run in picked for step in run for key in needed(step)})


# ---- files
def module(runs, what):
    """The text of a proof file."""
    t = Terms()
    theorems = "\n".join(theorem(t, run) for run in runs)
    uses = "".join(f"use {m}.{{{', '.join(sorted(names))}}}\n" for m, names in sorted(t.used.items()))
    return f"-- {what}, computed. Written by compare/steps.py: not to be edited.\n{LIBRARY}{uses}\n{theorems}"


def parts(runs):
    """Runs by files of about PART steps."""
    out = [[]]
    for run in runs:
        if sum(map(len, out[-1])) >= PART:
            out.append([])
        out[-1].append(run)
    return out


def of_first(picked):
    """The runs of the small crate: the shortest with a change answered and a pick that draws, and the shortest with an image refused."""
    def shortest(*kinds):
        return min((run for run in picked if all(any(kind(step) for step in run) for kind in kinds)), key=len)
    drawn = shortest(lambda s: s.answer[0] == "picked" and used_draws(s) and "." in " ".join(s.answer), lambda s: says(s, "1"))
    return [drawn, shortest(lambda s: s.answer[:2] == ["refused", "13"])]


def says(step, value):
    return step.answer[0] == "answer" and step.call.name in WITH_DRAWS and step.answer[1] == value


def once(text, pattern):
    """The first line of a text that is there once and matches."""
    lines = text.split("\n")
    return next(line for line in lines if re.search(pattern, line) and lines.count(line) == 1)


# name, what it says, a pattern of its line, the part of the line to change, and what to put there
EDITS = (
    ("another_answer", "a call is recorded to answer false", r"said true", r"said true", "said false"),
    ("another_block", "a pick is recorded to give another block first", r"picked \(\(\w+ \d", r"(picked \(\(\w+) \d+", r"\1 9"),
    ("fewer_draws", "a pick is recorded to use no draws", r"\) [1-9]\d*\)\) image_", r"\) \d+\)\) image_", ") 0)) image_"),
    ("another_image", "a piece in an image is recorded with another count", r"^    2 ∷ 0 ∷", r"2 ∷ 0", "2 ∷ 9"),
    ("another_place", "an image is recorded to be at fault elsewhere", r"outcome \(\w+ \(IllFormedImage", r"IllFormedImage ", "IllFormedImage 9"),
)


def edit_files(text):
    """Edits that each make one recorded thing another."""
    out = {}
    for name, what, where, part, put in EDITS:
        old = once(text, where)
        new = re.sub(part, put, old, count=1)
        if new == old:
            sys.exit(f"steps: the edit {name} changes nothing")
        out[f"{FIRST}/must-fail/{name}.edit"] = f"# {what}\nfile: proofs/Steps.antt\nold: {old}\nnew: {new}\n"
    return out


def files(picked):
    """Every file by its path: two runs in a crate of their own, which is small for its must-fail edits, and the others."""
    first = of_first(picked)
    few = module(first, "Recorded calls, a few")
    out = {f"{FIRST}/proofs/Lib.antt": "pub mod Replaying\npub mod Steps\n", f"{FIRST}/proofs/Steps.antt": few, f"{REST}/proofs/Lib.antt": ""}
    for k, runs in enumerate(parts([run for run in picked if run not in first]), 1):
        out[f"{REST}/proofs/Lib.antt"] += f"pub mod Steps{k}\n"
        what = f"Recorded calls {runs[0][0].number} to {runs[-1][-1].number}, those that are replayed"
        out[f"{REST}/proofs/Steps{k}.antt"] = module(runs, what)
    return {os.path.join(TOP, "crates", path): text for path, text in (out | edit_files(few)).items()}


def standing():
    """The files that stand."""
    folders = [os.path.join(TOP, "crates", crate, part) for crate in (FIRST, REST) for part in ("proofs", "must-fail")]
    paths = [path for folder in folders for path in glob.glob(os.path.join(folder, "*"))]
    return {path: read_text(path) for path in paths if os.path.basename(path) != BY_HAND}


def read_text(path):
    with open(path, encoding="utf-8") as f:
        return f.read()


def write_all(due, found):
    for path in set(found) - set(due):
        os.remove(path)
    for path, text in due.items():
        os.makedirs(os.path.dirname(path), exist_ok=True)
        with open(path, "w", encoding="utf-8") as f:
            f.write(text)


def main():
    ap = argparse.ArgumentParser()
    ap.add_argument("--check", action="store_true")
    check = ap.parse_args().check
    steps = recorded()
    picked = chosen(runs_of(steps))
    missing = left_out(steps, picked)
    if missing:
        print(f"steps: recorded, but not replayed: {missing}", file=sys.stderr)
        return 1
    due, found = files(picked), standing()
    if check and due != found:
        stale = sorted(os.path.relpath(path, TOP) for path in set(due) | set(found) if due.get(path) != found.get(path))
        print(f"steps: not what recorded/ gives: {', '.join(stale)}; run python3 -m compare.steps", file=sys.stderr)
        return 1
    if not check:
        write_all(due, found)
    keys = {key for run in picked for step in run for key in needed(step)}
    kinds = {kind: sum(1 for key in keys if key[0] == kind) for kind in ("call", "refused", "flag", "difference")}
    print(f"{sum(map(len, picked))} recorded steps in {len(picked)} runs for the checker: {kinds['call']} calls, "
          f"{kinds['refused']} refusals, {kinds['flag']} flags, {kinds['difference']} differences")
    return 0


if __name__ == "__main__":
    sys.exit(main())
