"""`python3 -m compare.run CALLS SEED`: the oracle and the reference on the same random lists of calls.

Prints the figures: calls, refusals, differences recognised by the oracle. The first mismatch ends it with status 1, with the list up
to that call as a script."""
import argparse
import collections
import multiprocessing
import os
import re
import subprocess
import sys

from compare.lists import Limits, lists
from reference.calls import STEPS

TOP = os.path.dirname(os.path.dirname(os.path.abspath(__file__)))
ORACLE = os.path.join(TOP, "build", "oracle", "oracle")
BATCH = 4000
DIFFERENCES = ("ring-walk", "zero-run", "reverse-full", "totals")


class Mismatch(Exception):
    pass


class Figures(collections.Counter):
    """Calls by name, refusals by number, differences by name."""


def ask_oracle(script):
    """The oracle's outcome: for each call its differences, its answer, its image line."""
    run = subprocess.run([ORACLE], input=script, capture_output=True, text=True)
    if run.returncode != 0:
        raise Mismatch(f"the oracle ended with status {run.returncode}: {run.stderr.strip()[:2000]}")
    out, marks = [], []
    lines = run.stdout.split("\n")
    for k, line in enumerate(lines):
        if line.startswith("difference "):
            marks.append(line.split(" ")[1])
        elif line.startswith("image "):
            out.append((marks, lines[k - 1], line))
            marks = []
    if lines[-2:] != [f"end {len(out)}", ""]:
        raise Mismatch("the oracle's output is cut short")
    return out


def image_line(now, last):
    return "image same" if now == last else "image none" if now is None else f"image {now.hex()}"


def script_of(steps):
    return "".join(f"{s.line}\n" for s in steps) + "end\n"


def compare(steps, figures):
    """The oracle's outcome of each step against the reference's."""
    found = ask_oracle(script_of(steps))
    if len(found) != len(steps):
        raise Mismatch(f"{len(found)} outcomes for {len(steps)} calls")
    last = None
    for k, (step, (marks, answer, shown)) in enumerate(zip(steps, found)):
        due = image_line(step.image, last)
        last = step.image
        if (answer, shown) != (step.answer, due):
            start = max(j for j in range(k + 1) if steps[j].line == "zero")
            raise Mismatch(
                f"call: {step.line[:300]}\noracle:    {answer[:600]}\n           {shown}\nreference: {step.answer[:600]}\n           {due}\n"
                f"script:\n{script_of(steps[start:k + 1])}"
            )
        figures["call " + step.line.split(" ")[0]] += 1
        figures["calls"] += 1
        refused = re.match(r"refused \d+", answer)
        if refused:
            figures[refused.group(0)] += 1
        for mark in marks:
            figures["difference " + mark] += 1


def work(job):
    """One worker's share: its figures, or what went wrong."""
    seed, calls, huge = job
    figures, batch = Figures(), []
    try:
        for steps in lists(seed, calls, huge):
            batch += steps
            if len(batch) >= BATCH:
                compare(batch, figures)
                batch = []
        if batch:
            compare(batch, figures)
    except (Mismatch, Limits) as why:
        return figures, f"seed {seed}: {why}"
    return figures, None


def never_met(figures):
    """What a long enough run must have met."""
    names = [f"call {name}" for name in STEPS] + [f"refused {k}" for k in range(1, 14) if k != 13]
    return [name for name in names + [f"difference {d}" for d in DIFFERENCES] if not figures[name]]


def report(figures):
    print(f"{figures['calls']} calls compared, no mismatch")
    for group in ("refused", "difference"):
        found = {name: many for name, many in figures.items() if name.startswith(group)}
        print("  " + ", ".join(f"{name}: {found[name]}" for name in sorted(found, key=lambda n: (len(n), n))))


def main():
    ap = argparse.ArgumentParser()
    ap.add_argument("calls", type=int)
    ap.add_argument("seed", type=int)
    ap.add_argument("--huge", type=float, default=0.0, help="share of lists with full-size geometries")
    ap.add_argument("--all", action="store_true", help="every call, refusal and difference must have been met")
    ap.add_argument("--workers", type=int, default=2)
    a = ap.parse_args()
    jobs = [(a.seed * 1000 + k, a.calls // (4 * a.workers) + 1, a.huge) for k in range(4 * a.workers)]
    figures = Figures()
    with multiprocessing.Pool(a.workers) as pool:
        for part, wrong in pool.imap_unordered(work, jobs):
            figures.update(part)
            if wrong:
                print(f"compare: mismatch, {wrong}", file=sys.stderr)
                return 1
    report(figures)
    missing = never_met(figures) if a.all else []
    if missing:
        print("compare: never met: " + ", ".join(missing), file=sys.stderr)
        return 1
    return 0


if __name__ == "__main__":
    sys.exit(main())
