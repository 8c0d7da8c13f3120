"""recorded/ as it has to be: both files there and whole, no fewer calls and picks than LEAST says, every call done and every refusal and
difference met, every kept script in it. `recorded` gives both texts, or raises Lacking with what is amiss."""
import os

from compare.kept import paths, recorded_form
from compare.run import DIFFERENCES, TOP
from reference.calls import STEPS
from reference.script import Malformed, calls_of

CALLS = os.path.join(TOP, "recorded", "calls.txt")
OUTCOMES = os.path.join(TOP, "recorded", "outcomes.txt")
LEAST = {"calls": 7500, "picks": 1750, "kept scripts": 38}
REFUSALS = [f"refused {k}" for k in range(1, 14)]


class Lacking(Exception):
    """Recorded evidence that is not there."""


def text_of(path):
    try:
        with open(path, encoding="ascii") as f:
            text = f.read()
    except OSError as why:
        raise Lacking(f"{path}: {why.strerror}")
    except UnicodeDecodeError as why:
        raise Lacking(f"{path}: not ASCII at byte {why.start}")
    if not text:
        raise Lacking(f"{path}: the file is empty")
    return text


def names_of(script):
    try:
        return [call.name for call in calls_of(script)]
    except Malformed as why:
        raise Lacking(f"{CALLS}: {why}")


def answers_of(outcomes):
    """The answer of each call, and the differences met."""
    lines = outcomes.split("\n")
    answers = [lines[k - 1] for k, line in enumerate(lines) if k > 0 and line.startswith("image ")]
    if lines[-2:] != [f"end {len(answers)}", ""]:
        raise Lacking(f"{OUTCOMES}: cut short after {len(answers)} outcomes")
    return answers, {line.split(" ")[1] for line in lines if line.startswith("difference ")}


def enough(what, many):
    if many < LEAST[what]:
        raise Lacking(f"{many} {what}, fewer than {LEAST[what]}")


def all_met(what, due, met):
    missing = [name for name in due if name not in met]
    if missing:
        raise Lacking(f"no {what}: {', '.join(missing)}")


def check_kept(script):
    """Each kept script stands in the recorded one, in one piece."""
    found = paths()
    enough("kept scripts", len(found))
    missing = [os.path.relpath(p, TOP) for p in found if "\n".join([""] + recorded_form(p) + [""]) not in "\n" + script]
    if missing:
        raise Lacking(f"{CALLS}: these scripts are not in it, record anew: {', '.join(missing)}")


def check(script, outcomes):
    names = names_of(script)
    answers, met = answers_of(outcomes)
    if len(names) != len(answers):
        raise Lacking(f"{len(names)} calls and {len(answers)} outcomes")
    enough("calls", len(names))
    enough("picks", sum(1 for answer in answers if answer.startswith("picked ")))
    all_met("call that is done", STEPS, {n for n, answer in zip(names, answers) if not answer.startswith("refused ")})
    all_met("refusal", REFUSALS, {" ".join(answer.split(" ")[:2]) for answer in answers})
    all_met("difference", DIFFERENCES, met)
    check_kept(script)


def recorded():
    script, outcomes = text_of(CALLS), text_of(OUTCOMES)
    check(script, outcomes)
    return script, outcomes
