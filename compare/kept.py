"""Scripts kept by hand, docs/differences/*.calls and oracle/tests/*.calls: their calls, and the form in which they are recorded.

A script with the line `# recorded from here` makes long images call by call up to there. It is recorded as a `read` of the image that
these calls lead to, and what follows; `whole` has all of it."""
import glob
import os

from compare.run import TOP
from reference.calls import step
from reference.image import image
from reference.script import call_of

MARK = "# recorded from here"


def paths():
    """The differences first, then the oracle's own, each by name."""
    return [path for folder in ("docs/differences", "oracle/tests") for path in sorted(glob.glob(os.path.join(TOP, folder, "*.calls")))]


def lines_of(path):
    with open(path, encoding="ascii") as f:
        return f.read().split("\n")


def calls_in(lines):
    return [line for line in lines if line and line != "end" and not line.startswith("#")]


def whole(path):
    """All calls of a script, on memory of zeros."""
    return ["zero"] + calls_in(lines_of(path))


def is_cut(path):
    return MARK in lines_of(path)


def led_to(calls):
    """The image that calls on memory of zeros lead to."""
    state = None
    for line in calls:
        state = step(state, call_of(line)).state
    return image(state)


def recorded_form(path):
    if not is_cut(path):
        return whole(path)
    lines = lines_of(path)
    at = lines.index(MARK)
    return ["zero", f"read {led_to(calls_in(lines[:at])).hex()}"] + calls_in(lines[at:])
