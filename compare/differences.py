"""`python3 -m compare.differences`: the smallest input of each difference, docs/differences/NAME.calls. The oracle must meet that
difference, and then answer as the reference does. The scripts are those of SCRIPTS, no fewer and no others. Status 1 where a difference
is not met or the answers part, 2 where a script is missing, malformed or on no list."""
import glob
import os
import sys

from compare.kept import calls_in, lines_of
from compare.lists import Limits, follow
from compare.run import DIFFERENCES, TOP, Figures, Mismatch, compare
from reference.script import Malformed

FOLDER = os.path.join(TOP, "docs", "differences")
# each script, and the difference that it meets
SCRIPTS = {
    "reverse-full": "reverse-full",
    "ring-walk": "ring-walk",
    "totals": "totals",
    "totals-canceled": "totals",
    "totals-given-back": "totals",
    "zero-run": "zero-run",
}


class Amiss(Exception):
    """The scripts are not those of the list."""


def check_list():
    if set(SCRIPTS.values()) != set(DIFFERENCES):
        raise Amiss("the list of scripts does not have every difference")
    there = {os.path.basename(path) for path in glob.glob(os.path.join(FOLDER, "*")) if os.path.isfile(path)}
    due = {f"{name}.calls" for name in SCRIPTS}
    if due - there:
        raise Amiss("missing: " + ", ".join(sorted(due - there)))
    if there - due:
        raise Amiss("on no list: " + ", ".join(sorted(there - due)))


def judge(name, difference):
    """The script run by both; the oracle meets the difference in it."""
    figures = Figures()
    try:
        compare(follow(["zero"] + calls_in(lines_of(os.path.join(FOLDER, f"{name}.calls")))), figures)
    except (Malformed, UnicodeDecodeError) as why:
        raise Amiss(f"{name}: {why}")
    except (Mismatch, Limits) as why:
        raise Mismatch(f"{name}: {why}")
    if not figures["difference " + difference]:
        raise Mismatch(f"{name}: the oracle does not meet it")


def main():
    try:
        check_list()
        for name, difference in SCRIPTS.items():
            judge(name, difference)
    except (Amiss, Mismatch, OSError) as why:
        print(f"differences: {why}", file=sys.stderr)
        return 2 if isinstance(why, Amiss) else 1
    print(f"{len(SCRIPTS)} differences met by their smallest inputs")
    return 0


if __name__ == "__main__":
    sys.exit(main())
