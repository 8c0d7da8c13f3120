"""`python3 -m compare.departures`: where the Rust departs from libtorrent 2.0.8, docs/differences/libtorrent/NAME.calls. The oracle and
the reference must both give NAME.outcome, byte for byte. A file of the list that is missing, or one that is not on it, fails."""
import os
import subprocess
import sys

from compare.run import ORACLE, TOP

FOLDER = os.path.join(TOP, "docs", "differences", "libtorrent")
NAMES = ("cursors", "enough-set-aside", "parole-order", "passed-is-had", "second-lap", "time-critical")
PROGRAMS = (("the oracle", [ORACLE]), ("the reference", [sys.executable, "-m", "reference.run"]))


def wrong_files():
    """The files that are missing and those that are on no list."""
    due = {name + end for name in NAMES for end in (".calls", ".outcome")}
    found = set(os.listdir(FOLDER)) if os.path.isdir(FOLDER) else set()
    return [f"{file} is missing" for file in sorted(due - found)] + [f"{file} is not on the list" for file in sorted(found - due)]


def kept(name, end):
    with open(os.path.join(FOLDER, name + end), "rb") as f:
        return f.read()


def wrong_outcomes(name):
    """The programs that do not give the kept outcome, each with what it gives."""
    wrong = []
    for program, command in PROGRAMS:
        try:
            run = subprocess.run(command, input=kept(name, ".calls"), capture_output=True, cwd=TOP)
        except OSError as why:
            wrong.append(f"{name}: {program} does not start: {why}")
            continue
        if run.returncode != 0 or run.stdout != kept(name, ".outcome"):
            shown = (run.stdout + run.stderr).decode("ascii", "replace")[:2000]
            wrong.append(f"{name}: {program} ends with status {run.returncode} and gives\n{shown}")
    return wrong


def main():
    wrong = wrong_files() or [line for name in NAMES for line in wrong_outcomes(name)]
    for line in wrong:
        print(f"departures: {line}", file=sys.stderr)
    if wrong:
        return 1
    print(f"{len(NAMES)} departures from libtorrent 2.0.8, as kept")
    return 0


if __name__ == "__main__":
    sys.exit(main())
