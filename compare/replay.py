"""`python3 -m compare.replay`: the reference led through recorded/calls.txt must give recorded/outcomes.txt. Status 1 where it does not,
2 where the recorded files are not as they have to be."""
import sys

from compare.recorded import Lacking, recorded
from reference.run import outcomes
from reference.script import calls_of


def first_other(script, text):
    """The first line in which the reference's outcome of a script is another than the Rust's text, or None."""
    calls = calls_of(script)
    found = list(outcomes(calls)) + [f"end {len(calls)}", ""]
    due = [line for line in text.split("\n") if not line.startswith("difference ")]
    for k, (a, b) in enumerate(zip(found, due)):
        if a != b:
            return f"outcome line {k + 1}: {a[:200]} where the Rust gave {b[:200]}"
    return None if len(found) == len(due) else "outcomes are missing"


def main():
    try:
        script, text = recorded()
    except Lacking as why:
        print(f"replay: {why}", file=sys.stderr)
        return 2
    other = first_other(script, text)
    if other:
        print(f"replay: {other}", file=sys.stderr)
        return 1
    print(f"{script.count(chr(10)) - 1} recorded calls answered as the Rust did")
    return 0


if __name__ == "__main__":
    sys.exit(main())
