"""`python3 -m examples.check [FILE]`: the reference led through the calls of examples/c/expected.txt answers as that file says. Status 1
where it does not, 2 where a line is no call of a script with its answer."""
import os
import sys

from reference.run import outcomes
from reference.script import Malformed, calls_of

EXPECTED = os.path.join(os.path.dirname(os.path.abspath(__file__)), "c", "expected.txt")
MARK = " -> "


def told(text):
    """The calls and the answers of what an example printed."""
    lines = [line.partition(MARK) for line in text.split("\n")[:-1] if not line.startswith("#")]
    bad = [call for call, mark, _ in lines if not mark]
    if bad or not lines:
        raise Malformed(f"no answer on the line {bad[0][:80]!r}" if bad else "no call at all")
    return [call for call, _, _ in lines], [answer for _, _, answer in lines]


def first_other(calls, answers):
    """The first call that the reference answers otherwise, or None."""
    script = "\n".join(calls + ["end", ""])
    found = list(outcomes(calls_of(script)))[::2]
    for call, due, answer in zip(calls, answers, found):
        if due != answer:
            return f"{call[:200]}: the example printed {due[:200]}, the reference answers {answer[:200]}"
    return None


def main():
    try:
        with open(sys.argv[1] if len(sys.argv) > 1 else EXPECTED, encoding="ascii") as f:
            calls, answers = told(f.read())
        other = first_other(calls, answers)
    except (OSError, UnicodeDecodeError, Malformed) as why:
        print(f"check: {why}", file=sys.stderr)
        return 2
    if other:
        print(f"check: {other}", file=sys.stderr)
        return 1
    print(f"{len(calls)} calls of the example answered as the reference does")
    return 0


if __name__ == "__main__":
    sys.exit(main())
