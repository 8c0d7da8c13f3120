"""`python3 -m reference.run`: leads the reference through a script on standard input and prints the outcomes."""
import sys

from .calls import step
from .image import image
from .script import Malformed, calls_of


def outcomes(calls):
    """The answer line and the image line of each call."""
    state, last = None, None
    for call in calls:
        before = state
        answer, state, _ = step(state, call)
        yield answer
        if state is before:
            yield "image same"
            continue
        now = None if state is None else image(state)
        yield "image same" if now == last else "image none" if now is None else f"image {now.hex()}"
        last = now


def run(script, out, err):
    """The outcomes of a script, or a message; answers the exit status."""
    try:
        # a character for each byte: the reader names the line of one that is not ASCII
        calls = calls_of(script.decode("latin-1"))
    except Malformed as why:
        print(f"reference: {why}", file=err)
        return 2
    for line in outcomes(calls):
        print(line, file=out)
    print(f"end {len(calls)}", file=out)
    return 0


if __name__ == "__main__":
    sys.exit(run(sys.stdin.buffer.read(), sys.stdout, sys.stderr))
