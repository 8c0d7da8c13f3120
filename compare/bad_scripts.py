"""`python3 -m compare.bad_scripts PROGRAM WORDS..`: the one list of bad scripts, tried on a program that reads scripts. Each has to end
it with status 2, nothing on standard output and a short message that names the line. Oracle and reference are tried with the same."""
import os
import subprocess
import sys
from typing import NamedTuple

TOP = os.path.dirname(os.path.dirname(os.path.abspath(__file__)))
BAD_LINES = os.path.join(TOP, "oracle", "tests", "bad_lines.txt")
LONGEST_MESSAGE = 250
LEAST = 157

# what a line of the file cannot say: bytes, line ends, and words of any length; a script and the line to be named
BAD_SCRIPTS = {
    "nothing": (b"", 1),
    "no end": (b"new 5 5\n", 2),
    "no end and no line end": (b"new 5 5", 1),
    "a call after the end": (b"end\nnum_pieces\n", 2),
    "a second end": (b"end\n\n# more\nend\n", 4),
    "the first of two bad lines": (b"\n# \nfrobnicate\nnew \xff\nend\n", 3),
    "a byte that is not ASCII": (b"new 5 5\nnum_pieces\xff\nend\n", 2),
    "a letter that is not ASCII": (b"num_pi\xc3\xa9ces\nend\n", 1),
    "a digit that is not ASCII": ("new 5 ٣\nend\n".encode(), 1),
    "a remark that is not ASCII": (b"new 5 5\n# \xc3\xa4\nend\n", 2),
    "something not ASCII after the end": (b"end\n\n\x80\n", 3),
    "a mark of the byte order": (b"\xef\xbb\xbfnew 5 5\nend\n", 1),
    "line ends of two bytes": (b"new 5 5\r\nend\r\n", 1),
    "a call's line end of two bytes": (b"new 5 5\nnum_pieces\r\nend\n", 2),
    "an end's line end of two bytes": (b"new 5 5\nend\r\n", 2),
    "a carriage return as line end": (b"new 5 5\rend\r", 1),
    "a tab as separator": (b"new\t5\t5\nend\n", 1),
    "a tab at the end": (b"new 5 5\t\nend\n", 1),
    "a tab alone": (b"new 5 5\n\t\nend\n", 2),
    "a form feed alone": (b"\x0c\nend\n", 1),
    "a zero byte": (b"new 5 5\0\nend\n", 1),
    "a remark that does not start the line": (b"new 5 5 # a picker\nend\n", 1),
    "a number of 10,000 digits": (b"new 5 " + b"9" * 10_000 + b"\nend\n", 1),
    "a number below 0 of 10,000 digits": (b"new -" + b"9" * 10_000 + b" 5\nend\n", 1),
    "10,000 zeros in front": (b"new 5 " + b"0" * 10_000 + b"5\nend\n", 1),
    "a length of 10,000 digits": (b"num_pieces words=" + b"1" * 10_000 + b"\nend\n", 1),
    "lent words of 10,000 digits": (b"inc_refcount 0 draws=" + b"1" * 10_000 + b"\nend\n", 1),
    "a word of 10,000 digits": (b"inc_refcount 0 draws=4352:" + b"1" * 10_000 + b"\nend\n", 1),
    "a seed of 10,000 digits": (b"inc_refcount 0 draws=4352~" + b"1" * 10_000 + b"\nend\n", 1),
    "a peer of 10,000 digits": (b"abort_download 0 0 " + b"1" * 10_000 + b"\nend\n", 1),
    "options of 10,000 digits": (b"mark_as_downloading 0 0 - " + b"1" * 10_000 + b"\nend\n", 1),
    "a suggestion of 10,000 digits": (b"pick_pieces 0 1 0 0 - 1 80 1," + b"1" * 10_000 + b"\nend\n", 1),
    "a call of 10,000 letters": (b"n" * 10_000 + b"\nend\n", 1),
    "an option of 10,000 letters": (b"num_pieces " + b"m" * 10_000 + b"=1\nend\n", 1),
    "10,001 digits in hexadecimal": (b"read " + b"0" * 10_001 + b"\nend\n", 1),
    "10,000 spaces": (b" " * 10_000 + b"\nend\n", 1),
}


class Ended(NamedTuple):
    """How a program ended."""

    status: int
    out: str
    message: str


def bad_scripts():
    """Every bad script: its name, its bytes, the line to be named."""
    with open(BAD_LINES, encoding="ascii", newline="\n") as f:
        lines = f.read().split("\n")[:-1]
    for line in lines:
        yield repr(line), f"new 16384 16384\n{line}\nend\n".encode(), 2
    for name, (script, line) in BAD_SCRIPTS.items():
        yield name, script, line


def fault(ended, line):
    """What is wrong with how a bad script ended, or None."""
    message = ended.message
    if ended.status != 2:
        return f"status {ended.status}, {message[-LONGEST_MESSAGE:]!r}"
    if ended.out:
        return "something on standard output"
    if f" line {line}:" not in message:
        return f"no `line {line}:` in {message[:LONGEST_MESSAGE]!r}"
    short = message.count("\n") == 1 and len(message) <= LONGEST_MESSAGE
    return None if short else f"no short message but {len(message)} characters in {message.count(chr(10))} lines"


def program(words):
    """A program, as what tells how it ends on a script."""

    def ended(script):
        run = subprocess.run(words, input=script, capture_output=True, cwd=TOP)
        return Ended(run.returncode, run.stdout.decode(errors="replace"), run.stderr.decode(errors="replace"))

    return ended


def tried(ended, scripts):
    """A line for each bad script that ended otherwise than it has to."""
    for name, script, line in scripts:
        found = fault(ended(script), line)
        if found:
            yield f"bad script, {name}: {found}"


def main():
    scripts = list(bad_scripts())
    wrong = list(tried(program(sys.argv[1:]), scripts))
    for line in wrong:
        print(f"bad_scripts: {line}", file=sys.stderr)
    if len(scripts) < LEAST:
        print(f"bad_scripts: {len(scripts)} scripts, fewer than {LEAST}", file=sys.stderr)
    return 1 if wrong or len(scripts) < LEAST else 0


if __name__ == "__main__":
    sys.exit(main())
