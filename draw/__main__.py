"""`python3 -m draw < INPUT > PICTURE.svg`: draws a saved image; where a pick record follows it, also what that pick chooses.

The input is an image alone, or what the pick program reads. `--bits HEX` is the peer's bitfield (else it has every piece), `--suggest
PIECES` and `--draws WORDS` are numbers with commas between them (else none, and every draw 0). Bad input: status 2 and a line that
says why."""
import argparse
import sys

from draw.choosing import choose
from draw.picture import draw
from reference.blocks import Ask
from reference.calls import MAX_RUN, MAX_WANTED, MORE_OUTPUT, Call, Refused, Zeros, bits_of, check_pick
from reference.image import Fault, read, read_with_pick
from reference.state import MIN_DRAWS


class Bad(Exception):
    """Input that cannot be drawn."""


def numbers(words):
    try:
        return tuple(int(word) for word in words.split(",")) if words else ()
    except ValueError:
        raise Bad(f"not numbers with commas between them: {words[:80]}") from None


def input_of(data):
    """The picker and the pick record behind it, or None; the place of the first fault is that of the longer reading."""
    try:
        return read(data), None
    except Fault as alone:
        try:
            return read_with_pick(data)
        except Fault as fault:
            raise Bad(f"no image: the record at byte {max(alone.place, fault.place)} is at fault") from None


def bytes_of(words, n):
    if words is None:
        return bytes([255] * ((n + 7) // 8))
    try:
        return bytes.fromhex(words)
    except ValueError:
        raise Bad(f"no bitfield in hexadecimal digits: {words[:80]}") from None


def asked(s, record, options):
    """What the pick is asked, judged as the call is."""
    n = len(s.pieces)
    data, suggestions = bytes_of(options.bits, n), numbers(options.suggest)
    call = Call("pick_pieces", (), 0, Zeros(MIN_DRAWS, ()), 0, MAX_WANTED + MAX_RUN + MORE_OUTPUT)
    try:
        check_pick(s, call, *record, n, data, suggestions)
    except Refused as no:
        raise Bad(f"the pick is refused with {no.number}") from None
    return Ask(*record, bits_of(data, n), suggestions)


def picture(data, options):
    s, record = input_of(data)
    if record is None:
        return draw(s)
    ask = asked(s, record, options)
    words = tuple(word % 2**32 for word in numbers(options.draws))
    return draw(s, ask, choose(s, ask, Zeros(max(MIN_DRAWS, len(words)), words)))


def main():
    ap = argparse.ArgumentParser(prog="draw", description="Draws a saved image, and a pick on it, as SVG.")
    ap.add_argument("--bits", help="the peer's bitfield, in hexadecimal digits")
    ap.add_argument("--suggest", default="", help="suggested pieces, with commas between them")
    ap.add_argument("--draws", default="", help="the first draws, with commas between them")
    options = ap.parse_args()
    try:
        sys.stdout.write(picture(sys.stdin.buffer.read(), options))
    except Bad as why:
        print(f"draw: {why}", file=sys.stderr)
        return 2
    return 0


if __name__ == "__main__":
    sys.exit(main())
