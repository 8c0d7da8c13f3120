"""Scripts of calls as docs/CALLS.md has them: a line taken apart, with a message for one that is malformed."""
import re

from .calls import DRAWING, ENOUGH, Call, Seeded, Zeros
from .geometry import Memory
from .questions import LISTS, LISTS_OF_PIECE, OF_BLOCK, OF_PIECE, OF_PLACE, WHOLE
from .state import MIN_DRAWS

NUMBER, PEER, OPTIONS, HEX, LIST = range(5)
DEFAULT_FREE = 4351
QUOTED = 80
LONGEST_NUMBER = len(str(-(2**63)))


class Malformed(Exception):
    pass


def quoted(word):
    """A word for a message, cut where it is long."""
    return repr(word[:QUOTED])


def number(word, lowest=-(2**63), highest=2**63 - 1):
    """A number in its one way of writing: no zero in front, and no sign but a `-` below 0."""
    if len(word) > LONGEST_NUMBER or not re.fullmatch(r"0|-?[1-9][0-9]*", word) or not lowest <= int(word) <= highest:
        raise Malformed(f"not a number from {lowest} to {highest}: {quoted(word)}")
    return int(word)


def hexadecimal(word):
    if not re.fullmatch(r"-|([0-9a-fA-F]{2})+", word):
        raise Malformed(f"not bytes in hexadecimal: {quoted(word)}")
    return b"" if word == "-" else bytes.fromhex(word)


PARSE = {
    NUMBER: number,
    PEER: lambda word: None if word == "-" else number(word, 0, 2**64 - 1),
    OPTIONS: lambda word: number(word, 0, 65535),
    HEX: hexadecimal,
    LIST: lambda word: () if word == "-" else tuple(number(w) for w in word.split(",")),
}

SHAPES = {
    "zero": (),
    "new": (NUMBER, NUMBER),
    "read": (HEX,),
    "image": (),
    "inc_refcount": (NUMBER,),
    "dec_refcount": (NUMBER,),
    "inc_refcount_all": (),
    "dec_refcount_all": (),
    "set_piece_priority": (NUMBER, NUMBER),
    "mark_as_downloading": (NUMBER, NUMBER, PEER, OPTIONS),
    "mark_as_writing": (NUMBER, NUMBER, PEER),
    "mark_as_finished": (NUMBER, NUMBER, PEER),
    "mark_as_canceled": (NUMBER, NUMBER, PEER),
    "abort_download": (NUMBER, NUMBER, PEER),
    "lock_piece": (NUMBER,),
    "piece_passed": (NUMBER,),
    "pick_pieces": (OPTIONS, NUMBER, NUMBER, NUMBER, PEER, NUMBER, HEX, LIST),
}
for table, shape in (
    (WHOLE, ()),
    (LISTS, ()),
    (OF_PIECE, (NUMBER,)),
    (LISTS_OF_PIECE, (NUMBER,)),
    (OF_BLOCK, (NUMBER, NUMBER)),
    (OF_PLACE, (NUMBER,)),
):
    SHAPES.update({name: shape for name in table})

WITH_DRAWS = set(DRAWING) | {"pick_pieces"}
WITH_ROOM = set(LISTS) | set(LISTS_OF_PIECE) | {"image"}


def lent_words(text):
    count, mark, seed = text.partition("~")
    if mark:
        return Seeded(number(count, 0), number(seed, 0, 2**64 - 1))
    count, mark, listed = text.partition(":")
    many = number(count, 0)
    words = tuple(number(w, 0, 2**32 - 1) for w in listed.split(",")) if mark else ()
    if len(words) > many:
        raise Malformed("more words listed than lent")
    return Zeros(many, words)


def allowed(name):
    return set(Memory._fields) | ({"draws"} if name in WITH_DRAWS else set()) | ({"room"} if name in WITH_ROOM else set()) | (
        {"free"} if name == "pick_pieces" else set()
    )


def options_of(name, words):
    out = {}
    for word in words:
        key, mark, value = word.partition("=")
        if not mark or key not in allowed(name) or key in out:
            raise Malformed(f"no option of {name} here: {quoted(word)}")
        out[key] = lent_words(value) if key == "draws" else number(value, 0)
    return out


def call_of(line):
    name, *words = line.split(" ")
    if name not in SHAPES:
        raise Malformed(f"no such call: {quoted(name)}")
    shape = SHAPES[name]
    if len(words) < len(shape):
        raise Malformed(f"{name} takes {len(shape)} arguments")
    args = tuple(PARSE[kind](word) for kind, word in zip(shape, words))
    opts = options_of(name, words[len(shape) :])
    return Call(
        name,
        args,
        Memory(*(opts.get(buffer, ENOUGH) for buffer in Memory._fields)),
        opts.get("draws", Zeros(MIN_DRAWS, ())),
        opts.get("room", ENOUGH),
        opts.get("free", DEFAULT_FREE),
    )


def calls_of(text):
    """The calls of a whole script; Malformed names the line."""
    calls, ended = [], False
    for k, line in enumerate(text.split("\n"), 1):
        if not line.isascii():
            raise Malformed(f"line {k}: not ASCII")
        if line == "" or line.startswith("#"):
            continue
        if ended:
            raise Malformed(f"line {k}: something after the end")
        if line == "end":
            ended = True
            continue
        try:
            calls.append(call_of(line))
        except Malformed as why:
            raise Malformed(f"line {k}: {why}")
    if not ended:
        raise Malformed(f"line {text.count(chr(10)) + 1}: the script has no `end`")
    return calls
