"""The library under the definitions, given natively: numbers are Python's, truth values True and False, lists any Python sequence that
is never changed. Each entry has the meaning of the library's own text: subtraction stops at 0, n / 0 is 0, n % 0 is n, `get_or` past the
end is the default, `set` past the end changes nothing, `slice f t` is `drop f (take t l)`. A name that is imported and not here is an
error."""
from typing import NamedTuple

TYPE = "type"  # a type or a proposition: nothing to run


class Native(NamedTuple):
    name: str
    arity: int
    text: str  # Python, with a place for each argument


class Lazy(NamedTuple):
    """Evaluates what it needs: `cond` one arm, `◌&&◌` and `◌||◌` the second argument only where the first does not decide."""

    name: str
    arity: int


class Constructor:
    """A constructor of a data type. `native` says how it is represented; `others` is how many its type has."""

    def __init__(self, name, arity, native=None, params=()):
        self.name, self.arity, self.native, self.params = name, arity, native, params
        self.owner = None
        self.others = 2


def pair(first, second):
    return {first.name: first, second.name: second}


NAT = {
    "ℕ": TYPE,
    "◌≤◌": TYPE,
    "◌<◌": TYPE,
    **pair(Constructor("zero", 0, "zero"), Constructor("suc", 1, "suc")),
    "◌+◌": Native("◌+◌", 2, "({} + {})"),
    "◌-◌": Native("◌-◌", 2, "n_sub({}, {})"),
    "◌*◌": Native("◌*◌", 2, "({} * {})"),
    "◌/◌": Native("◌/◌", 2, "n_div({}, {})"),
    "◌%◌": Native("◌%◌", 2, "n_mod({}, {})"),
    "◌^◌": Native("◌^◌", 2, "({} ** {})"),
    "min": Native("min", 2, "min({}, {})"),
    "max": Native("max", 2, "max({}, {})"),
}

BOOL = {
    "Bool": TYPE,
    **pair(Constructor("true", 0, "true"), Constructor("false", 0, "false")),
    "cond": Lazy("cond", 3),
    "◌&&◌": Lazy("and", 2),
    "◌||◌": Lazy("or", 2),
    "not": Native("not", 1, "(not {})"),
}

LIST = {
    "List": TYPE,
    **pair(Constructor("[]", 0, "nil"), Constructor("◌∷◌", 2, "cons")),
    "◌++◌": Native("◌++◌", 2, "[*{}, *{}]"),
}

LIST_N = {
    "length": Native("length", 1, "len({})"),
    "get_or": Native("get_or", 3, "n_get({}, {}, {})"),
    "set": Native("set", 3, "n_set({}, {}, {})"),
    "take": Native("take", 2, "n_take({}, {})"),
    "drop": Native("drop", 2, "n_drop({}, {})"),
    "replicate": Native("replicate", 2, "n_replicate({}, {})"),
}

DEC = {
    "eqb": Native("eqb", 2, "({} == {})"),
    "ltb": Native("ltb", 2, "({} < {})"),
    "leb": Native("leb", 2, "({} <= {})"),
}

BITS = {"bit_and": Native("bit_and", 2, "({} & {})"), "bit_or": Native("bit_or", 2, "({} | {})")}

# the language's Option, which contracts of code name; the definition's own is the library's mathematical one
CODE_OPTION = {"Option": TYPE, **pair(Constructor("None", 0), Constructor("Some", 1))}

LIBRARY = {
    "Rattle.std.specs.Prelude": {**NAT, **BOOL, **LIST, **LIST_N, **DEC, **BITS, **CODE_OPTION, "◌≡◌": TYPE},
    "Rattle.std.specs.Int.Bits": BITS,
    "Rattle.std.proofs.Math.Option": {"Option": TYPE, **pair(Constructor("none", 0), Constructor("some", 1))},
    "Rattle.std.proofs.Math.ListN": {**LIST_N, "get_elem?": Native("get_elem?", 2, "n_elem({}, {})")},
    "Rattle.std.proofs.Math.Seq": {"slice": Native("slice", 3, "n_slice({}, {}, {})")},
}

SIDES = {"infixl": ["+ - 65", "* / % 70", "++ 65", "&& 35", "|| 30"], "infixr": ["^ 75", "∷ 67"]}
FIXITY = {name: (int(row.split()[-1]), side) for side, rows in SIDES.items() for row in rows for name in row.split()[:-1]}

OPTION = LIBRARY["Rattle.std.proofs.Math.Option"]
NONE, SOME = ("none",), OPTION["some"].name
OPTION["none"].value = NONE


def some(value):
    return (SOME, value)


def n_sub(a, b):
    return a - b if a > b else 0


def n_div(a, b):
    return a // b if b else 0


def n_mod(a, b):
    return a % b if b else a


def n_get(l, i, d):
    return l[i] if i < len(l) else d


def n_set(l, i, x):
    if i >= len(l):
        return l
    out = list(l)
    out[i] = x
    return out


def n_take(n, l):
    return l[:n]


def n_drop(n, l):
    return l[n:]


def n_slice(f, t, l):
    return l[:t][f:]


def n_replicate(n, x):
    return [x] * n


def n_elem(l, i):
    return (SOME, l[i]) if i < len(l) else NONE


class Stuck(Exception):
    """No clause fits: the text is not a definition of antt, which has a clause for every case."""


def stuck(where):
    raise Stuck(f"no clause fits in {where}")


NATIVES = {f.__name__: f for f in (n_sub, n_div, n_mod, n_get, n_set, n_take, n_drop, n_slice, n_replicate, n_elem, stuck)}
