"""Names of the definitions in whatever spelling their text has them: `wellFormed`, `well-formed` and `well_formed` are one name."""
import functools
import os
import re

TOP = os.path.dirname(os.path.dirname(os.path.abspath(__file__)))
DECLARED = re.compile(r"( *)(?:(?:pub|unfoldable|abbrev) )*([^\s:=(){}][^:=(){}]*?)(?: \{[^}]*\})* :(?: |$)")
TYPE = re.compile(r"( *)(?:(?:pub|unfoldable|abbrev) )*(data|record) (\S+)")


def plain(name):
    """A name without what tells its spelling."""
    return re.sub(r"[-_]", "", name).lower()


def called(names, *wanted):
    """The one of some names that is one of those wanted, the first that there is; None where there is none. A type, whose name begins with
    a capital, is no other thing."""
    by_plain = {(plain(name), name[:1].isupper()): name for name in names}
    return next((by_plain[plain(w), w[:1].isupper()] for w in wanted if (plain(w), w[:1].isupper()) in by_plain), None)


@functools.cache
def declared(module):
    """What a module of definitions declares: constructors, and all else, by kind."""
    crate, *below = module.split(".")[1:]
    with open(os.path.join(TOP, "crates", crate, *below) + ".antt", encoding="utf-8") as f:
        text = re.sub(r"\{-.*?-\}|--[^\n]*", "", f.read(), flags=re.S)
    constructors, others, data = [], [], None
    for line in text.split("\n"):
        indent = len(line) - len(line.lstrip(" "))
        if data is not None and line.strip() and indent <= data:
            data = None
        head = TYPE.match(line)
        if head:
            others.append(head[3])
            data = len(head[1]) if head[2] == "data" else None
        else:
            found = DECLARED.match(line)
            (others if data is None else constructors).extend(found[2].split() if found else [])
    return constructors, others


def spelled(module, name):
    """A name as its module has it. A constructor that is a call's may have `do` before it, one that is a question's `ask`, or ? behind it."""
    if ".declared." in module:
        return name
    constructors, others = declared(module)
    found = called(constructors, name, name + "?", "do_" + name, "ask_" + name) or called(others, name)
    if found is None:
        raise ValueError(f"{module} has no {name}")
    return found
