"""`python3 -m compare.everything`: writes crates/model/proofs/cases/Everything.antt, which opens every shut definition (`unfoldable pub`) of
crates/model/specs at once. With `--check` it writes nothing and fails where the file is not what the definitions give.

A name that an earlier module has already is imported as NAME·MODULE."""
import argparse
import glob
import os
import re
import sys

from compare.run import TOP

SPECS = os.path.join(TOP, "crates", "model", "specs")
FILE = os.path.join(TOP, "crates", "model", "proofs", "cases", "Everything.antt")
MODULES = "Rattle.model.specs"
WIDTH = 140
HEAD = """\
-- All definitions of the model opened at once, for cases that the checker computes: a case says `unfolding everything` and `refl`.
-- Written by compare/everything.py: not to be edited.
"""


def text_of(path):
    with open(path, encoding="utf-8") as f:
        return f.read()


def listed(folder, prefix=()):
    """The modules that a folder's list names, in its order, each as its path from the top; a module may have modules below it."""
    found = []
    for name in re.findall(r"^(?:pub )?mod (\S+)$", text_of(folder), re.M):
        found.append(prefix + (name,))
        below = os.path.join(SPECS, *prefix, name + ".antt")
        found += listed(below, prefix + (name,)) if os.path.exists(below) else []
    return found


def modules():
    """Every module of specs: those listed in their order, then any other file, by path."""
    paths = glob.glob(os.path.join(SPECS, "**", "*.antt"), recursive=True)
    there = [tuple(os.path.relpath(path, SPECS)[: -len(".antt")].split(os.sep)) for path in sorted(paths)]
    first = [m for m in listed(os.path.join(SPECS, "Lib.antt")) if m in there]
    return first + [m for m in there if m not in first and m[-1] != "Lib"]


def names_in(module):
    """The shut definitions of a module, one to a line."""
    text = text_of(os.path.join(SPECS, *module) + ".antt")
    names = re.findall(r"^ *unfoldable pub (\S+) :", text, re.M)
    if len(names) != len(re.findall(r"^ *unfoldable pub ", text, re.M)):
        sys.exit(f"everything: {'/'.join(module)}: a definition that is not `unfoldable pub NAME : ..`")
    return names


def taken_as(name, module, before):
    return f"{name}·{module[-1]}" if name in before else name


def import_lines(module, imports):
    """Lines that import from a module, none too wide."""
    front, lines = f"use {'.'.join((MODULES,) + module)}.{{", []
    for word in imports:
        if lines and len(lines[-1]) + len(word) + 3 <= WIDTH:
            lines[-1] += f", {word}"
        else:
            lines.append(front + word)
    return [line + "}" for line in lines]


def everything():
    """The text of the file."""
    lines, before = [], []
    for module in modules():
        names = names_in(module)
        known = [taken_as(name, module, before) for name in names]
        lines += import_lines(module, [name if name == here else f"{name} as {here}" for name, here in zip(names, known)])
        before += known
    if len(set(before)) != len(before):
        sys.exit(f"everything: names that clash: {sorted({n for n in before if before.count(n) > 1})}")
    opening = f"\nunfoldable pub everything : Unit {{0}}\nunfolding {' '.join(before)}\neverything = tt\n"
    return HEAD + "\n".join(lines) + "\n" + opening, len(before)


def main():
    ap = argparse.ArgumentParser()
    ap.add_argument("--check", action="store_true")
    check = ap.parse_args().check
    text, many = everything()
    if check and text_of(FILE) != text:
        print("everything: crates/model/proofs/cases/Everything.antt is stale; run python3 -m compare.everything", file=sys.stderr)
        return 1
    if not check:
        with open(FILE, "w", encoding="utf-8") as f:
            f.write(text)
    print(f"{many} definitions opened in crates/model/proofs/cases/Everything.antt")
    return 0


if __name__ == "__main__":
    sys.exit(main())
