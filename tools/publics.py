#!/usr/bin/env python3
"""Writes the public questions that answer a value: sources, and definitions of their answers, which differ in names alone. What a question
asks of its caller and what its answer is are read from the question below (`ask_..`). Of those that fill a lent list it writes what is
alike. Proofs are not its own, nor what a source says to the prover alone (public/layout, `kept`).

    tools/publics.py            writes them
    tools/publics.py --check    says which differ from what would be written, and fails where one does

The prover checks what is written here: nothing of this tool is trusted."""

import pathlib
import sys

ROOT = pathlib.Path(__file__).resolve().parent.parent
sys.path.insert(0, str(ROOT))

from public.layout import as_they_stand
from public.lists import list_files
from public.questions import crate_files
from public.table import CRATES


def files():
    """Every file with its text."""
    made = list_files()
    for crate in CRATES:
        made |= crate_files(ROOT, crate)
    return as_they_stand(ROOT, made)


def main(args):
    """Writes or checks."""
    if args == ['--check']:
        stale = [p for p, t in files().items() if not p.exists() or p.read_text() != t]
        for p in stale:
            print(f'stale: {p.relative_to(ROOT)}, write it by tools/publics.py', file=sys.stderr)
        return 1 if stale else 0
    if args:
        print(__doc__, file=sys.stderr)
        return 2
    for p, t in files().items():
        p.parent.mkdir(parents=True, exist_ok=True)
        p.write_text(t)
    return 0


if __name__ == '__main__':
    sys.exit(main(sys.argv[1:]))
