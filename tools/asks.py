#!/usr/bin/env python3
"""Writes the exports of all questions, which comparison and timing call (`ask_links`). Proofs are not its own, nor what a source says to
the prover alone (public/layout, `kept`).

    tools/asks.py            writes them
    tools/asks.py --check    says which differ from what would be written, and fails where one does

The prover checks what is written here: nothing of this tool is trusted."""

import pathlib
import sys

ROOT = pathlib.Path(__file__).resolve().parent.parent
sys.path.insert(0, str(ROOT))

import ask_links
from public.layout import as_they_stand


def main(args):
    """Writes or checks."""
    made = as_they_stand(ROOT, ask_links.files(ROOT))
    if args == ['--check']:
        stale = [p for p, t in made.items() if not p.exists() or p.read_text() != t]
        for p in stale:
            print(f'stale: {p.relative_to(ROOT)}, write it by tools/asks.py', file=sys.stderr)
        return 1 if stale else 0
    if args:
        print(__doc__, file=sys.stderr)
        return 2
    for p, t in made.items():
        p.write_text(t)
    return 0


if __name__ == '__main__':
    sys.exit(main(sys.argv[1:]))
