#!/usr/bin/env python3
"""Writes the exports: a function for C of each public call, with its contract, which is the public call's. Proofs are not its own, nor what
a source says to the prover alone (public/layout, `kept`).

    tools/exports.py            writes them
    tools/exports.py --check    says which differ from what would be written, and fails where one does

The prover checks what is written here: nothing of this tool is trusted."""

import pathlib
import sys

ROOT = pathlib.Path(__file__).resolve().parent.parent
sys.path.insert(0, str(ROOT))

from export.files import files


def main(args):
    """Writes or checks."""
    if args not in ([], ['--check']):
        print(__doc__, file=sys.stderr)
        return 2
    status = 0
    for path, text in files(ROOT).items():
        if args and (not path.exists() or path.read_text() != text):
            print(f'stale: {path.relative_to(ROOT)}, write it by tools/exports.py', file=sys.stderr)
            status = 1
        if not args:
            path.parent.mkdir(parents=True, exist_ok=True)
            path.write_text(text)
    return status


if __name__ == '__main__':
    sys.exit(main(sys.argv[1:]))
