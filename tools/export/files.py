"""The sources of the exports."""

import re

from compare.spelling import spelled
from export.source import calls, token, words_of
from export.table import ANSWERS, ARGUMENTS, CRATES
from public.layout import as_they_stand, uses, wrapped

WRITTEN = 'Written by tools/exports.py, and not by hand.'
CONVERSIONS, BACK, SAYING = 'Rattle.export_arguments.specs.Arguments', 'Rattle.export_answers.specs.Back', 'Rattle.export_walks.specs.Saying'


class Export:
    """One public call as an export."""

    def __init__(self, call):
        self.call = call
        self.name = 'pp_' + call.name
        self.plain = [(n, t) for n, t in call.params if not t.startswith('&')]
        self.makes = len(self.plain) == 1
        self.argument = ARGUMENTS[self.plain[0][1]] if self.makes else None
        self.answer = ANSWERS[call.answer]
        self.home = f'Rattle.export_answers.specs.{self.answer.home}'
        self.coded, self.reads = spelled(self.home, self.answer.coded), spelled(BACK, self.answer.reads)
        self.conv = spelled(CONVERSIONS, self.argument.conv) if self.makes and self.argument.conv else None

    def contract(self):
        """The public call's contract, of the numbers that are given, and of the answer that the struct says."""
        text = re.sub(token('result'), 'o', self.call.contract)
        if self.conv:
            text = re.sub(token(self.plain[0][0]), f'({self.conv} {self.plain[0][0]})', text)
        return f'{spelled(SAYING, "Says")} {self.coded} {self.reads} (λ o. {text}) result'

    def source(self):
        """The function."""
        params = [(n, t if t.startswith('&') or not self.makes else self.argument.type) for n, t in self.call.params]
        made = {self.plain[0][0]: f'export_arguments::{self.argument.function}({self.plain[0][0]})'} if self.makes else {}
        given = ', '.join(made.get(n, n) for n, _ in self.call.params)
        ensured = wrapped(f'ensures {{ {self.contract()} }}', 4)
        return f'{self.call.remark}#[unsafe(no_mangle)]\npub extern "C" fn {self.name}({", ".join(f"{n}: {t}" for n, t in params)}) ' \
            f'-> {self.answer.struct}\n{ensured}\n{{\n    {self.answer.function}({self.call.name}({given}))\n}}\n'

    def ghost_names(self):
        """The names of the contract, by module."""
        found = {}
        for word in sorted(words_of(self.contract())):
            for name in (word, f'◌{word}◌'):
                if name in self.call.uses:
                    module, full = self.call.uses[name]
                    found.setdefault(module, []).append(full)
        return found


def source_file(remark, exports):
    """A source with its exports."""
    named = {'memory_records::DownloadingPiece'}
    ghosts, reads, coded, convs = {}, [], {}, []
    for e in exports:
        named |= {f'export_answers::{e.answer.struct}', f'export_answers::{e.answer.function}', f'{e.call.crate}::{e.call.name}'}
        if e.makes and e.argument.type != 'i32':
            named.add(f'export_arguments::{e.argument.type}')
        for module, names in e.ghost_names().items():
            ghosts.setdefault(module, []).extend(n for n in names if n not in ghosts.get(module, []))
        reads.append(e.reads)
        coded.setdefault(e.home, []).append(e.coded)
        convs += [e.conv] if e.conv else []
    if convs:
        ghosts[CONVERSIONS] = sorted(set(convs))
    ghosts |= {home: sorted(set(names)) for home, names in sorted(coded.items())}
    ghosts[BACK] = sorted(set(reads))
    ghosts[SAYING] = [spelled(SAYING, 'Says')]
    lines = ''.join(f'use {n};\n' for n in sorted(named))
    return f'// {remark}\n// {WRITTEN}\n{lines}{uses(ghosts, "ghost use ", ";")}\n' + '\n'.join(e.source() for e in exports)


def files(root):
    """Every file with its text."""
    made = {}
    for crate, (what, sources) in CRATES.items():
        for module, (home, below, remark) in sources.items():
            made[f'crates/{crate}/src/{module}.rt'] = source_file(remark, [Export(c) for c in calls(root, home, below)])
        hand = sorted(p.stem for p in (root / f'crates/{crate}/src').glob('*.rt') if p.stem not in sources and p.stem != 'lib')
        mods = ''.join(f'mod {m};\n' for m in sorted(list(sources) + hand))
        made[f'crates/{crate}/src/lib.rt'] = f'// {what}, for C: each passes on to the public call.\n// {WRITTEN}\n{mods}'
    return as_they_stand(root, made)
