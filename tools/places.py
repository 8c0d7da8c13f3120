#!/usr/bin/env python3
"""Counts the places in crates/*/src that today's language has a better form for, a line for each kind of place (docs/DESIGN-PASS.md).

    tools/places.py [--at COMMIT]           the counts, of the tree as it stands or of a commit
    tools/places.py [--at COMMIT] KIND      each place of one kind

It reads text: a place is found by its shape, and what the shape can't tell is judged by a reader."""

import collections
import pathlib
import re
import subprocess
import sys

ROOT = pathlib.Path(__file__).resolve().parent.parent
WORD = re.compile(r'[A-Za-z_]\w*|\d+|\S')
KEYWORDS = set('if else while for in let mut match return fn pub as struct enum impl use mod const loop break continue true false'.split())


def sources(commit):
    """Path and text of every source file."""
    if not commit:
        return {str(p.relative_to(ROOT)): p.read_text() for p in sorted(ROOT.glob('crates/*/src/*.rt'))}
    said = subprocess.run(['git', 'ls-tree', '-r', '--name-only', commit, 'crates'], cwd=ROOT, text=True, capture_output=True, check=True)
    paths = [p for p in said.stdout.split() if re.fullmatch(r'crates/\w+/src/\w+\.rt', p)]
    return {p: subprocess.run(['git', 'show', f'{commit}:{p}'], cwd=ROOT, text=True, capture_output=True, check=True).stdout for p in paths}


def bare(text):
    """Without comments."""
    return re.sub(r'//[^\n]*', '', text)


def functions(text):
    """Name, parameters, clauses and body of each function."""
    text = bare(text)
    for m in re.finditer(r'^( *)(?:pub )?(?:const )?(?:extern "C" )?fn (\w+)', text, re.M):
        end = re.compile(rf'^{m.group(1)}\}}$', re.M).search(text, m.end())
        whole = text[m.end():end.end() if end else len(text)]
        opened = re.search(rf'^{m.group(1)}\{{$', whole, re.M)
        head, body = (whole[:opened.start()], whole[opened.start():]) if opened else (whole, '')
        yield m.group(2), head, body


def parameters(head):
    """The names of the parameters."""
    return re.findall(r'[(,]\s*(?:mut )?(\w+): ', head.split('requires')[0].split('ensures')[0].split('->')[0])


def enums(text):
    """Name and variants of each enum."""
    for m in re.finditer(r'^pub enum (\w+) \{\n(.*?)^\}', bare(text), re.M | re.S):
        yield m.group(1), [v.strip().rstrip(',') for v in m.group(2).split('\n') if v.strip()]


def option_like(variants):
    """One case with a value and one without, or a case that refuses or is at fault beside others."""
    bad = [v for v in variants if v.split('(')[0] in ('Refused', 'Fault', 'Short', 'IllFormed', 'DataShort', 'TooShort')]
    return 0 < len(bad) < len(variants) or (len(variants) == 2 and sum('(' in v for v in variants) == 1)


def shape(body):
    """The body with its names numbered in the order of their first use."""
    seen = {}
    return ' '.join(w if w in KEYWORDS or not (w[0].isalnum() or w[0] == '_') else ('0' if w.isdigit() else f'n{seen.setdefault(w, len(seen))}')
                    for w in WORD.findall(body))


def clauses(head):
    """The `requires` of a contract."""
    return [' '.join(c.split()) for c in re.findall(r'requires (?:\w+ )?\{(.*?)\}\n', head + '\n', re.S)]


def find(kind, files):
    """The places of one kind."""
    places = []
    if kind in ('twins', 'facts'):
        groups = collections.defaultdict(list)
        for path, text in files.items():
            for name, head, body in functions(text):
                if kind == 'twins' and len(WORD.findall(body)) >= 30:
                    groups[shape(body)].append(f'{path} {name}')
                if kind == 'facts':
                    for clause in clauses(head):
                        groups[clause].append(f'{path} {name}')
        for key, members in groups.items():
            if len(members) >= (2 if kind == 'twins' else 3):
                places += [f'{m}  ({len(members)} alike{"" if kind == "twins" else ": " + key[:90]})' for m in members]
        return places
    for path, text in files.items():
        code = bare(text)
        if kind == 'own':
            places += [f'{path} {name}' for name, variants in enums(text) if option_like(variants)]
        if kind == 'flagged':
            places += [f'{path} {m}' for m in re.findall(r'\b(has_\w+: bool|ok: bool|found: bool)', code)]
        if kind == 'numbers':
            places += [f'{path} {m.group(0)}' for m in re.finditer(r'\b(?:state|number|kind|q)\b (?:==|!=|<|<=) \d+\b|\bstate: \d\b|\bkind: u\w+|\(\w+, 0, [1-7]\)|_of\(bytes, \w+, [1-7]\)', code)]
        if kind == 'while':
            places += [f'{path} {m.strip()}' for m in re.findall(r'^ *while [^\n]*', code, re.M)]
        if kind == 'byhand':
            places += [f'{path} {name}' for name, _, _ in functions(text)
                       if re.fullmatch(r'\w+_to_\w+|number|from_number|code|verdict_number', name)]
            places += [f'{path} {m.group(0).split()[0]} copied field by field' for m in re.finditer(r'\b(\w+) \{\s*(?:(\w+): \w+\.\2,\s*){3,}', code)]
        for name, head, body in functions(text):
            given = parameters(head)
            if kind == 'together' and sum(p in given for p in ('words', 'cells', 'rows', 'live', 'counts', 's')) >= 3:
                places.append(f'{path} {name}')
            if kind == 'columns' and re.search(r'\b(rows|counts): &(mut )?\[u\d+\]', head):
                places.append(f'{path} {name}')
        if kind == 'switch':
            places += [f'{path} {name}' for name, variants in enums(text) if name in ('Which', 'Need')]
            places += [f'{path} {m}' for m in re.findall(r'match (?:which|need|kind) \{', code)]
    return places


KINDS = {
    'own': '1  own enums of the shape of Option or Result',
    'flagged': '1  a flag with a value beside it',
    'numbers': '1  numbers for kinds',
    'twins': '2  functions whose bodies differ in names and numbers alone',
    'while': '3  loops that count by hand',
    'byhand': '4  conversions and copies by hand',
    'facts': '5  a requires that stands in three functions or more',
    'together': '5  three or more of words, cells, rows, live, counts and s as parameters',
    'columns': '6  records or counts as columns of numbers',
    'switch': '7  a switch on which step to run',
}


def main(args):
    """Counts, or lists."""
    commit = None
    if args[:1] == ['--at']:
        commit, args = args[1], args[2:]
    files = sources(commit)
    if args:
        print('\n'.join(find(args[0], files)))
        return 0
    for kind, text in KINDS.items():
        print(f'{len(find(kind, files)):5}  {kind:9} {text}')
    return 0


if __name__ == '__main__':
    sys.exit(main(sys.argv[1:]))
