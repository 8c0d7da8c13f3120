#!/usr/bin/env python3
"""Makes static libraries of proved crates over the libraries that `rt ci` built: build/staticlib/libNAME.a, of the crate NAME, or of NAME_c
where NAME is a library that NAME_c exports.

    tools/archive.py --proved    after `rt ci` passed: notes in build/proved which sources it proved, and what it built of them
    tools/archive.py --sum       prints the sum of the sources as they are
    tools/archive.py NAME..      makes the libraries

Each crate named is proved again as it is compiled. Those below it are not, where `rt ci` proved these very sources in this checkout
(build/proved) and what it built stands as it left it in crates/*/out/rlib. Else `rt lib` proves them first, which takes only what
`rt check` and `rt lib` kept.
A static library that is there, of the same sources, is not made again."""

import glob
import hashlib
import os
import shutil
import subprocess
import sys
import threading
from concurrent.futures import ThreadPoolExecutor

TOP = os.path.dirname(os.path.dirname(os.path.abspath(__file__)))
KIT = os.path.dirname(os.path.dirname(os.path.realpath(shutil.which('rt') or 'rt')))

# the processors that the libraries are for: a static library does not look for one, so it is built for all of x86-64
CPU = 'x86-64'
NOTED, MADE = os.path.join(TOP, 'build', 'proved'), os.path.join(TOP, 'build', 'staticlib')
AT_ONCE = 2
ONE = threading.Lock()


def sources():
    """The sum of the toolchain's version, of every source and of this tool."""
    out = hashlib.sha256(subprocess.run(['rt', 'version'], stdout=subprocess.PIPE, check=True).stdout)
    paths = [os.path.join(TOP, 'crates.txt'), os.path.abspath(__file__)]
    for crate in sorted(os.listdir(os.path.join(TOP, 'crates'))):
        for part in ('src', 'specs', 'proofs'):
            paths += [os.path.join(at, name) for at, _, names in os.walk(os.path.join(TOP, 'crates', crate, part)) for name in names]
    for path in sorted(paths):
        with open(path, 'rb') as f:
            out.update(os.path.relpath(path, TOP).encode() + b'\0' + hashlib.sha256(f.read()).digest())
    return out.hexdigest()


def libraries():
    """The sum of what is built in crates/*/out/rlib: each library's own description, and when it was written."""
    out = hashlib.sha256()
    for path in sorted(glob.glob(os.path.join(TOP, 'crates', '*', 'out', 'rlib', '*.rlib', 'format'))):
        with open(path, 'rb') as f:
            out.update(f'{os.path.relpath(path, TOP)} {os.stat(path).st_mtime_ns}\0'.encode() + f.read())
    return out.hexdigest()


def text_of(path):
    """The text of a small file, or nothing where it is not there."""
    if not os.path.isfile(path):
        return None
    with open(path, encoding='ascii') as f:
        return f.read().strip()


def crates():
    """The crates by name, as the kit's own command has them, which knows how rattle is called for each."""
    sys.dont_write_bytecode = True
    sys.path.insert(0, os.path.join(KIT, 'bin'))
    import rtlib
    return {it.name: it for it in rtlib.crates_below(TOP)}


def ran(words, crate):
    """Runs a command in the crate's folder; its status, and what it said."""
    it = subprocess.run(words, cwd=crate.folder, stdin=subprocess.DEVNULL, stdout=subprocess.PIPE, stderr=subprocess.STDOUT, text=True,
                        errors='replace')
    return it.returncode, it.stdout


def compiled(crate, to):
    """Proves and compiles one crate over the libraries below it, which stand; the status, and what was said."""
    missing = [it.name for it in crate.below() if not os.path.isdir(it.rlib)]
    if missing:
        return 1, f'{crate.name}: no library of {", ".join(missing)}\n'
    with open(os.devnull, 'w') as crate.out:
        words = crate.words(['--jobs', '1'], keeps=False)
    status, said = ran([os.path.join(KIT, 'bin', 'rattle'), 'build', *words, '--cpu', CPU, '--toolchain', f'{KIT}/toolchain',
                        '--backend', 'llvm', '-o', to], crate)
    proved = any(line.startswith('logic=proved ') for line in said.split('\n'))
    return (1 if status or not proved or not os.path.isfile(to) else 0), said


def below_proved(crate):
    """Has `rt lib` prove the crate and those below it that it has not proved."""
    return ran(['rt', 'lib'], crate)


def archive(name, crate, now):
    """Makes the archive of this name; the status, and what was said. `now` is the sum of the sources."""
    to, of = os.path.join(MADE, f'lib{name}.a'), os.path.join(MADE, f'{name}.made-of')
    if os.path.isfile(to) and text_of(of) == now:
        return 0, ''
    os.makedirs(MADE, exist_ok=True)
    for path in (to, of):
        if os.path.exists(path):
            os.remove(path)
    status, said = compiled(crate, to) if text_of(NOTED) == f'{now} {libraries()}' else (1, '')
    if status:
        with ONE:
            status, said = below_proved(crate)
            if not status:
                status, said = compiled(crate, to)
    if not status:
        with open(of, 'w', encoding='ascii') as f:
            f.write(now)
    return status, said


def main(names):
    if not names:
        print(__doc__, file=sys.stderr)
        return 2
    if names == ['--sum']:
        print(sources())
        return 0
    if names == ['--proved']:
        os.makedirs(os.path.dirname(NOTED), exist_ok=True)
        with open(NOTED, 'w', encoding='ascii') as f:
            f.write(f'{sources()} {libraries()}\n')
        return 0
    static = {name: crate for name, crate in crates().items() if crate.is_static}
    exporting = {name: static.get(f'{name}_c') or static.get(name) for name in names}
    unknown = [name for name in names if exporting[name] is None]
    if unknown:
        print(f'archive: crates.txt has no static library {unknown[0]}', file=sys.stderr)
        return 2
    now = sources()
    with ThreadPoolExecutor(AT_ONCE) as pool:
        made = list(pool.map(lambda name: archive(name, exporting[name], now), names))
    for name, (status, said) in zip(names, made):
        if status:
            print(said[-4000:] + f'archive: no static library of {name}', file=sys.stderr)
    return 1 if any(status for status, _ in made) else 0


if __name__ == '__main__':
    sys.exit(main(sys.argv[1:]))
