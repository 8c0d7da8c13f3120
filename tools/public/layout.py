"""Files in the layout of `rt fmt`, what stands in them for the prover alone, and `use` lines."""

import pathlib
import re
import subprocess
import tempfile

LIMIT = 140
OPEN, CLOSE = '([{', ')]}'
OPERATORS = '→∷⊛∙×∵≡'
ITEM = re.compile(r'(?:pub )?(?:extern "C" )?(?:fn|enum|struct) (\w+)')


def formatted(texts):
    """Files, by path, as `rt fmt` has them: it is run on crates of nothing else."""
    with tempfile.TemporaryDirectory() as root:
        top = pathlib.Path(root)
        for name, text in texts.items():
            (top / name).parent.mkdir(parents=True, exist_ok=True)
            (top / name).write_text(text)
        for crate in sorted({pathlib.PurePath(name).parts[1] for name in texts}):
            subprocess.run(['rt', 'fmt'], cwd=top / 'crates' / crate, check=True, stdout=subprocess.DEVNULL)
        return {name: (top / name).read_text() for name in texts}


def blocks(lines):
    """The attributes above each item of a source, by the item's name: where they begin, and their lines."""
    found, begin, is_open = {}, None, False
    for k, line in enumerate(lines):
        if is_open or line.startswith('#['):
            begin = k if begin is None else begin
            is_open = not line.endswith(']')
            continue
        head = ITEM.match(line)
        if head:
            found[head[1]] = (k if begin is None else begin, [] if begin is None else lines[begin:k])
        begin = None
    return found


def for_proof(line):
    """Whether a line begins an attribute that says how a function is proved."""
    return line.startswith('#[tactic')


def others(block):
    """The attributes of a block that change what a function is to a caller."""
    return [x for x in block if x.startswith('#[') and not for_proof(x)]


def with_items(lines, standing):
    """The attributes of each item as they stand, where none is another to a caller."""
    have = blocks(standing)
    for name, (at, block) in sorted(blocks(lines).items(), key=lambda x: -x[1][0]):
        mine = have.get(name, (0, []))[1]
        if any(map(for_proof, mine)) and others(mine) == others(block):
            lines[at:at + len(block)] = mine
    return lines


def for_prover(line):
    """Whether a line names tactics of the crate, or a lemma."""
    return line.startswith('#![tactic') or bool(re.match(r'ghost use Rattle\.\w+\.proofs\.', line))


def with_lines(lines, standing):
    """The lines for the prover where they stand: behind the same line."""
    for k, line in enumerate(standing):
        if for_prover(line) and line not in lines and k and standing[k - 1] in lines:
            at = lines.index(standing[k - 1]) + 1
            more = [''] if k + 1 < len(standing) and not standing[k + 1] and at < len(lines) and lines[at] else []
            lines[at:at] = [line] + more
    return lines


def kept(text, standing):
    """A source with what stands in it for the prover alone: the tactics of crate and functions, and the lemmas that tactics name. None of it
    changes what a function does or promises."""
    now = standing.split('\n')
    return '\n'.join(with_items(with_lines(text.split('\n'), now), now))


def as_they_stand(root, texts):
    """Files by path, laid out, sources with what stands in them for the prover."""
    def text_of(path, text):
        return kept(text, path.read_text()) if path.suffix == '.rt' and path.exists() else text
    return {root / name: text_of(root / name, text) for name, text in formatted(texts).items()}


def uses(modules, start='use ', end=''):
    """A line for each module with its names, several where they are long; a module without names is named whole."""
    lines = []
    for module, names in modules.items():
        names = sorted(set(names), key=names.index)
        if not names:
            lines.append(f'{start}{module}{end}')
        while names:
            k = len(names)
            while len(f'{start}{module}.{{{", ".join(names[:k])}}}{end}') > LIMIT:
                k -= 1
            lines.append(f'{start}{module}.{{{", ".join(names[:k])}}}{end}')
            names = names[k:]
    return '\n'.join(lines) + '\n'


def depth_at(line):
    """How many brackets are open before each character."""
    depths, depth = [], 0
    for ch in line:
        depth -= ch in CLOSE
        depths.append(depth)
        depth += ch in OPEN
    return depths


def break_at(line, start):
    """The space to break at: the one inside the fewest brackets, after a `$`, else before an operator, the last of equals. A line is at
    least half full, and `where` starts none."""
    depths = depth_at(line)

    def cost(i):
        kind = 0 if line[i - 2:i] == ' $' else 1 if line[i + 1] in OPERATORS else 2
        return depths[i], kind, -i
    places = [i for i in range(max(start, LIMIT // 2), LIMIT + 1) if line[i] == ' ' and not line[i + 1:].startswith('where')]
    return min(places, key=cost)


def broken(line):
    """A long line as several; those that follow stand four columns further right."""
    indent = len(line) - len(line.lstrip())
    out = []
    while len(line) > LIMIT:
        i = break_at(line, indent + 8)
        out.append(line[:i].rstrip())
        line = ' ' * (indent + 4) + line[i:].strip()
    return out + [line]


def wrapped(text, indent):
    """A text in lines of at most 140 characters, broken where the fewest brackets are open."""
    return '\n'.join(broken(' ' * indent + ' '.join(text.split())))
