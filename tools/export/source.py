"""The public calls as their sources have them: parameters, answer and contract."""

import re
from collections import namedtuple

Call = namedtuple('Call', 'name remark params answer contract uses crate')
FUNCTION = re.compile(
    r'((?://[^\n]*\n)*)(?:#\[.*?\]\n)*pub fn (\w+)\(([^)]*)\) -> ([^\n]+)\n    ensures(?: \w+)? \{ ((?:(?!\n\{).)*?) \}\n\{', re.S)
USE = re.compile(r'^ghost use (\S+?)\.\{([^}]*)\};', re.M)


def ghost_uses(text):
    """The module that each name of the contracts comes from; one under another name with that."""
    return {name.split(' as ')[-1].strip(): (module, name.strip()) for module, names in USE.findall(text) for name in names.split(',')}


def calls(root, crate, module):
    """The public calls with lent records of one source."""
    text = (root / f'crates/{crate}/src/{module}.rt').read_text()
    uses = ghost_uses(text)
    out = []
    for remark, name, params, answer, contract in FUNCTION.findall(text):
        pairs = [tuple(p.strip().split(': ', 1)) for p in params.split(',') if p.strip()]
        if any('[DownloadingPiece]' in t for _, t in pairs):
            out.append(Call(name, remark, pairs, answer, ' '.join(contract.split()), uses, crate))
    return out


def token(name):
    """A pattern for a name that stands by itself."""
    return rf"(?<![\w\-.«·]){re.escape(name)}(?![\w\-»·'])"


def words_of(text):
    """The names that stand in a clause."""
    return set(re.findall(r'[^\s()\[\]{},.;]+', text))
