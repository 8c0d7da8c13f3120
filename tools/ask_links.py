"""The exports of the questions, written from the questions themselves: an export takes the geometry in numbers, asks what its question
asks and answers what that answers. An enum or an option becomes a kind and a number, which a definition reads back."""

import re

from compare.spelling import spelled

# link crate: its modules, each of a source file of a crate and the questions there
LINKS = {
    'link_questions': {
        'head': ('ask_picker', 'lib', 'num_pieces blocks_per_piece block_size total_size full_piece_size num_seeds cursor reverse_cursor'
                 ' dirty get_download_queue_size'),
        'totals': ('ask_totals', 'totals', 'num_pad_bytes num_have num_filtered num_have_filtered want have_want have all_pieces'),
        'progress': ('ask_progress', 'lib', 'is_finished is_seeding num_want_left get_download_queue_sizes'),
        'copies': ('ask_columns', 'copies', 'distributed_copies'),
        'columns': ('ask_columns', 'lists', 'get_availability_vec piece_priorities'),
        'queue': ('ask_queue', 'lib', 'get_download_queue'),
    },
    'link_piece_questions': {
        'fields': ('ask_piece', 'fields', 'pad_bytes_in_piece peer_count piece_priority download_state is_piece_flushed is_downloading'),
        'lengths': ('ask_piece', 'lengths', 'piece_size blocks_in_piece payload_blocks_in_piece'),
        'stats': ('ask_piece', 'stats', 'get_availability piece_stats'),
        'flags': ('ask_partial', 'flags', 'passed_hash_check locked hashing is_hashing have_piece'),
        'info': ('ask_partial', 'info', 'piece_info is_piece_finished'),
        'states': ('ask_block', 'states', 'num_peers_block is_requested is_downloaded is_finished_block block_state block_num_peers'),
        'peers': ('ask_block', 'peers', 'get_downloader block_peer'),
        'records': ('ask_records', 'blocks', 'blocks_for_piece'),
        'downloaders': ('ask_records', 'peers', 'get_downloaders'),
        'places': ('ask_places', 'lib', 'partial_at recent_extent list_place'),
    },
}

# answer that becomes a kind and a number: the definition that reads them back
ENUMS = {
    'Placed': 'placed_told',
    'Option<bool>': 'flag_told',
    'Option<u16>': 'number_told',
    'PeerOf': 'peer_told',
    'Option<usize>': 'records_told',
}

SOURCE = """// Questions of `{below}` for callers in C and Rust, each with what it asks and answers.
// Written by tools/asks.py, and not by hand.
{uses}
{functions}"""

SHAPE = """    let s = Shape::from(g);
"""

FUNCTION = """
#[unsafe(no_mangle)]
{signature}
{clauses}{{
{shape}    {call}
}}
"""

def shaped(link):
    """The definition of the shape that a geometry in numbers has."""
    return spelled(f'Rattle.{link}.specs.Lending', 'shaped')


def told_back(link, enum):
    """The definition that reads a kind and a number back as an answer."""
    return spelled(f'Rattle.{link}.specs.Answers', ENUMS[enum])


class Export:
    """One question of a source, as a caller in C asks it."""

    def __init__(self, text, link, crate, name):
        pattern = r'(?ms)^pub fn {}\((.*?)\)(?: -> ([\w<>]+))?\n(.*?)^\{{\n'.format(name)
        parameters, self.answer, self.clauses = re.search(pattern, text).groups()
        self.name, self.enum = name, self.answer if self.answer in ENUMS else None
        self.parameters = [p.strip() for p in parameters.replace('\n', ' ').split(',') if p.strip()]
        self.call = f'{crate}::{name}({", ".join(p.split(":")[0] for p in self.parameters)})'
        self.shape = 's: Shape' in self.parameters
        if self.shape:
            self.parameters[self.parameters.index('s: Shape')] = 'g: Geometry'
            self.clauses = re.sub(r'(?<![^ (])s(?=\.\w)', 'g', self.clauses)
            self.clauses = re.sub(r'(?<![^ (])s(?=[ )])', f'({shaped(link)} g)', self.clauses)
        if self.enum:
            self.answer, self.call = 'Told', f'Told::from({self.call})'
            self.clauses = re.sub(r'(?<=[ (])result(?=[ )\n])', f'({told_back(link, self.enum)} result)', self.clauses)
        elif not self.answer:
            self.call += ';'

    def signature(self):
        arrow = f' -> {self.answer}' if self.answer else ''
        return f'pub extern "C" fn aq_{self.name}({", ".join(self.parameters)}){arrow}'

    def text(self):
        return FUNCTION.format(signature=self.signature(), clauses=self.clauses, shape=SHAPE if self.shape else '', call=self.call)


def uses(text, link, crate, exports):
    """What a module of exports names: types, functions, and the definitions that its clauses cite, from where its source has them."""
    types = {f'use {w};' for e in exports if e.shape for w in ('link_lists::Geometry', 'memory_layout::Shape')}
    types |= {'use crate::answers::Told;' for e in exports if e.enum}
    types |= {f'use {crate}::{e.answer};' for e in exports if e.answer and e.answer[0].isupper() and not e.enum}
    words = set(re.findall(r'[^\s(){}.,;]+', ''.join(e.clauses for e in exports)))
    ghosts = []
    for module, names in re.findall(r'(?m)^ghost use (.+)\.\{(.*)\};$', text):
        cited = [n for n in names.split(', ') if n in words or n.startswith('◌') and n.strip('◌') in words]
        if cited:
            ghosts.append((module, cited))
    told = [told_back(link, e) for e in ENUMS if e in {x.enum for x in exports}]
    ghosts += [(f'Rattle.{link}.specs.Lending', [shaped(link)])] if any(e.shape and shaped(link) in e.clauses for e in exports) else []
    ghosts += [(f'Rattle.{link}.specs.Answers', told)] if told else []
    return '\n'.join(sorted(types) + [f'ghost use {m}.{{{", ".join(ns)}}};' for m, ns in ghosts]) + '\n'


def files(root):
    """Every file with its text."""
    made = {}
    for link, modules in LINKS.items():
        for module, (crate, source, names) in modules.items():
            text = (root / f'crates/{crate}/src/{source}.rt').read_text()
            exports = [Export(text, link, crate, name) for name in names.split()]
            made[f'crates/{link}/src/{module}.rt'] = SOURCE.format(
                below=crate, uses=uses(text, link, crate, exports), functions=''.join(e.text() for e in exports).lstrip('\n')
            )
    return made
