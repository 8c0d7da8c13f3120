"""Which public calls are exported, and how arguments and answers are written as numbers."""

from collections import namedtuple

# A crate of exports: what it is of, and its files, each with the crate and the source of the public calls in it
CRATES = {
    'export_changes': ('The changes', {
        'counts': ('picker_changes', 'counts', 'A peer counted in or out.'),
        'seeds': ('picker_seeds', 'seeds', 'A whole-copy peer counted in or out.'),
        'flags': ('picker_flags', 'flags', 'A piece locked or passed.'),
        'priorities': ('picker_flags', 'priorities', 'A priority set.'),
        'requests': ('picker_requests', 'requests', 'A block marked as downloading.'),
        'receipts': ('picker_marks', 'receipts', 'A block marked as writing.'),
        'finishes': ('picker_marks', 'finishes', 'A block marked as finished.'),
        'returns': ('picker_giving', 'returns', 'A block given back.'),
    }),
    'export_questions': ('The questions of the picker', {
        'head': ('picker_questions', 'head', 'What the head and the geometry tell.'),
        'copies': ('picker_questions', 'copies', 'Distributed copies.'),
        'places': ('picker_questions', 'places', 'What stands at a place.'),
    }),
    'export_totals': ('The totals over the pieces', {
        'progress': ('picker_totals', 'progress', 'How far the download is.'),
        'totals': ('picker_totals', 'totals', 'Counts of pieces and of pad bytes.'),
    }),
    'export_pieces': ('The questions of a piece and of its partial', {
        'fields': ('picker_piece_questions', 'fields', 'The fields of a piece.'),
        'lengths': ('picker_piece_questions', 'lengths', 'Lengths of a piece.'),
        'stats': ('picker_piece_questions', 'stats', 'Availability and bucket of a piece.'),
        'flags': ('picker_partial_questions', 'flags', 'The flags of a partial.'),
        'info': ('picker_partial_questions', 'info', 'The blocks of a partial by state.'),
    }),
    'export_blocks': ('The questions of a block, and those that fill a lent list', {
        'peers': ('picker_block_questions', 'peers', 'The peer of a block.'),
        'states': ('picker_block_questions', 'states', 'The state of a block.'),
        'blocks': ('picker_lists', 'blocks', 'The blocks of a piece.'),
        'columns': ('picker_lists', 'columns', 'A number for each piece.'),
        'queue': ('picker_lists', 'queue', 'The partials.'),
    }),
    'export_picker': ('A picker made, its image taken and read, and a pick', {
        'making': ('picker_images', 'making', 'A new picker.'),
        'taking': ('picker_images', 'taking', 'The image of a picker.'),
        'reading': ('picker_images', 'reading', 'A picker read from an image.'),
        'picking': ('picker_pick', 'lib', 'A pick.'),
    }),
}

# How an answer is written: the function, the struct, the module of the definition that it equals and its name, and what the struct says
Answer = namedtuple('Answer', 'function struct home coded reads')


def reply(name):
    """An answer of one number at most."""
    return Answer('of_' + name, 'Answered', 'Replies', 'of_' + name, name + '_in')


def several(name, struct, home):
    """An answer of several numbers."""
    return Answer('of_' + name, struct, home, 'of_' + name, name + '_in')


# by the answer's type
ANSWERS = {
    'Result<u64, Refusal>': reply('number'),
    'Result<bool, Refusal>': reply('flag'),
    'Result<Placed, Refusal>': reply('place'),
    'Result<Option<bool>, Refusal>': reply('partial_flag'),
    'Result<Option<u16>, Refusal>': reply('block_number'),
    'Result<PeerOf, Refusal>': reply('peer'),
    'Result<Option<usize>, Refusal>': reply('list'),
    'Result<(), Refusal>': reply('making'),
    'Result<usize, Refusal>': reply('image'),
    'Result<Outcome, Refusal>': several('outcome', 'Changed', 'Changes'),
    'Result<DistributedCopies, Refusal>': several('copies', 'Copied', 'Records'),
    'Result<PieceCount, Refusal>': several('count', 'Counted', 'Records'),
    'Result<QueueSizes, Refusal>': several('sizes', 'Sized', 'Records'),
    'Result<PieceStats, Refusal>': several('stats', 'Stats', 'Records'),
    'Result<PieceInfo, Refusal>': several('info', 'Info', 'Records'),
    'Result<Picked, Refusal>': several('pick', 'PickAnswered', 'Picks'),
}

# How an argument is made of numbers: its type in C, the function, and the definition that it equals
Argument = namedtuple('Argument', 'type function conv')

ARGUMENTS = {
    'PieceIndex': Argument('i32', 'piece', 'piece_of'),
    'i32': Argument('i32', 'place', ''),
    'PieceBlock': Argument('BlockPlace', 'block_of', 'block_of'),
    'BlockPeer': Argument('NamedBlock', 'named', 'named_block'),
    'BlockRequest': Argument('RequestedBlock', 'requested', 'requested_block'),
    'PiecePriority': Argument('PriorityOf', 'priority_of', 'priority_of'),
    'PickInput': Argument('PickAsked', 'asked', 'pick_asked'),
}
