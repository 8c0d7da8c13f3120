"""Which questions stand in which public crate, and what kinds of question and of answer there are."""

from collections import namedtuple

# a public crate: the comment at its head, and its modules, each of a source file of a crate of questions
Crate = namedtuple('Crate', 'name comment modules')
Module = namedtuple('Module', 'name comment crate source questions')

# a kind of question: the parameter that names what is asked of; the statements that make numbers of it; the function that admits the
# question; what this takes beside the memory; the definition's constructor, if it has one, and its question, of its name and the numbers
Kind = namedtuple('Kind', 'parameter type lets admit arguments of question')

PICKER = Kind('', '', [], 'admit_picker', [], 'of_picker', '{of} {q}')
PIECE = Kind('piece', 'PieceIndex', ['let i = piece.number();'], 'admit_piece', ['i'], 'of_piece', '{of} {q} ({i})')
BLOCK = Kind('block', 'PieceBlock', ['let i = block.piece_index.number();', 'let j = i32_to_usize(block.block_index);'], 'admit_block',
             ['i', 'j'], 'of_block', '{of} {q} ({i}) ({j})')
ANY_PLACE = Kind('place', 'i32', ['let k = i32_to_usize(place);'], 'admit_picker', [], None, '{q} ({k})')
LIST_PLACE = ANY_PLACE._replace(admit='admit_place', arguments=['k'])

# what a number of the definition is of a parameter
NUMBERS = {
    'PIECE': {'i': '{number_of} piece.0'},
    'BLOCK': {'i': '{number_of} block.piece_index.0', 'j': '{number_of} block.block_index'},
    'PLACE': {'k': '{number_of} place'},
}

# an answer by the definition that makes a reply of it: the definition of the whole answer, its comment, and where this stands if not in the
# crate of its questions
Answer = namedtuple('Answer', 'told comment home')
ANSWERS = {
    'one': Answer('number_answer', '', 'picker_answers'),
    'flag': Answer('flag_answer', '', 'picker_answers'),
    'count_reply': Answer('count_answer', 'pieces, their pad bytes, and whether the last piece is among them', None),
    'copies_reply': Answer('copies_answer', 'the least copies of a piece, and how many pieces have more', None),
    'sizes_reply': Answer('sizes_answer', 'how many partials each queue has', None),
    'placed_reply': Answer('place_answer', 'what stands at a place: a number, nothing, or the list is stale', None),
    'stats_reply': Answer('stats_answer', 'how many have a piece, and its bucket', None),
    'info_reply': Answer('info_answer', 'a partial: how many of its blocks are in each state, and its flags', None),
    'flag_reply': Answer('partial_flag_answer', 'a flag of a partial, or nothing where none stands', None),
    'number_reply': Answer('block_number_answer', 'a number of a block, or nothing where no partial stands', None),
    'peer_reply': Answer('peer_answer', 'a peer or none, or nothing where no partial stands', None),
}

# what the definitions call a type of the language
LOGIC = {'u64': 'ℕ', 'u16': 'ℕ', 'usize': 'ℕ', 'bool': 'Bool'}

CRATES = [
    Crate('picker_questions',
          'The public questions of the picker that its head and its columns answer, and of what stands at a place.',
          [
              Module('head', 'What the head and the geometry tell.', 'ask_picker', 'lib',
                     'num_pieces blocks_per_piece block_size total_size full_piece_size num_seeds cursor reverse_cursor dirty'
                     ' get_download_queue_size'),
              Module('copies', 'How many copies of the torrent there are.', 'ask_columns', 'copies', 'distributed_copies'),
              Module('places', 'What stands at a place: a partial by rising piece, a recent extent, a piece of the list.', 'ask_places',
                     'lib', 'partial_at recent_extent list_place'),
          ]),
    Crate('picker_totals',
          'The public questions of the picker that count its pieces and its partials.',
          [
              Module('totals', 'Pieces that pass a test, and their pad bytes.', 'ask_totals', 'totals',
                     'num_pad_bytes num_have num_filtered num_have_filtered want have_want have all_pieces'),
              Module('progress', 'How far the picker is.', 'ask_progress', 'lib',
                     'is_finished is_seeding num_want_left get_download_queue_sizes'),
          ]),
    Crate('picker_piece_questions',
          'The public questions of a piece that its own fields and the geometry answer.',
          [
              Module('fields', 'The fields of a piece.', 'ask_piece', 'fields',
                     'pad_bytes_in_piece peer_count piece_priority download_state is_piece_flushed is_downloading'),
              Module('lengths', 'How long a piece is, in bytes and in blocks.', 'ask_piece', 'lengths',
                     'piece_size blocks_in_piece payload_blocks_in_piece'),
              Module('stats', 'How many have a piece, and its bucket.', 'ask_piece', 'stats', 'get_availability piece_stats'),
          ]),
    Crate('picker_partial_questions',
          'The public questions of a piece that its partial answers.',
          [
              Module('flags', "The flags of a piece's partial.", 'ask_partial', 'flags',
                     'passed_hash_check locked hashing is_hashing have_piece'),
              Module('info', 'How many blocks of a piece are in each state.', 'ask_partial', 'info', 'piece_info is_piece_finished'),
          ]),
    Crate('picker_block_questions',
          'The public questions of a block.',
          [
              Module('states', 'The state of a block, and how many asked for it.', 'ask_block', 'states',
                     'num_peers_block is_requested is_downloaded is_finished_block block_state block_num_peers'),
              Module('peers', 'The peer of a block.', 'ask_block', 'peers', 'get_downloader block_peer'),
          ]),
]
