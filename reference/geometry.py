"""Lengths as BEP 3 has them: the total cut into pieces of one length, pieces into blocks of 2^14 bytes, the last of each shorter
where it does not come out even. Extents are runs of pieces of 4 MiB. A picker stands in three lent buffers."""
from typing import NamedTuple

from .state import FRESH_PIECE, MAX_PARTIALS, MAX_PIECE_SIZE, MAX_PIECES, Picker

BLOCK = 2**14
EXTENT_BLOCKS = 256


def num_pieces(s):
    return len(s.pieces)


def pieces_of(total, size):
    return (total + size - 1) // size


def valid_geometry(total, size):
    return total >= 1 and 1 <= size <= MAX_PIECE_SIZE and pieces_of(total, size) <= MAX_PIECES


def length_of_piece(total, size, i):
    return min(size, total - i * size)


def block_length(size):
    return min(BLOCK, size)


def blocks_of(length, size):
    """Blocks that a piece of this length has, where whole pieces have `size` bytes."""
    return (length + block_length(size) - 1) // block_length(size)


def piece_size(s, i):
    return length_of_piece(s.total, s.size, i)


def block_size(s):
    return block_length(s.size)


def blocks_per_piece(s):
    return blocks_of(s.size, s.size)


def blocks_in_piece(s, i):
    return blocks_of(piece_size(s, i), s.size)


def payload_blocks_in_piece(s, i):
    return blocks_in_piece(s, i) - s.pieces[i].pad // block_size(s)


def extent_size(b):
    """Pieces in an extent, where a piece has b blocks."""
    return EXTENT_BLOCKS // b


def num_extents(n, b):
    """Extents of n pieces; none where one piece already fills an extent."""
    return 0 if b == EXTENT_BLOCKS else (n + extent_size(b) - 1) // extent_size(b)


def extent_for(s, i):
    return i // extent_size(blocks_per_piece(s))


def extent_pieces(s, e):
    width = extent_size(blocks_per_piece(s))
    return range(e * width, min(e * width + width, num_pieces(s)))


HEAD_WORDS = 16


class Memory(NamedTuple):
    """Lengths of the three lent buffers."""

    words: int
    cells: int
    partials: int


def memory_for(n, b):
    """Words, cells and records for a picker of n pieces with b blocks each."""
    partials = min(n, MAX_PARTIALS)
    return Memory(HEAD_WORDS + 2 * n + partials * b, 4 * n + 3 * partials * b, partials)


def memory_needed(s):
    return memory_for(num_pieces(s), blocks_per_piece(s))


def is_short(lent, need):
    """One of the buffers is shorter than it has to be."""
    return any(have < least for have, least in zip(lent, need))


def new(total, size):
    n = pieces_of(total, size)
    return Picker(total, size, 0, 0, n, True, (FRESH_PIECE,) * n, (), (), ())
