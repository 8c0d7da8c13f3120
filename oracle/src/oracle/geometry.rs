//! Pieces, blocks and memory needs of a torrent, from its two lengths alone.

const MAX_PIECES: i64 = 4096;
const MAX_PIECE_SIZE: i64 = 4_194_304;
const DEFAULT_BLOCK_SIZE: i64 = 16_384;

/// The most partials that stand at a time.
pub const MAX_PARTIALS: usize = 512;

/// Words at the front of a picker's words.
pub const HEAD_WORDS: u64 = 16;

/// A valid geometry.
#[derive(Clone, Copy)]
pub struct Geometry {
    pub total: i64,
    pub piece_size: i64,
    pub pieces: usize,
    pub blocks_per_piece: i64,
}

impl Geometry {
    /// None where refusal 1 is due.
    pub fn new(total: i64, piece_size: i64) -> Option<Self> {
        if total < 1 || !(1..=MAX_PIECE_SIZE).contains(&piece_size) {
            return None;
        }
        let pieces = (total - 1) / piece_size + 1;
        (pieces <= MAX_PIECES).then(|| Self {
            total,
            piece_size,
            pieces: pieces as usize,
            blocks_per_piece: blocks(piece_size, piece_size),
        })
    }

    /// The length of `piece`; the last one may be short.
    pub fn piece_length(&self, piece: usize) -> i64 {
        (self.total - piece as i64 * self.piece_size).min(self.piece_size)
    }

    pub fn blocks_in_piece(&self, piece: usize) -> usize {
        blocks(self.piece_length(piece), self.piece_size) as usize
    }

    /// The most partials that a picker of this geometry can have: so many records it needs.
    pub fn partials_need(&self) -> u64 {
        self.pieces.min(MAX_PARTIALS) as u64
    }

    /// Words of 64 bits that it needs.
    pub fn words_need(&self) -> u64 {
        HEAD_WORDS + 2 * self.pieces as u64 + self.blocks_of_partials()
    }

    /// Cells of 16 bits that it needs.
    pub fn cells_need(&self) -> u64 {
        4 * self.pieces as u64 + 3 * self.blocks_of_partials()
    }

    fn blocks_of_partials(&self) -> u64 {
        self.partials_need() * self.blocks_per_piece as u64
    }
}

fn blocks(length: i64, piece_size: i64) -> i64 {
    let block_size = piece_size.min(DEFAULT_BLOCK_SIZE);
    (length + block_size - 1) / block_size
}
