//! The small types of the Rust's own interface, under its names: pieces, blocks, priorities, options and flags.

/// Index of a piece. Any number may be given to a call: one that no piece has is refused with 5.
#[repr(transparent)]
#[derive(Debug, Clone, Copy, PartialEq, Eq, Hash, PartialOrd, Ord, Default)]
pub struct PieceIndex(pub i32);

impl From<i32> for PieceIndex {
    fn from(v: i32) -> Self {
        Self(v)
    }
}

impl From<PieceIndex> for i32 {
    fn from(v: PieceIndex) -> Self {
        v.0
    }
}

impl std::fmt::Display for PieceIndex {
    fn fmt(&self, f: &mut std::fmt::Formatter<'_>) -> std::fmt::Result {
        write!(f, "{}", self.0)
    }
}

/// A block, normally of 16 KiB, by its piece.
#[derive(Debug, Clone, Copy, PartialEq, Eq, Hash, PartialOrd, Ord)]
pub struct PieceBlock {
    /// The piece the block is part of.
    pub piece_index: PieceIndex,
    /// The index of the block within the piece.
    pub block_index: i32,
}

impl PieceBlock {
    /// A block that no torrent has.
    pub const INVALID: Self = Self { piece_index: PieceIndex(i32::MAX), block_index: i32::MAX };

    /// Block `block_index` of piece `piece_index`.
    #[must_use]
    pub fn new(piece_index: PieceIndex, block_index: i32) -> Self {
        Self { piece_index, block_index }
    }

    /// The block that a word of a pick's output means: piece · 65,536 + block.
    #[must_use]
    pub fn from_word(word: u64) -> Self {
        Self { piece_index: PieceIndex((word >> 16) as i32), block_index: (word & 0xffff) as i32 }
    }
}

/// Priority of a piece, 0 to 7; a larger one is refused with 5.
#[derive(Debug, Clone, Copy, PartialEq, Eq, Hash, PartialOrd, Ord, Default)]
pub struct DownloadPriority(pub u8);

impl DownloadPriority {
    /// The piece is not downloaded.
    pub const DONT_DOWNLOAD: Self = Self(0);
    /// Below the default.
    pub const LOW: Self = Self(1);
    /// What every piece of a new picker has.
    pub const DEFAULT: Self = Self(4);
    /// Above all others.
    pub const TOP: Self = Self(7);
}

impl From<u8> for DownloadPriority {
    fn from(v: u8) -> Self {
        Self(v)
    }
}

impl From<DownloadPriority> for u8 {
    fn from(v: DownloadPriority) -> Self {
        v.0
    }
}

/// How a pick chooses. Bits above the eight named ones are ignored.
#[derive(Debug, Clone, Copy, PartialEq, Eq, Hash, Default)]
pub struct PickerOptions(pub u16);

impl PickerOptions {
    /// The pieces that the fewest peers have first.
    pub const RAREST_FIRST: Self = Self(1);
    /// Backwards: for slow peers, so that they meet the others late.
    pub const REVERSE: Self = Self(2);
    /// Only pieces that no other peer works on: for a peer that may have sent bad data.
    pub const ON_PAROLE: Self = Self(4);
    /// Partials before pieces that are not begun.
    pub const PRIORITIZE_PARTIALS: Self = Self(8);
    /// In the order of the torrent.
    pub const SEQUENTIAL: Self = Self(16);
    /// Named by the Rust, without effect.
    pub const TIME_CRITICAL: Self = Self(32);
    /// A run of several pieces starts at a multiple of its length.
    pub const ALIGN_EXPANDED_PIECES: Self = Self(64);
    /// Pieces near those begun of late first.
    pub const PIECE_EXTENT_AFFINITY: Self = Self(128);
    /// No options.
    pub const NONE: Self = Self(0);

    /// Whether a bit of `f` is set.
    #[must_use]
    pub fn contains(self, f: Self) -> bool {
        self.0 & f.0 != 0
    }

    /// Sets the bits of `f`.
    pub fn set(&mut self, f: Self) {
        self.0 |= f.0;
    }
}

impl std::ops::BitOr for PickerOptions {
    type Output = Self;
    fn bitor(self, rhs: Self) -> Self {
        Self(self.0 | rhs.0)
    }
}

/// Which paths a pick took.
#[derive(Debug, Clone, Copy, PartialEq, Eq, Hash, Default)]
pub struct PickerFlags(pub u32);

impl PickerFlags {
    /// Too many partials: they were prioritised.
    pub const PARTIAL_RATIO: Self = Self(1);
    /// Partials came first.
    pub const PRIORITIZE_PARTIALS: Self = Self(2);
    /// Partials came first, by rarity.
    pub const RAREST_FIRST_PARTIALS: Self = Self(4);
    /// By rarity.
    pub const RAREST_FIRST: Self = Self(8);
    /// By rarity, backwards.
    pub const REVERSE_RAREST_FIRST: Self = Self(16);
    /// A suggested piece.
    pub const SUGGESTED_PIECES: Self = Self(32);
    /// In order, those of the highest priority.
    pub const PRIO_SEQUENTIAL_PIECES: Self = Self(64);
    /// In order.
    pub const SEQUENTIAL_PIECES: Self = Self(128);
    /// Named by the Rust, set by no pick.
    pub const REVERSE_PIECES: Self = Self(256);
    /// Named by the Rust, set by no pick.
    pub const TIME_CRITICAL: Self = Self(512);
    /// By chance.
    pub const RANDOM_PIECES: Self = Self(1024);
    /// A run was asked for.
    pub const PREFER_CONTIGUOUS: Self = Self(2048);
    /// In order, backwards.
    pub const REVERSE_SEQUENTIAL: Self = Self(4096);
    /// Blocks set aside since other peers work on their pieces.
    pub const BACKUP1: Self = Self(8192);
    /// Named by the Rust, set by no pick.
    pub const BACKUP2: Self = Self(16384);
    /// A block that another peer was asked for.
    pub const END_GAME: Self = Self(32768);
    /// Near pieces begun of late.
    pub const EXTENT_AFFINITY: Self = Self(65536);

    /// Whether a bit of `f` is set.
    #[must_use]
    pub fn contains(self, f: Self) -> bool {
        self.0 & f.0 != 0
    }
}

impl std::ops::BitOr for PickerFlags {
    type Output = Self;
    fn bitor(self, rhs: Self) -> Self {
        Self(self.0 | rhs.0)
    }
}
