//! What questions answer, under the Rust's names.

use crate::PieceIndex;

/// Which queue a piece is in.
#[derive(Debug, Clone, Copy, PartialEq, Eq, Hash)]
#[repr(u8)]
pub enum DownloadQueue {
    /// Some blocks are free.
    Downloading = 0,
    /// Every block is requested, written or finished, but not all are finished.
    Full = 1,
    /// Every block is finished.
    Finished = 2,
    /// Its priority is 0.
    ZeroPrio = 3,
    /// In no queue: the piece has no partial.
    Open = 4,
    /// Downloading, for reverse peers.
    DownloadingReverse = 5,
    /// Full, for reverse peers.
    FullReverse = 6,
}

impl DownloadQueue {
    /// The queue of this number; the picker answers 0 to 6 alone.
    pub(crate) fn of(number: u64) -> Self {
        match number {
            0 => Self::Downloading,
            1 => Self::Full,
            2 => Self::Finished,
            3 => Self::ZeroPrio,
            5 => Self::DownloadingReverse,
            6 => Self::FullReverse,
            _ => Self::Open,
        }
    }
}

/// How far a block is.
#[derive(Debug, Clone, Copy, PartialEq, Eq, Hash, Default)]
pub enum BlockState {
    /// Free to request.
    #[default]
    None = 0,
    /// Requested from at least one peer.
    Requested = 1,
    /// Received, being written to disk.
    Writing = 2,
    /// On disk.
    Finished = 3,
}

impl BlockState {
    /// The state of this number; the picker answers 0 to 3 alone.
    pub(crate) fn of(number: u64) -> Self {
        match number {
            0 => Self::None,
            1 => Self::Requested,
            2 => Self::Writing,
            _ => Self::Finished,
        }
    }
}

/// A block of a partial.
#[derive(Debug, Clone, Copy, PartialEq, Eq, Hash, Default)]
pub struct BlockInfo {
    /// The peer this block was last requested from.
    pub peer: Option<u64>,
    /// Peers that are asked for this block.
    pub num_peers: u16,
    /// How far it is.
    pub state: BlockState,
}

/// A partial: its blocks in numbers, and its flags. The place of its blocks is shown by no answer.
#[derive(Debug, Clone, Copy, PartialEq, Eq, Hash)]
pub struct DownloadingPiece {
    /// The piece.
    pub index: PieceIndex,
    /// Blocks on disk.
    pub finished: u16,
    /// Its hash was right.
    pub passed_hash_check: bool,
    /// Blocks being written.
    pub writing: u16,
    /// No picks from it.
    pub locked: bool,
    /// Blocks requested.
    pub requested: u16,
    /// Being hashed.
    pub hashing: bool,
}

/// So many pieces.
#[derive(Debug, Clone, Copy, PartialEq, Eq, Hash, Default)]
pub struct PieceCount {
    /// Their number.
    pub num_pieces: i32,
    /// Pad bytes in them.
    pub pad_bytes: i64,
    /// Whether the last piece is one of them.
    pub last_piece: bool,
}

/// What a piece's place in the list goes by.
#[derive(Debug, Clone, Copy, PartialEq, Eq, Hash)]
pub struct PieceStats {
    /// Peers that have it, seeds included.
    pub peer_count: i32,
    /// Its bucket, −1 for none.
    pub priority: i32,
    /// Wholly on disk.
    pub flushed: bool,
    /// In one of the queues.
    pub downloading: bool,
}

/// What stands at a place of the list.
#[derive(Debug, Clone, Copy, PartialEq, Eq, Hash)]
pub enum ListPlace {
    /// The list is stale: the next pick that needs it makes it anew.
    Stale,
    /// This piece.
    Piece(PieceIndex),
}

/// The steps of a pick's seven loops.
#[derive(Debug, Clone, Copy, PartialEq, Eq, Hash, Default)]
pub struct PickerCounters {
    /// Partials looked at.
    pub partial_loops: u64,
    /// Suggestions looked at.
    pub suggest_loops: u64,
    /// Places of the list looked at, backwards.
    pub reverse_rare_loops: u64,
    /// Places of the list looked at.
    pub rare_loops: u64,
    /// Steps to where the random walk starts.
    pub rand_start_loops: u64,
    /// Steps of the random walk.
    pub rand_loops: u64,
    /// Pieces looked at for the end game.
    pub busy_loops: u64,
}

/// What a pick did beside appending blocks.
#[derive(Debug, Clone, Copy, PartialEq, Eq, Hash)]
pub struct Picked {
    /// The paths taken.
    pub flags: crate::PickerFlags,
    /// The steps of its loops.
    pub counters: PickerCounters,
    /// The words drawn.
    pub draws: u64,
}

/// A number of an answer in the Rust's type. Every answer is small enough for it.
pub(crate) fn number(value: u64) -> i32 {
    i32::try_from(value).unwrap_or(i32::MAX)
}

/// The same for sums of bytes.
pub(crate) fn bytes(value: u64) -> i64 {
    i64::try_from(value).unwrap_or(i64::MAX)
}
