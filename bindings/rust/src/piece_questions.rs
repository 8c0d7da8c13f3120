//! Questions of a piece and of its partial. Each is refused with 5 where there is no such piece.

use crate::answers::number;
use crate::questions::checked;
use crate::sys::{self, Answer, AskOf};
use crate::{DownloadPriority, DownloadQueue, DownloadingPiece, PieceIndex, PiecePicker, PieceStats, Refusal};

impl PiecePicker {
    /// Its blocks: fewer than others have for a shorter last piece.
    pub fn blocks_in_piece(&self, index: PieceIndex) -> Result<i32, Refusal> {
        self.number_of_piece(sys::pp_blocks_in_piece, index)
    }

    /// Its blocks without those that are pad bytes alone.
    pub fn payload_blocks_in_piece(&self, index: PieceIndex) -> Result<i32, Refusal> {
        self.number_of_piece(sys::pp_payload_blocks_in_piece, index)
    }

    /// Its bytes.
    pub fn piece_size(&self, p: PieceIndex) -> Result<i32, Refusal> {
        self.number_of_piece(sys::pp_piece_size, p)
    }

    /// Its pad bytes.
    pub fn pad_bytes_in_piece(&self, index: PieceIndex) -> Result<i32, Refusal> {
        self.number_of_piece(sys::pp_pad_bytes_in_piece, index)
    }

    /// The peers that have it, seeds included.
    pub fn get_availability(&self, piece: PieceIndex) -> Result<i32, Refusal> {
        self.number_of_piece(sys::pp_get_availability, piece)
    }

    /// The peers that have it, without the seeds.
    pub fn peer_count(&self, piece: PieceIndex) -> Result<i32, Refusal> {
        self.number_of_piece(sys::pp_peer_count, piece)
    }

    /// Its priority.
    pub fn piece_priority(&self, index: PieceIndex) -> Result<DownloadPriority, Refusal> {
        self.number_of_piece(sys::pp_piece_priority, index).map(|value| DownloadPriority(value as u8))
    }

    /// Its queue.
    pub fn download_state(&self, piece: PieceIndex) -> Result<DownloadQueue, Refusal> {
        self.value_of_piece(sys::pp_download_state, piece).map(|answer| DownloadQueue::of(answer.value))
    }

    /// Whether it is had: flushed, or with the right hash.
    pub fn have_piece(&self, index: PieceIndex) -> Result<bool, Refusal> {
        self.flag_of_piece(sys::pp_have_piece, index)
    }

    /// Whether every block has come: each is Writing or Finished.
    pub fn is_piece_finished(&self, index: PieceIndex) -> Result<bool, Refusal> {
        self.flag_of_piece(sys::pp_is_piece_finished, index)
    }

    /// Whether it has a partial.
    pub fn is_downloading(&self, index: PieceIndex) -> Result<bool, Refusal> {
        self.flag_of_piece(sys::pp_is_downloading, index)
    }

    /// Whether it is being hashed.
    pub fn is_hashing(&self, piece: PieceIndex) -> Result<bool, Refusal> {
        self.flag_of_piece(sys::pp_is_hashing, piece)
    }

    /// Whether it is on disk with the right hash.
    pub fn is_piece_flushed(&self, index: PieceIndex) -> Result<bool, Refusal> {
        self.flag_of_piece(sys::pp_is_piece_flushed, index)
    }

    /// What its place in the list goes by.
    pub fn piece_stats(&self, index: PieceIndex) -> Result<PieceStats, Refusal> {
        let stats = self.ask_of(sys::pp_piece_stats, index.0);
        Refusal::check(stats.refusal, stats.place)?;
        Ok(PieceStats {
            peer_count: number(stats.peer_count),
            priority: if stats.listed { i32::from(stats.priority) } else { -1 },
            flushed: stats.flushed,
            downloading: stats.downloading,
        })
    }

    /// Its partial; for a piece without one what the Rust answers: no flags, no blocks, or all finished where it is flushed.
    pub fn piece_info(&self, index: PieceIndex) -> Result<DownloadingPiece, Refusal> {
        let info = self.ask_of(sys::pp_piece_info, index.0);
        Refusal::check(info.refusal, info.place)?;
        Ok(DownloadingPiece {
            index: PieceIndex(number(info.index)),
            finished: info.finished,
            passed_hash_check: info.passed_hash_check,
            writing: info.writing,
            locked: info.locked,
            requested: info.requested,
            hashing: info.hashing,
        })
    }

    /// Whether its partial passed the hash check; none without a partial.
    pub fn passed_hash_check(&self, piece: PieceIndex) -> Result<Option<bool>, Refusal> {
        self.flag_of_partial(sys::pp_passed_hash_check, piece)
    }

    /// Whether its partial is locked; none without a partial.
    pub fn locked(&self, piece: PieceIndex) -> Result<Option<bool>, Refusal> {
        self.flag_of_partial(sys::pp_locked, piece)
    }

    /// Whether its partial is being hashed; none without a partial.
    pub fn hashing(&self, piece: PieceIndex) -> Result<Option<bool>, Refusal> {
        self.flag_of_partial(sys::pp_hashing, piece)
    }

    fn value_of_piece(&self, call: AskOf<i32, Answer>, piece: PieceIndex) -> Result<Answer, Refusal> {
        checked(self.ask_of(call, piece.0))
    }

    fn number_of_piece(&self, call: AskOf<i32, Answer>, piece: PieceIndex) -> Result<i32, Refusal> {
        self.value_of_piece(call, piece).map(|answer| number(answer.value))
    }

    fn flag_of_piece(&self, call: AskOf<i32, Answer>, piece: PieceIndex) -> Result<bool, Refusal> {
        self.value_of_piece(call, piece).map(|answer| answer.value != 0)
    }

    fn flag_of_partial(&self, call: AskOf<i32, Answer>, piece: PieceIndex) -> Result<Option<bool>, Refusal> {
        self.value_of_piece(call, piece).map(|answer| (answer.kind == sys::NUMBER).then_some(answer.value != 0))
    }
}
