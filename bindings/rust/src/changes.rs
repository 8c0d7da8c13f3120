//! The changes. A refused one leaves the picker as it was and takes no draws.

use crate::sys;
use crate::{DownloadPriority, Draws, PieceBlock, PieceIndex, PiecePicker, PickerOptions, Refusal};

impl PiecePicker {
    /// A peer has this piece.
    ///
    /// Refused with 4, 5 or 6.
    pub fn inc_refcount(&mut self, index: PieceIndex, draws: &mut Draws) -> Result<(), Refusal> {
        self.draw(sys::pp_inc_refcount, draws, index.0).map(drop)
    }

    /// A peer that has this piece leaves. Where only seeds have it, one of them is counted by pieces from now on.
    ///
    /// Refused with 4, 5 or 7.
    pub fn dec_refcount(&mut self, index: PieceIndex, draws: &mut Draws) -> Result<(), Refusal> {
        self.draw(sys::pp_dec_refcount, draws, index.0).map(drop)
    }

    /// A peer has every piece.
    ///
    /// Refused with 6.
    pub fn inc_refcount_all(&mut self) -> Result<(), Refusal> {
        self.change_all(sys::pp_inc_refcount_all)
    }

    /// A peer that has every piece leaves.
    ///
    /// Refused with 7.
    pub fn dec_refcount_all(&mut self) -> Result<(), Refusal> {
        self.change_all(sys::pp_dec_refcount_all)
    }

    /// Sets a priority; true where the piece is downloaded from now on and was not, or the other way round.
    ///
    /// Refused with 4 or 5.
    pub fn set_piece_priority(&mut self, index: PieceIndex, new_priority: DownloadPriority, draws: &mut Draws) -> Result<bool, Refusal> {
        self.draw(sys::pp_set_piece_priority, draws, sys::Priority { piece: index.0, priority: new_priority.0 })
    }

    /// A peer is asked for this block; false where the block is Writing or Finished.
    ///
    /// Refused with 4, 5, 6, 8 or 10.
    pub fn mark_as_downloading(
        &mut self,
        block: PieceBlock,
        peer: Option<u64>,
        options: PickerOptions,
        draws: &mut Draws,
    ) -> Result<bool, Refusal> {
        let named = named(block, peer);
        let request = sys::Request {
            piece: named.piece,
            block: named.block,
            peer: named.peer,
            has_peer: named.has_peer,
            options: options.0,
        };
        self.draw(sys::pp_mark_as_downloading, draws, request)
    }

    /// A block has come and is being written; false where it had come before. It is asked of no peer any more.
    ///
    /// Refused with 4, 5 or 10.
    pub fn mark_as_writing(&mut self, block: PieceBlock, peer: Option<u64>, draws: &mut Draws) -> Result<bool, Refusal> {
        self.draw(sys::pp_mark_as_writing, draws, named(block, peer))
    }

    /// A block is on disk.
    ///
    /// Refused with 4, 5, 9 or 10.
    pub fn mark_as_finished(&mut self, block: PieceBlock, peer: Option<u64>, draws: &mut Draws) -> Result<(), Refusal> {
        self.draw(sys::pp_mark_as_finished, draws, named(block, peer)).map(drop)
    }

    /// A block that was being written is given back.
    ///
    /// Refused with 4 or 5.
    pub fn mark_as_canceled(&mut self, block: PieceBlock, peer: Option<u64>, draws: &mut Draws) -> Result<(), Refusal> {
        self.draw(sys::pp_mark_as_canceled, draws, named(block, peer)).map(drop)
    }

    /// A peer will not bring this block; with the last peer asked for it, the block is free again.
    ///
    /// Refused with 4 or 5.
    pub fn abort_download(&mut self, block: PieceBlock, peer: Option<u64>, draws: &mut Draws) -> Result<(), Refusal> {
        self.draw(sys::pp_abort_download, draws, named(block, peer)).map(drop)
    }

    /// No picks from this piece's partial as long as it stands.
    ///
    /// Refused with 5.
    pub fn lock_piece(&mut self, piece: PieceIndex) -> Result<(), Refusal> {
        self.change_piece(sys::pp_lock_piece, piece)
    }

    /// The hash of this piece was right: it is had, and flushed once every block is on disk.
    ///
    /// Refused with 5.
    pub fn piece_passed(&mut self, index: PieceIndex) -> Result<(), Refusal> {
        self.change_piece(sys::pp_piece_passed, index)
    }
}

/// A block with a peer or none, as the exports take them.
fn named(block: PieceBlock, peer: Option<u64>) -> sys::NamedBlock {
    sys::NamedBlock {
        piece: block.piece_index.0,
        block: block.block_index,
        peer: peer.unwrap_or(0),
        has_peer: u32::from(peer.is_some()),
    }
}
