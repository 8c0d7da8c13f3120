//! Questions of a block. Each is refused with 5 where there is no such block.

use crate::answers::number;
use crate::questions::checked;
use crate::sys::{self, Answer, AskOf};
use crate::{BlockState, PieceBlock, PiecePicker, Refusal};

impl PiecePicker {
    /// How many peers are asked for it.
    pub fn num_peers_block(&self, block: PieceBlock) -> Result<i32, Refusal> {
        self.of_block(sys::pp_num_peers_block, block).map(|answer| number(answer.value))
    }

    /// Whether it is Requested.
    pub fn is_requested(&self, block: PieceBlock) -> Result<bool, Refusal> {
        self.of_block(sys::pp_is_requested, block).map(|answer| answer.value != 0)
    }

    /// Whether it has come: Writing, Finished, or of a piece that is on disk.
    pub fn is_downloaded(&self, block: PieceBlock) -> Result<bool, Refusal> {
        self.of_block(sys::pp_is_downloaded, block).map(|answer| answer.value != 0)
    }

    /// Whether it is on disk.
    pub fn is_finished_block(&self, block: PieceBlock) -> Result<bool, Refusal> {
        self.of_block(sys::pp_is_finished_block, block).map(|answer| answer.value != 0)
    }

    /// The peer that it was last requested from, where it is not free.
    pub fn get_downloader(&self, block: PieceBlock) -> Result<Option<u64>, Refusal> {
        self.of_block(sys::pp_get_downloader, block).map(|answer| (answer.kind == sys::NUMBER).then_some(answer.value))
    }

    /// Its state in the partial; none without a partial.
    pub fn block_state(&self, block: PieceBlock) -> Result<Option<BlockState>, Refusal> {
        self.of_block(sys::pp_block_state, block).map(|answer| (answer.kind == sys::NUMBER).then(|| BlockState::of(answer.value)))
    }

    /// Its number of peers in the partial; none without a partial.
    pub fn block_num_peers(&self, block: PieceBlock) -> Result<Option<i32>, Refusal> {
        self.of_block(sys::pp_block_num_peers, block).map(|answer| (answer.kind == sys::NUMBER).then(|| number(answer.value)))
    }

    /// Its peer, or that it has none, in the partial; none without a partial.
    pub fn block_peer(&self, block: PieceBlock) -> Result<Option<Option<u64>>, Refusal> {
        self.of_block(sys::pp_block_peer, block).map(|answer| match answer.kind {
            sys::NUMBER => Some(Some(answer.value)),
            sys::NO_PEER => Some(None),
            _ => None,
        })
    }

    fn of_block(&self, call: AskOf<sys::PieceBlock, Answer>, block: PieceBlock) -> Result<Answer, Refusal> {
        checked(self.ask_of(call, sys::PieceBlock { piece: block.piece_index.0, block: block.block_index }))
    }
}
