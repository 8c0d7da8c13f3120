//! The Rust's pick where it is timed, with the counters that the proved code counts, too.

use bitdaemon_common::{Bitfield, PieceBlock};
use oracle::piece_picker::{PickerCounter, PickerOptions, PickerStats, PiecePicker};
use oracle::script::Pick;

/// The seven counters of a pick.
struct Counting([u64; 32]);

impl PickerStats for Counting {
    fn inc(&mut self, counter: PickerCounter) {
        self.0[counter as usize] += 1;
    }
}

/// A pick without suggestions into an empty output. Answers the flags.
pub fn pick_pieces(rust: &mut PiecePicker, have: &Bitfield, pick: &Pick, out: &mut Vec<PieceBlock>) -> u32 {
    out.clear();
    let options = PickerOptions::from_bits(pick.options);
    let (wanted, run) = (pick.wanted as i32, pick.run as i32);
    rust.pick_pieces(have, out, wanted, run, pick.peer, options, &[], pick.peers as i32, &mut Counting([0; 32])).0
}

/// The blocks as the proved code writes them: a word for each.
pub fn as_words(blocks: &[PieceBlock]) -> Vec<u64> {
    blocks.iter().map(|at| (at.piece_index.0 as u64) << 16 | at.block_index as u64).collect()
}
