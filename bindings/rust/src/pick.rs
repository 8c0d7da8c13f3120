//! The pick: which blocks to ask a peer for next.

use crate::sys;
use crate::{Bitfield, Draws, Picked, PickerCounters, PickerFlags, PickerOptions, PieceBlock, PieceIndex, PiecePicker, Refusal};

/// The most blocks that can be wanted, and the longest run.
const MOST_BLOCKS: i32 = 2048;
/// Free output places that a pick needs beside those for the blocks wanted and the run.
const SPARE_PLACES: i32 = 255;

/// What a pick is asked.
#[derive(Clone, Copy, Debug)]
pub struct Pick<'a> {
    /// The pieces that the peer has.
    pub pieces: &'a Bitfield,
    /// Blocks wanted, 1 to 2,048.
    pub num_blocks: i32,
    /// The run of blocks that is preferred, 0 to 2,048.
    pub prefer_contiguous_blocks: i32,
    /// The peer that will be asked.
    pub peer: Option<u64>,
    /// How to choose.
    pub options: PickerOptions,
    /// At most 256 pieces to look at first; those out of range are passed over.
    pub suggested_pieces: &'a [PieceIndex],
    /// Peers connected, 0 to 1,000.
    pub num_peers: i32,
}

impl PiecePicker {
    /// Appends blocks to ask a peer for. The picker itself counts nothing as asked for: see [`PiecePicker::mark_as_downloading`]. A block
    /// can come twice.
    ///
    /// Refused with 4 or 11.
    #[allow(clippy::too_many_arguments)]
    pub fn pick_pieces(
        &mut self,
        pieces: &Bitfield,
        interesting_blocks: &mut Vec<PieceBlock>,
        num_blocks: i32,
        prefer_contiguous_blocks: i32,
        peer: Option<u64>,
        options: PickerOptions,
        suggested_pieces: &[PieceIndex],
        num_peers: i32,
        draws: &mut Draws,
    ) -> Result<Picked, Refusal> {
        let pick = Pick { pieces, num_blocks, prefer_contiguous_blocks, peer, options, suggested_pieces, num_peers };
        let places = num_blocks.clamp(0, MOST_BLOCKS) + prefer_contiguous_blocks.clamp(0, MOST_BLOCKS) + SPARE_PLACES;
        let mut out = vec![0; places as usize];
        let (end, picked) = self.pick_into(&pick, &mut out, 0, draws)?;
        interesting_blocks.extend(out.iter().take(end).map(|word| PieceBlock::from_word(*word)));
        Ok(picked)
    }

    /// The same without allocating: blocks are put into `out` from place `end` on, each a word ([`PieceBlock::from_word`]); answers where
    /// they end.
    ///
    /// Refused with 4, 11 or 12.
    pub fn pick_into(&mut self, pick: &Pick, out: &mut [u64], end: usize, draws: &mut Draws) -> Result<(usize, Picked), Refusal> {
        let (words, cells, partials) = (&mut self.words, &mut self.cells, &self.partials);
        let (bytes, suggested, lent) = (pick.pieces.bytes(), pick.suggested_pieces, draws.lend());
        let request = sys::PickRequest {
            num_blocks: pick.num_blocks,
            prefer_contiguous_blocks: pick.prefer_contiguous_blocks,
            num_peers: pick.num_peers,
            options: pick.options.0,
            peer: pick.peer.unwrap_or(0),
            has_peer: u32::from(pick.peer.is_some()),
            bits: pick.pieces.size(),
            end,
        };
        // a `PieceIndex` is laid out as the number that it holds
        let answer = unsafe {
            sys::pp_pick_pieces(words.as_mut_ptr(), words.len(), cells.as_mut_ptr(), cells.len(), partials.as_ptr(), partials.len(),
                bytes.as_ptr(), bytes.len(), suggested.as_ptr().cast(), suggested.len(), out.as_mut_ptr(), out.len(), lent.as_ptr(),
                lent.len(), request)
        };
        Refusal::check(answer.refusal, answer.place)?;
        draws.spend(answer.draws);
        Ok((answer.end as usize, picked(&answer)))
    }
}

fn picked(answer: &sys::Picked) -> Picked {
    Picked {
        flags: PickerFlags(answer.flags),
        counters: PickerCounters {
            partial_loops: answer.partial_loops,
            suggest_loops: answer.suggest_loops,
            reverse_rare_loops: answer.reverse_rare_loops,
            rare_loops: answer.rare_loops,
            rand_start_loops: answer.rand_start_loops,
            rand_loops: answer.rand_loops,
            busy_loops: answer.busy_loops,
        },
        draws: answer.draws,
    }
}
