//! A pick made on both sides of a `Pair`, and compared.

use crate::linked_pick::{pick_pieces, suggestions_of};
use crate::pair::Pair;
use crate::rng::Rng;
use oracle::script::{Lent as LentWords, Memory, Pick};
use std::rc::Rc;

/// One compared value made wrong, to see that the comparison finds it.
#[derive(Clone, Copy, PartialEq)]
pub enum SpoiltPick {
    Nothing,
    Block,
    Fewer,
    Flags,
    Loops,
    Draws,
    Before,
    Behind,
    Word,
}

impl SpoiltPick {
    pub fn named(name: &str) -> SpoiltPick {
        match name {
            "none" => SpoiltPick::Nothing,
            "block" => SpoiltPick::Block,
            "fewer" => SpoiltPick::Fewer,
            "flags" => SpoiltPick::Flags,
            "loops" => SpoiltPick::Loops,
            "draws" => SpoiltPick::Draws,
            "before" => SpoiltPick::Before,
            "behind" => SpoiltPick::Behind,
            "word" => SpoiltPick::Word,
            _ => panic!("no such value"),
        }
    }
}

/// What a pick gave, where both sides agree.
pub struct PickMade {
    pub blocks: usize,
    pub flags: u32,
    pub used: usize,
    pub differences: Vec<&'static str>,
}

/// What a place of the output holds before the pick.
fn untold(place: usize) -> u64 {
    place as u64 ^ 0x5A5A_F00D_0000_0000
}

impl Pair {
    /// Makes a pick that no refusal stops on both sides.
    pub fn pick(&mut self, rng: &mut Rng, pick: &Pick, draws: &Rc<[u32]>, spoilt: SpoiltPick) -> Result<PickMade, String> {
        let mut differences = Vec::new();
        let free = (pick.wanted + pick.run + 255) as u64;
        let lent = LentWords { memory: Memory::default(), room: None, draws: crate::draws::words(draws), free };
        let due = oracle::pick::carry_out(&mut self.rust, pick, &lent, &mut differences);
        // some output from before, and sometimes more places than there have to be
        let (start, more) = (rng.place(4), rng.place(3));
        let mut out: Vec<u64> = (0..start + free as usize + more).map(untold).collect();
        let mut found = pick_pieces(&mut self.lent, pick, &suggestions_of(pick), draws, &mut out, start);
        match spoilt {
            SpoiltPick::Nothing => {}
            SpoiltPick::Block if found.end > start => out[start] ^= 1,
            SpoiltPick::Fewer if found.end > start => found.end -= 1,
            SpoiltPick::Flags => found.flags ^= 4,
            SpoiltPick::Loops => found.loops[3] += 1,
            SpoiltPick::Draws => found.used += 1,
            SpoiltPick::Before if start > 0 => out[0] ^= 1,
            SpoiltPick::Behind if found.end < out.len() => out[found.end] ^= 1,
            SpoiltPick::Word => self.lent.words[3] ^= 1,
            _ => {}
        }
        let blocks: Vec<u64> = due.blocks.iter().map(|at| (at.piece_index.0 as u64) << 16 | at.block_index as u64).collect();
        if out.get(start..found.end) != Some(&blocks[..]) {
            return Err(format!("blocks {:?} where {blocks:?} are due", out.get(start..found.end)));
        }
        if (0..out.len()).any(|k| (k < start || k >= found.end) && out[k] != untold(k)) {
            return Err("output before or behind the blocks moved".into());
        }
        if (found.flags, found.loops, found.used as u64) != (due.flags, due.loops(), due.draws) {
            let due = (due.flags, due.loops(), due.draws);
            return Err(format!("flags, loops and draws {:?} where {due:?} are due", (found.flags, found.loops, found.used)));
        }
        self.compare()?;
        Ok(PickMade { blocks: blocks.len(), flags: found.flags, used: found.used, differences })
    }
}
