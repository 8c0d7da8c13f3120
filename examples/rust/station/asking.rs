//! Picks, and the requests that follow.

use crate::arguments::Spoil;
use crate::ledger::{named, Mark};
use crate::part::{check, Fault};
use crate::peer::Request;
use crate::rng::Rng;
use crate::state::Station;
use piece_picker::{PieceBlock, PieceIndex};

impl Station {
    /// Every peer that has a slot free is asked for blocks.
    pub fn ask_peers(&mut self, rng: &mut Rng) -> Result<(), Fault> {
        for k in 0..self.own.peers.len() {
            let peer = &self.own.peers[k];
            let free = peer.slots().saturating_sub(peer.requests.len());
            if peer.here && free > 0 {
                let blocks = self.pick(k, free as i32, rng)?;
                self.request(k, &blocks, rng)?;
            }
        }
        Ok(())
    }

    fn pick(&mut self, k: usize, free: i32, rng: &mut Rng) -> Result<Vec<PieceBlock>, Fault> {
        let pieces = self.own.ledger.num_pieces();
        let suggested: Vec<PieceIndex> = (0..rng.below(4)).map(|_| PieceIndex(rng.place(pieces + 1) as i32)).collect();
        let (num_peers, peer) = (self.num_here(), &self.own.peers[k]);
        let (run, options, number) = (peer.run(self.blocks_per_piece), peer.options(), Some(peer.number));
        let suggested = if rng.percent(10) { &suggested[..] } else { &[] };
        let mut blocks = Vec::new();
        self.part.change(|p, d| p.pick_pieces(&peer.has, &mut blocks, free, run, number, options, suggested, num_peers, d))?;
        if let (Some(first), Some(come)) = (blocks.first_mut(), self.block_that_came()) {
            if self.spoils(Spoil::Pick) {
                *first = come;
            }
        }
        Ok(blocks)
    }

    fn block_that_came(&self) -> Option<PieceBlock> {
        let mut pieces = (0..self.own.ledger.num_pieces()).map(|piece| PieceIndex(piece as i32));
        pieces.find(|piece| self.own.ledger.is_done(*piece)).map(|piece| PieceBlock::new(piece, 0))
    }

    /// Asks peer k for the blocks of a pick, but for those that it was asked for already.
    fn request(&mut self, k: usize, blocks: &[PieceBlock], rng: &mut Rng) -> Result<(), Fault> {
        for block in blocks {
            if self.own.peers[k].was_asked_for(*block) {
                continue;
            }
            self.check_picked(*block)?;
            let (number, options) = (self.own.peers[k].number, self.own.peers[k].options());
            let marked = self.part.change(|p, d| p.mark_as_downloading(*block, Some(number), options, d))?;
            check(marked, || format!("{} was picked and cannot be asked for", named(*block)))?;
            self.own.ledger.ask(*block);
            self.own.log.push((number, *block));
            let due = self.own.tick + self.own.peers[k].delay(rng);
            self.own.peers[k].requests.push(Request { block: *block, due });
        }
        Ok(())
    }

    /// A picked block has not come, by the ledger and by the picker, and no free block of a locked piece is picked.
    fn check_picked(&mut self, block: PieceBlock) -> Result<(), Fault> {
        self.own.ledger.may_be_picked(block)?;
        let locked = self.is_locked(block.piece_index) && self.own.ledger.mark(block) == Mark::Free;
        check(!locked, || format!("a pick gave {}, which is locked", named(block)))?;
        let come = self.part.ask(|p| p.is_downloaded(block))? || self.part.ask(|p| p.is_finished_block(block))?;
        check(!come, || format!("a pick gave {}, which has come by the picker", named(block)))
    }
}
