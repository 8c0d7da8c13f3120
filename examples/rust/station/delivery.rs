//! Blocks that come, or do not.

use crate::arguments::Spoil;
use crate::ledger::named;
use crate::part::{check, Fault};
use crate::peer::Kind;
use crate::rng::Rng;
use crate::state::Station;
use piece_picker::PieceBlock;

impl Station {
    pub fn deliver(&mut self, rng: &mut Rng) -> Result<(), Fault> {
        for k in 0..self.own.peers.len() {
            let tick = self.own.tick;
            for block in self.own.peers[k].take_due(tick) {
                self.answer(k, block, rng)?;
            }
        }
        Ok(())
    }

    /// Peer k answers a request: with the block, its data right or wrong, or with a rejection.
    fn answer(&mut self, k: usize, block: PieceBlock, rng: &mut Rng) -> Result<(), Fault> {
        let peer = &mut self.own.peers[k];
        if peer.kind == Kind::Failing && rng.percent(30) {
            return self.give_back(k, block);
        }
        let wrong = peer.kind == Kind::Corrupt && peer.wrong_left > 0 && rng.percent(5);
        peer.wrong_left -= u32::from(wrong);
        if self.spoils(Spoil::Drop) {
            return Ok(());
        }
        self.bring(k, block, !wrong)?;
        if self.spoils(Spoil::Twice) {
            self.bring(k, block, !wrong)?;
        }
        if self.own.ledger.is_whole(block.piece_index) {
            self.hash(block.piece_index, rng)?;
        }
        Ok(())
    }

    /// A block has come: nobody else is asked for it any more.
    fn bring(&mut self, k: usize, block: PieceBlock, right: bool) -> Result<(), Fault> {
        let number = self.own.peers[k].number;
        self.own.ledger.come(block, number, right)?;
        let marked = self.part.change(|p, d| p.mark_as_writing(block, Some(number), d))?;
        check(marked, || format!("{} came, and had come before by the picker", named(block)))?;
        for peer in &mut self.own.peers {
            peer.requests.retain(|request| request.block != block);
        }
        Ok(())
    }
}
