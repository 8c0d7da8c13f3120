//! Peers that join, leave and tell of pieces that they have got.

use crate::arguments::Spoil;
use crate::part::Fault;
use crate::peer::Kind;
use crate::rng::Rng;
use crate::state::Station;
use piece_picker::{PieceBlock, PieceIndex};

impl Station {
    pub fn come_and_go(&mut self, rng: &mut Rng) -> Result<(), Fault> {
        for k in 0..self.own.peers.len() {
            let (kind, here) = (self.own.peers[k].kind, self.own.peers[k].here);
            match (kind, here) {
                (Kind::Steady, false) => self.join(k)?,
                (Kind::Steady, true) => {}
                (_, false) if rng.percent(10) => self.join(k)?,
                (_, true) if rng.below(1000) < self.leaving() => self.leave(k)?,
                (_, true) if rng.percent(20) => self.tell_of_piece(k, rng)?,
                _ => {}
            }
        }
        Ok(())
    }

    /// In a thousand ticks a peer leaves so often: less often where the download takes longer.
    fn leaving(&self) -> u64 {
        (4000 / self.own.ledger.num_pieces() as u64).clamp(1, 40)
    }

    fn pieces_of(&self, k: usize) -> Vec<PieceIndex> {
        let has = &self.own.peers[k].has;
        (0..has.size()).filter(|piece| has.get_bit(*piece)).map(|piece| PieceIndex(piece as i32)).collect()
    }

    fn join(&mut self, k: usize) -> Result<(), Fault> {
        self.own.peers[k].here = true;
        self.own.ledger.totals.joins += 1;
        if self.own.peers[k].is_seed() {
            return self.part.change(|p, _| p.inc_refcount_all());
        }
        self.pieces_of(k).into_iter().try_for_each(|piece| self.part.change(|p, d| p.inc_refcount(piece, d)))
    }

    /// What the peer was asked for is given back before it goes.
    fn leave(&mut self, k: usize) -> Result<(), Fault> {
        let requests = std::mem::take(&mut self.own.peers[k].requests);
        let forgotten = !requests.is_empty() && self.spoils(Spoil::Forget);
        for request in requests.iter().filter(|_| !forgotten) {
            self.give_back(k, request.block)?;
        }
        self.own.peers[k].here = false;
        self.own.ledger.totals.leaves += 1;
        if self.own.peers[k].is_seed() {
            return self.part.change(|p, _| p.dec_refcount_all());
        }
        self.pieces_of(k).into_iter().try_for_each(|piece| self.part.change(|p, d| p.dec_refcount(piece, d)))
    }

    fn tell_of_piece(&mut self, k: usize, rng: &mut Rng) -> Result<(), Fault> {
        let piece = rng.place(self.own.ledger.num_pieces());
        if self.own.peers[k].has.get_bit(piece) {
            return Ok(());
        }
        self.own.peers[k].has.set_bit(piece);
        self.part.change(|p, d| p.inc_refcount(PieceIndex(piece as i32), d))
    }

    /// A block that peer k will not bring.
    pub fn give_back(&mut self, k: usize, block: PieceBlock) -> Result<(), Fault> {
        let number = self.own.peers[k].number;
        self.part.change(|p, d| p.abort_download(block, Some(number), d))?;
        self.own.ledger.give_back(block)
    }

    pub fn num_here(&self) -> i32 {
        self.own.peers.iter().filter(|peer| peer.here).count() as i32
    }
}
