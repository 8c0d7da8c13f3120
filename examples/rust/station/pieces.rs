//! Whole pieces: hashed and finished, thrown away, or locked after a failed write. Blocks are kept in memory (Writing) until the hash is
//! known, since a block that is Finished cannot be given back.

use crate::arguments::Spoil;
use crate::ledger::Mark;
use crate::part::{check, Fault};
use crate::rng::Rng;
use crate::state::{Lock, Station};
use piece_picker::PieceIndex;

/// Ticks for which a piece stays locked.
const LOCKED: u64 = 4;

impl Station {
    /// All blocks of the piece have come.
    pub fn hash(&mut self, piece: PieceIndex, rng: &mut Rng) -> Result<(), Fault> {
        if self.is_locked(piece) {
            return self.throw_away(piece);
        }
        let right = self.own.ledger.is_right(piece);
        let bringers = self.own.ledger.bringers(piece);
        for peer in self.own.peers.iter_mut().filter(|peer| bringers.contains(&peer.number)) {
            peer.parole = !right;
        }
        if right {
            return self.finish(piece, rng.percent(50));
        }
        self.own.ledger.totals.bad_pieces += 1;
        self.part.change(|p, _| p.lock_piece(piece))?;
        self.throw_away(piece)
    }

    /// Each block goes to disk; the picker hears of the hash before that, or after.
    fn finish(&mut self, piece: PieceIndex, hash_first: bool) -> Result<(), Fault> {
        let told = !self.spoils(Spoil::Pass);
        if told && hash_first {
            self.part.change(|p, _| p.piece_passed(piece))?;
        }
        for block in self.own.ledger.come_of(piece) {
            self.part.change(|p, d| p.mark_as_finished(block, None, d))?;
            self.own.ledger.finish(block);
        }
        if told && !hash_first {
            self.part.change(|p, _| p.piece_passed(piece))?;
        }
        let flushed = self.part.ask(|p| p.is_piece_flushed(piece))?;
        check(flushed, || format!("piece {piece} is on disk, and the picker does not have it"))
    }

    /// Gives every block of a piece back, so that its partial closes.
    fn throw_away(&mut self, piece: PieceIndex) -> Result<(), Fault> {
        for k in 0..self.own.peers.len() {
            let requests = &mut self.own.peers[k].requests;
            let blocks: Vec<_> = requests.iter().map(|request| request.block).filter(|block| block.piece_index == piece).collect();
            requests.retain(|request| request.block.piece_index != piece);
            blocks.into_iter().try_for_each(|block| self.give_back(k, block))?;
        }
        for block in self.own.ledger.come_of(piece) {
            self.part.change(|p, d| p.mark_as_canceled(block, None, d))?;
            self.own.ledger.throw_away(block);
        }
        self.own.locks.retain(|lock| lock.piece != piece);
        let stands = self.part.ask(|p| p.is_downloading(piece))?;
        check(!stands, || format!("piece {piece} was given back, and its partial stands"))
    }

    pub fn is_locked(&self, piece: PieceIndex) -> bool {
        self.own.locks.iter().any(|lock| lock.piece == piece)
    }

    /// Now and then a write fails while blocks of the piece are still asked for: the piece is locked for some ticks.
    pub fn fail_a_write(&mut self, rng: &mut Rng) -> Result<(), Fault> {
        let piece = PieceIndex(rng.place(self.own.ledger.num_pieces()) as i32);
        let come = self.own.ledger.piece(piece).iter().any(|mark| matches!(mark, Mark::Come { .. }));
        if !come || self.is_locked(piece) || rng.percent(50) {
            return Ok(());
        }
        self.own.ledger.totals.failed_writes += 1;
        self.own.locks.push(Lock { piece, until: self.own.tick + LOCKED });
        self.part.change(|p, _| p.lock_piece(piece))
    }

    pub fn give_locked_back(&mut self) -> Result<(), Fault> {
        let tick = self.own.tick;
        let over: Vec<PieceIndex> = self.own.locks.iter().filter(|lock| lock.until <= tick).map(|lock| lock.piece).collect();
        over.into_iter().try_for_each(|piece| self.throw_away(piece))
    }
}
