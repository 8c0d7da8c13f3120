//! The station's ledger held against the picker, and against the requests of the peers.

use crate::ledger::Mark;
use crate::part::{check, Fault};
use crate::state::Station;
use piece_picker::{BlockInfo, BlockState, PieceIndex, PiecePicker};

/// Whether the picker says of a block in a partial what the ledger says.
fn agrees(mark: &Mark, info: &BlockInfo) -> bool {
    match mark {
        Mark::Free => info.state == BlockState::None,
        Mark::Asked(peers) => info.state == BlockState::Requested && info.num_peers == *peers,
        Mark::Come { peer, .. } => info.state == BlockState::Writing && info.peer == Some(*peer),
        Mark::Done => false,
    }
}

impl Station {
    pub fn audit(&mut self) -> Result<(), Fault> {
        let (open, totals) = (self.own.ledger.open_requests(), &self.own.ledger.totals);
        let ended = totals.came + totals.given_back + totals.canceled;
        check(totals.asked == ended + open, || format!("{} requests, {ended} ended and {open} open", totals.asked))?;
        let held: usize = self.own.peers.iter().map(|peer| peer.requests.len()).sum();
        check(open == held as u64, || format!("{open} requests are open, and peers were asked for {held}"))?;
        (0..self.own.ledger.num_pieces()).try_for_each(|piece| self.audit_piece(PieceIndex(piece as i32)))
    }

    fn audit_piece(&mut self, piece: PieceIndex) -> Result<(), Fault> {
        let marks = self.own.ledger.piece(piece).to_vec();
        let agreed = match self.part.ask(|p| p.blocks_for_piece(piece))? {
            Some(blocks) => marks.len() == blocks.len() && marks.iter().zip(&blocks).all(|(mark, info)| agrees(mark, info)),
            None => {
                let had = self.part.ask(|p| p.have_piece(piece))?;
                marks.iter().all(|mark| *mark == if had { Mark::Done } else { Mark::Free })
            }
        };
        check(agreed, || format!("piece {piece} is another by the picker than by the ledger"))
    }

    /// Nothing is left out: every piece is had, every request has ended, and each block came once but for those thrown away.
    pub fn audit_end(&mut self) -> Result<(), Fault> {
        self.audit()?;
        let totals = &self.own.ledger.totals;
        let blocks = self.own.ledger.num_blocks() as u64 + totals.thrown_away;
        check(totals.came == blocks, || format!("{} blocks came instead of {blocks}", totals.came))?;
        check(self.own.ledger.open_requests() == 0, || "requests are open at the end".into())?;
        let over = self.part.ask(PiecePicker::is_finished)? && self.part.ask(PiecePicker::is_seeding)?;
        check(over, || "the picker is no seed at the end".into())?;
        let left = self.part.ask(PiecePicker::num_want_left)?;
        let partials = self.part.ask(PiecePicker::get_download_queue_size)?;
        check(left == 0 && partials == 0, || format!("{left} pieces are left and {partials} partials stand"))
    }
}
