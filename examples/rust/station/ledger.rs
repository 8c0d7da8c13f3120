//! What the station itself knows of every block, without asking the picker: each request ends once, and each block comes once unless it
//! is given back.

use crate::part::{check, Fault};
use piece_picker::{PieceBlock, PieceIndex};

/// How far a block is.
#[derive(Clone, Copy, Debug, PartialEq, Eq)]
pub enum Mark {
    Free,
    /// By so many peers.
    Asked(u16),
    /// In memory, brought by this peer, its data right or wrong.
    Come { peer: u64, right: bool },
    Done,
}

/// What happened so far. Requests end by coming, being given back, or being canceled since another peer was faster.
#[derive(Clone, Debug, Default, PartialEq, Eq)]
pub struct Totals {
    pub asked: u64,
    pub came: u64,
    pub given_back: u64,
    pub canceled: u64,
    pub bad_pieces: u64,
    pub failed_writes: u64,
    /// Blocks that came and were given back with their piece.
    pub thrown_away: u64,
    pub joins: u64,
    pub leaves: u64,
}

/// A block in a message.
pub fn named(block: PieceBlock) -> String {
    format!("block {} of piece {}", block.block_index, block.piece_index)
}

#[derive(Clone)]
pub struct Ledger {
    pieces: Vec<Vec<Mark>>,
    pub totals: Totals,
}

impl Ledger {
    /// Every block free; so many blocks in each piece.
    pub fn new(blocks: &[usize]) -> Ledger {
        Ledger { pieces: blocks.iter().map(|many| vec![Mark::Free; *many]).collect(), totals: Totals::default() }
    }

    pub fn num_pieces(&self) -> usize {
        self.pieces.len()
    }

    pub fn num_blocks(&self) -> usize {
        self.pieces.iter().map(Vec::len).sum()
    }

    pub fn piece(&self, piece: PieceIndex) -> &[Mark] {
        &self.pieces[piece.0 as usize]
    }

    pub fn mark(&self, block: PieceBlock) -> Mark {
        self.piece(block.piece_index)[block.block_index as usize]
    }

    fn set(&mut self, block: PieceBlock, mark: Mark) {
        self.pieces[block.piece_index.0 as usize][block.block_index as usize] = mark;
    }

    /// Whether a pick may give this block: it has not come.
    pub fn may_be_picked(&self, block: PieceBlock) -> Result<(), Fault> {
        let known = self.pieces.get(block.piece_index.0 as usize).is_some_and(|marks| (block.block_index as usize) < marks.len());
        check(known, || format!("a pick gave {}, which is none", named(block)))?;
        let open = matches!(self.mark(block), Mark::Free | Mark::Asked(_));
        check(open, || format!("a pick gave {}, which has come", named(block)))
    }

    pub fn ask(&mut self, block: PieceBlock) {
        self.totals.asked += 1;
        let peers = self.peers(block);
        self.set(block, Mark::Asked(peers + 1));
    }

    fn peers(&self, block: PieceBlock) -> u16 {
        match self.mark(block) {
            Mark::Asked(peers) => peers,
            _ => 0,
        }
    }

    /// A block comes that was asked for.
    pub fn come(&mut self, block: PieceBlock, peer: u64, right: bool) -> Result<(), Fault> {
        let mark = self.mark(block);
        let again = matches!(mark, Mark::Come { .. } | Mark::Done);
        check(!again, || format!("{} came twice", named(block)))?;
        check(mark != Mark::Free, || format!("{} came, and nobody was asked for it", named(block)))?;
        self.totals.came += 1;
        self.totals.canceled += u64::from(self.peers(block) - 1);
        self.set(block, Mark::Come { peer, right });
        Ok(())
    }

    /// One of the peers asked for a block does not bring it.
    pub fn give_back(&mut self, block: PieceBlock) -> Result<(), Fault> {
        let peers = self.peers(block);
        check(peers > 0, || format!("{} is given back, and nobody was asked for it", named(block)))?;
        self.totals.given_back += 1;
        self.set(block, if peers == 1 { Mark::Free } else { Mark::Asked(peers - 1) });
        Ok(())
    }

    /// A block that has come is thrown away with its piece.
    pub fn throw_away(&mut self, block: PieceBlock) {
        self.totals.thrown_away += 1;
        self.set(block, Mark::Free);
    }

    pub fn finish(&mut self, block: PieceBlock) {
        self.set(block, Mark::Done);
    }

    /// The piece's blocks that have come.
    pub fn come_of(&self, piece: PieceIndex) -> Vec<PieceBlock> {
        let marks = self.piece(piece).iter().zip(0..);
        marks.filter(|(mark, _)| matches!(mark, Mark::Come { .. })).map(|(_, j)| PieceBlock::new(piece, j)).collect()
    }

    pub fn is_whole(&self, piece: PieceIndex) -> bool {
        self.piece(piece).iter().all(|mark| matches!(mark, Mark::Come { .. }))
    }

    pub fn is_right(&self, piece: PieceIndex) -> bool {
        self.piece(piece).iter().all(|mark| matches!(mark, Mark::Come { right: true, .. }))
    }

    /// The peers that brought blocks of the piece.
    pub fn bringers(&self, piece: PieceIndex) -> Vec<u64> {
        self.piece(piece).iter().filter_map(|mark| if let Mark::Come { peer, .. } = mark { Some(*peer) } else { None }).collect()
    }

    pub fn is_done(&self, piece: PieceIndex) -> bool {
        self.piece(piece).iter().all(|mark| *mark == Mark::Done)
    }

    /// Requests that have not ended.
    pub fn open_requests(&self) -> u64 {
        let peers = |mark: &Mark| if let Mark::Asked(peers) = mark { u64::from(*peers) } else { 0 };
        self.pieces.iter().flatten().map(peers).sum()
    }
}
