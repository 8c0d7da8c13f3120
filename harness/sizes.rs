//! The pickers that changes are timed on: so many pieces, blocks of a piece and partials, every partial with every second block requested.

use crate::states::rank_of;
use crate::timing::{counts, spread};
use oracle::image::{Block, Fields, Head, Partial, Piece};
use std::collections::BTreeSet;

/// A size: pieces, blocks of a piece, partials, the highest count of peers, and whether pieces with a partial have one peer each, so that
/// they make one group of the list.
#[derive(Clone, Copy)]
pub struct Size {
    pub n: usize,
    pub b: usize,
    pub partials: usize,
    pub most: usize,
    pub one_group: bool,
}

/// A piece, and the row of its partial if it has one.
#[derive(Clone, Copy)]
pub struct At {
    pub piece: usize,
    pub row: usize,
}

impl Size {
    /// Every so many pieces one has a partial; those between are Open.
    fn step(self) -> usize {
        self.n / self.partials
    }

    /// Sixteen Open pieces, spread over all; none where every piece has a partial.
    pub fn open_pieces(self) -> Vec<At> {
        let spread = if self.step() > 1 { spread(self.n) } else { Vec::new() };
        spread.into_iter().map(|i| At { piece: i + 1, row: 0 }).collect()
    }

    /// Sixteen pieces with a partial, or all of them where they are fewer.
    pub fn begun_pieces(self) -> Vec<At> {
        let mut rows = spread(self.partials);
        rows.dedup();
        rows.into_iter().map(|row| At { piece: row * self.step(), row }).collect()
    }

    /// A picker whose partials have every second block requested; the sixteen of `finished` have all blocks on disk.
    pub fn fields(self, finished: &[At]) -> Fields {
        let size = self.b as i64 * 16384;
        let geometry = oracle::geometry::Geometry::new(self.n as i64 * size, size).expect("a valid geometry");
        let head = Head { geometry, seeds: 0, cursor: 0, reverse_cursor: self.n as u64, stale: false };
        let mut fields = Fields { head, pieces: Vec::new(), partials: Vec::new(), extents: Vec::new(), list: Vec::new() };
        for (piece, count) in counts(self.n, self.most).into_iter().enumerate() {
            let begun = piece % self.step() == 0 && piece / self.step() < self.partials;
            let done = finished.iter().any(|at| at.piece == piece);
            let count = if begun && self.one_group { 1 } else { count };
            let state = if done { 2 } else if begun { 0 } else { 4 };
            fields.pieces.push(Piece { count: count.into(), state, wish: 4, had: false, pad: 0 });
            if begun {
                let blocks = (0..self.b).map(|j| a_block(done, j)).collect();
                fields.partials.push(Partial { piece, passed: false, locked: false, hashing: false, blocks });
            }
        }
        let mut list: Vec<usize> = (0..self.n).filter(|i| rank_of(&fields, *i) > 0).collect();
        list.sort_by_key(|i| rank_of(&fields, *i));
        fields.list = list;
        fields
    }

    /// The groups of the list.
    pub fn groups(self) -> usize {
        let fields = self.fields(&[]);
        let ranks: BTreeSet<u16> = fields.list.iter().map(|i| rank_of(&fields, *i)).collect();
        ranks.len()
    }
}

/// On disk; or requested, every second one.
fn a_block(done: bool, j: usize) -> Block {
    let requested = !done && j % 2 == 0;
    Block { state: if done { 3 } else { requested.into() }, requesters: requested.into(), peer: Some(1) }
}
