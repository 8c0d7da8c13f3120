//! A picker in three lent buffers (docs/MEMORY.md): laid out from the fields of an image, written as an image, and tested by the proved
//! memory test. The buffers are longer than they have to be, and what lies beyond is watched.

#[path = "image_of.rs"]
mod image_of;

use self::image_of::image_of;
use crate::linked_changes::Tested;
use crate::list_operations::{geometry, Geometry};
use crate::picker::Shape;
use crate::records::{unpack, DownloadingPiece, ROWS};
use crate::rng::Rng;
use crate::states::rank_of;
use oracle::image::{Fields, Partial};

#[link(name = "link_memory", kind = "static")]
extern "C" {
    fn pm_check(words: *const u64, words_len: usize, cells: *const u16, cells_len: usize, rows: *const u32, rows_len: usize,
        lent: usize, counts: *mut u16, counts_len: usize) -> u8;
}

/// Words of the head.
const DIRTY: usize = 5;
const LIVE: usize = 7;
const FIRST_EXTENT: usize = 9;

pub struct Lent {
    pub words: Vec<u64>,
    pub cells: Vec<u16>,
    pub partials: Vec<DownloadingPiece>,
    /// The live records in rows, and the numbers of their blocks in each state, as the memory test left them.
    pub rows: [u32; ROWS],
    pub counts: [u16; ROWS],
    /// What lies beyond the needs.
    beyond: (Vec<u64>, Vec<u16>, Vec<DownloadingPiece>),
}

impl Lent {
    /// The picker of these fields. What is not read is random, and so are the places of the partials.
    pub fn laid_out(rng: &mut Rng, fields: &Fields) -> Lent {
        let mut places: Vec<usize> = (0..fields.head.geometry.partials_need() as usize).collect();
        rng.shuffle(&mut places);
        Lent::laid_out_at(rng, fields, &places)
    }

    /// The same with a place for each partial.
    pub fn laid_out_at(rng: &mut Rng, fields: &Fields, places: &[usize]) -> Lent {
        let g = &fields.head.geometry;
        let needs = [g.words_need(), g.cells_need(), g.partials_need()].map(|need| need as usize);
        let [words, cells, partials] = needs.map(|need| need + rng.place(g.blocks_per_piece as usize + 3));
        let record = |rng: &mut Rng| DownloadingPiece { index: anything(rng) as u32, info_idx: anything(rng) as u32, flags: anything(rng) as u32 };
        let mut lent = Lent {
            words: (0..words).map(|_| anything(rng)).collect(),
            cells: (0..cells).map(|_| anything(rng) as u16).collect(),
            partials: (0..partials).map(|_| record(rng)).collect(),
            rows: [0; ROWS].map(|_: u32| anything(rng) as u32),
            counts: [0; ROWS].map(|_: u16| anything(rng) as u16),
            beyond: Default::default(),
        };
        lent.beyond = (lent.words[needs[0]..].to_vec(), lent.cells[needs[1]..].to_vec(), lent.partials[needs[2]..].to_vec());
        lent.put_head(fields);
        lent.put_pieces(fields);
        for (k, partial) in fields.partials.iter().enumerate() {
            lent.put_partial(k, partial, places[k]);
        }
        lent
    }

    fn put_head(&mut self, fields: &Fields) {
        let head = &fields.head;
        let lengths = [fields.list.len(), fields.partials.len(), fields.extents.len()].map(|length| length as u64);
        let [listed, live, extents] = lengths;
        let numbers = [head.geometry.total as u64, head.geometry.piece_size as u64, head.seeds, head.cursor, head.reverse_cursor];
        self.words[..5].copy_from_slice(&numbers);
        self.words[DIRTY..FIRST_EXTENT].copy_from_slice(&[head.stale.into(), listed, live, extents]);
        for (word, extent) in self.words[FIRST_EXTENT..].iter_mut().zip(&fields.extents) {
            *word = *extent as u64;
        }
    }

    fn put_pieces(&mut self, fields: &Fields) {
        let n = fields.pieces.len();
        for (i, piece) in fields.pieces.iter().enumerate() {
            self.words[16 + i] = piece.pad;
            let cells = [piece.count as u16, piece.state.into(), piece.wish.into(), piece.had.into()];
            for (f, cell) in cells.into_iter().enumerate() {
                self.cells[f * n + i] = cell;
            }
        }
        for (k, i) in fields.list.iter().enumerate() {
            self.words[16 + n + k] = u64::from(rank_of(fields, *i)) << 16 | *i as u64;
        }
    }

    fn put_partial(&mut self, k: usize, partial: &Partial, place: usize) {
        let s = self.shape();
        let flags = u32::from(partial.passed) | u32::from(partial.locked) << 1 | u32::from(partial.hashing) << 2;
        self.partials[k] = DownloadingPiece { index: partial.piece as u32, info_idx: place as u32, flags };
        for (j, block) in partial.blocks.iter().enumerate() {
            let cells = [block.state.into(), block.requesters as u16, block.peer.is_some().into()];
            for (f, cell) in cells.into_iter().enumerate() {
                self.cells[s.blocks(f, place) + j] = cell;
            }
            if let Some(peer) = block.peer {
                self.words[s.peers(place) + j] = peer;
            }
        }
    }

    pub fn shape(&self) -> Shape {
        Shape::of(&self.words)
    }

    pub fn geometry(&self) -> Geometry {
        geometry(&self.words)
    }

    pub fn live(&self) -> usize {
        self.words[LIVE] as usize
    }

    /// The picker for a change, behind the memory test.
    pub fn tested(&mut self) -> Tested<'_> {
        let (live, geometry) = (self.live(), self.geometry());
        Tested { words: &mut self.words, cells: &mut self.cells, rows: &self.rows, live, counts: &self.counts, geometry }
    }

    pub fn is_dirty(&self) -> bool {
        self.words[DIRTY] == 1
    }

    /// The refusal of the proved memory test, 0 for none. It leaves the rows and their counts.
    pub fn test(&mut self) -> u8 {
        unpack(&self.words, &self.partials, &mut self.rows);
        let (words, cells, lent) = (&self.words, &self.cells, self.partials.len());
        unsafe {
            pm_check(words.as_ptr(), words.len(), cells.as_ptr(), cells.len(), self.rows.as_ptr(), ROWS, lent,
                self.counts.as_mut_ptr(), ROWS)
        }
    }

    /// Whether what lies beyond the needs is as it was lent.
    pub fn beyond_untouched(&self) -> bool {
        let (words, cells, partials) = &self.beyond;
        self.words.ends_with(words) && self.cells.ends_with(cells) && self.partials.ends_with(partials)
    }

    /// The image, of buffers that the memory test accepts.
    pub fn image(&self) -> Vec<u8> {
        image_of(&self.words, &self.cells, &self.partials)
    }
}

/// A number that means nothing; small ones, which could pass for something, more often than others.
fn anything(rng: &mut Rng) -> u64 {
    let drawn = rng.next();
    match drawn % 16 {
        0..=9 => (drawn >> 8) % 5,
        10 => 1000,
        11 | 12 => u64::MAX,
        _ => drawn,
    }
}
