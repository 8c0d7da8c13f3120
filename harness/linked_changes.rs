//! The proved changes of the crate `link_changes`, on buffers that the memory test accepted. The edit of the records that a change answers
//! is made by `Outcome::edit`.

use crate::list_operations::Geometry;
use crate::edits;
use crate::records::{DownloadingPiece, ROWS};
use oracle::script::Change;

/// What a change answers. The edit: 0 none, 1 a record replaced, 2 one put in, 3 that of a piece taken out.
#[repr(C)]
pub struct Outcome {
    pub answer: bool,
    pub used: usize,
    pub kind: u32,
    index: u32,
    info_idx: u32,
    flags: u32,
}

/// A picker whose buffers the memory test accepted, with the live records in rows and their counts.
pub struct Tested<'a> {
    pub words: &'a mut [u64],
    pub cells: &'a mut [u16],
    pub rows: &'a [u32; ROWS],
    pub live: usize,
    pub counts: &'a [u16; ROWS],
    pub geometry: Geometry,
}

/// Changes that leave the partials alone: declared, and as methods.
macro_rules! without_rows {
    ($($export:ident as $name:ident($($own:ident: $kind:ty),*) -> $answer:ty;)*) => {
        #[link(name = "link_changes", kind = "static")]
        extern "C" {
            $(fn $export(words: *mut u64, words_len: usize, cells: *mut u16, cells_len: usize, g: Geometry $(, $own: $kind)*) -> $answer;)*
        }
        impl Tested<'_> {
            $(#[inline(always)]
            fn $name(&mut self $(, $own: $kind)*) -> $answer {
                let (words, cells) = (&mut *self.words, &mut *self.cells);
                unsafe { $export(words.as_mut_ptr(), words.len(), cells.as_mut_ptr(), cells.len(), self.geometry $(, $own)*) }
            })*
        }
    };
}

/// Changes that see them: declared, and as methods.
macro_rules! with_rows {
    ($($export:ident as $name:ident($($own:ident: $kind:ty),*);)*) => {
        #[link(name = "link_changes", kind = "static")]
        extern "C" {
            $(fn $export(words: *mut u64, words_len: usize, cells: *mut u16, cells_len: usize, rows: *const u32, rows_len: usize,
                live: usize, counts: *const u16, counts_len: usize, g: Geometry $(, $own: $kind)*) -> Outcome;)*
        }
        impl Tested<'_> {
            $(#[inline(always)]
            fn $name(&mut self $(, $own: $kind)*) -> Outcome {
                let (words, cells) = (&mut *self.words, &mut *self.cells);
                unsafe {
                    $export(words.as_mut_ptr(), words.len(), cells.as_mut_ptr(), cells.len(), self.rows.as_ptr(), ROWS, self.live,
                        self.counts.as_ptr(), ROWS, self.geometry $(, $own)*)
                }
            })*
        }
    };
}

without_rows! {
    ch_inc_refcount as raw_inc_refcount(piece: usize, draws: *const u32, draws_len: usize) -> usize;
    ch_dec_refcount as raw_dec_refcount(piece: usize, draws: *const u32, draws_len: usize) -> usize;
    ch_inc_refcount_all as raw_inc_refcount_all() -> ();
    ch_dec_refcount_all as raw_dec_refcount_all() -> ();
}

with_rows! {
    ch_set_piece_priority as raw_set_piece_priority(piece: usize, priority: u16, draws: *const u32, draws_len: usize);
    ch_abort_download as raw_abort_download(piece: usize, block: usize, has_peer: bool, peer: u64, draws: *const u32, draws_len: usize);
    ch_mark_as_canceled as raw_mark_as_canceled(piece: usize, block: usize, has_peer: bool, peer: u64, draws: *const u32, draws_len: usize);
    ch_piece_passed as raw_piece_passed(piece: usize);
    ch_mark_as_downloading as raw_mark_as_downloading(piece: usize, block: usize, has_peer: bool, peer: u64, options: u16,
        draws: *const u32, draws_len: usize);
    ch_mark_as_writing as raw_mark_as_writing(piece: usize, block: usize, has_peer: bool, peer: u64, draws: *const u32, draws_len: usize);
    ch_mark_as_finished as raw_mark_as_finished(piece: usize, block: usize, has_peer: bool, peer: u64, draws: *const u32, draws_len: usize);
}

#[link(name = "link_changes", kind = "static")]
extern "C" {
    fn ch_lock_piece(rows: *const u32, rows_len: usize, live: usize, piece: usize) -> Outcome;
}

impl Tested<'_> {
    /// Makes a change that no refusal stops; all but the edit of the records.
    #[inline(always)]
    pub fn carry_out(&mut self, change: &Change, draws: &[u32]) -> Outcome {
        let (drawn, many) = (draws.as_ptr(), draws.len());
        let at = |piece: i64| piece as usize;
        // what is lent beside no peer means nothing
        let named = |peer: Option<u64>| (peer.is_some(), peer.unwrap_or(7));
        match *change {
            Change::IncRefcount { piece } => without_edit(self.raw_inc_refcount(at(piece), drawn, many)),
            Change::DecRefcount { piece } => without_edit(self.raw_dec_refcount(at(piece), drawn, many)),
            Change::IncRefcountAll => {
                self.raw_inc_refcount_all();
                without_edit(0)
            }
            Change::DecRefcountAll => {
                self.raw_dec_refcount_all();
                without_edit(0)
            }
            Change::SetPiecePriority { piece, wish } => self.raw_set_piece_priority(at(piece), wish as u16, drawn, many),
            Change::AbortDownload { piece, block, peer } => {
                let (has_peer, peer) = named(peer);
                self.raw_abort_download(at(piece), at(block), has_peer, peer, drawn, many)
            }
            Change::MarkAsCanceled { piece, block, peer } => {
                let (has_peer, peer) = named(peer);
                self.raw_mark_as_canceled(at(piece), at(block), has_peer, peer, drawn, many)
            }
            Change::LockPiece { piece } => unsafe { ch_lock_piece(self.rows.as_ptr(), ROWS, self.live, at(piece)) },
            Change::PiecePassed { piece } => self.raw_piece_passed(at(piece)),
            Change::MarkAsDownloading { piece, block, peer, options } => {
                let (has_peer, peer) = named(peer);
                self.raw_mark_as_downloading(at(piece), at(block), has_peer, peer, options, drawn, many)
            }
            Change::MarkAsWriting { piece, block, peer } => {
                let (has_peer, peer) = named(peer);
                self.raw_mark_as_writing(at(piece), at(block), has_peer, peer, drawn, many)
            }
            Change::MarkAsFinished { piece, block, peer } => {
                let (has_peer, peer) = named(peer);
                self.raw_mark_as_finished(at(piece), at(block), has_peer, peer, drawn, many)
            }
        }
    }
}

fn without_edit(used: usize) -> Outcome {
    Outcome { answer: true, used, kind: 0, index: 0, info_idx: 0, flags: 0 }
}

impl Outcome {
    /// Makes the edit among the first `live` records, as many as there were before the change. False where it does not fit.
    #[inline(always)]
    pub fn edit(&self, partials: &mut [DownloadingPiece], live: usize) -> bool {
        self.kind == 0 || self.edit_record(partials, live)
    }

    fn edit_record(&self, partials: &mut [DownloadingPiece], live: usize) -> bool {
        let d = DownloadingPiece { index: self.index, info_idx: self.info_idx, flags: self.flags };
        match self.kind {
            1 => edits::replace(&mut partials[..live], d),
            2 => live < partials.len() && edits::insert(&mut partials[..live + 1], d),
            3 => edits::remove(&mut partials[..live], d.index),
            _ => false,
        }
    }
}
