//! A picker as a maker has it: three buffers of the needed lengths, set back from an image, and the exported calls of the archive on them,
//! as `bindings/rust` declares them. Beside it the memory test alone, as every call makes it.

use crate::records::{unpack, DownloadingPiece, ROWS};
use bitdaemon_common::random::{COUNT, WORDS};
use piece_picker::sys::{self, Alter, AlterAll, Ask, AskList, AskOf, Draw, PickRequest, Picked, Record};

#[link(name = "link_memory", kind = "static")]
extern "C" {
    fn pm_check(words: *const u64, words_len: usize, cells: *const u16, cells_len: usize, rows: *const u32, rows_len: usize,
        lent: usize, counts: *mut u16, counts_len: usize) -> u8;
}

#[derive(Clone)]
pub struct Whole {
    words: Vec<u64>,
    cells: Vec<u16>,
    partials: Vec<Record>,
    /// The Rust's table twice, so that from each of its words on a whole table is lent.
    table: Vec<u32>,
    next: usize,
}

/// Stops where a call that is timed was refused.
#[inline(always)]
pub fn done(refusal: u32) {
    assert!(refusal == 0, "a timed call is refused with {refusal}");
}

/// Made, saved and set back.
impl Whole {
    /// The picker of an image of this geometry.
    pub fn new(image: &[u8], total_size: i64, piece_size: i32) -> Whole {
        let need = unsafe { sys::pp_memory_needed(total_size, piece_size) };
        let mut whole = Whole {
            words: vec![0; need.words as usize],
            cells: vec![0; need.cells as usize],
            partials: vec![Record::default(); need.partials as usize],
            table: [WORDS, WORDS].concat(),
            next: 0,
        };
        whole.read_image(image);
        whole
    }

    /// The picker of `other`, in the buffers that are there.
    pub fn set_back(&mut self, other: &Whole) {
        self.words.copy_from_slice(&other.words);
        self.cells.copy_from_slice(&other.cells);
        self.partials.copy_from_slice(&other.partials);
        self.next = other.next;
    }

    pub fn read_image(&mut self, bytes: &[u8]) {
        let (words, cells, partials) = (&mut self.words, &mut self.cells, &mut self.partials);
        let read = unsafe {
            sys::pp_read_image(words.as_mut_ptr(), words.len(), cells.as_mut_ptr(), cells.len(), partials.as_mut_ptr(), partials.len(),
                bytes.as_ptr(), bytes.len())
        };
        done(read.refusal);
    }

    /// How many bytes were written.
    pub fn take_image(&self, bytes: &mut [u8]) -> usize {
        self.list(sys::pp_take_image, bytes).expect("bytes enough") as usize
    }
}

/// Changes.
impl Whole {
    /// One that may draw: it is lent the next words of the table.
    #[inline(always)]
    pub fn draw<A>(&mut self, call: Draw<A>, argument: A) {
        let (words, cells, partials) = (&mut self.words, &mut self.cells, &mut self.partials);
        let draws = &self.table[self.next..self.next + COUNT];
        let made = unsafe {
            call(words.as_mut_ptr(), words.len(), cells.as_mut_ptr(), cells.len(), partials.as_mut_ptr(), partials.len(), draws.as_ptr(),
                draws.len(), argument)
        };
        done(made.refusal);
        let next = self.next + made.draws as usize;
        self.next = if next < COUNT { next } else { next - COUNT };
    }

    /// The refusal.
    #[inline(always)]
    pub fn alter(&mut self, call: Alter, piece: i32) -> u32 {
        let (words, cells, partials) = (&mut self.words, &mut self.cells, &mut self.partials);
        let made = unsafe {
            call(words.as_mut_ptr(), words.len(), cells.as_mut_ptr(), cells.len(), partials.as_mut_ptr(), partials.len(), piece)
        };
        made.refusal
    }

    #[inline(always)]
    pub fn alter_all(&mut self, call: AlterAll) {
        let (words, cells, partials) = (&mut self.words, &mut self.cells, &mut self.partials);
        let made = unsafe { call(words.as_mut_ptr(), words.len(), cells.as_mut_ptr(), cells.len(), partials.as_mut_ptr(), partials.len()) };
        done(made.refusal);
    }

    /// A pick without suggestions, the table lent from its first word on.
    #[inline(always)]
    pub fn pick_pieces(&mut self, bitfield: &[u8], out: &mut [u64], request: PickRequest) -> Picked {
        let (words, cells, partials, none) = (&mut self.words, &mut self.cells, &self.partials, [0; 0]);
        unsafe {
            sys::pp_pick_pieces(words.as_mut_ptr(), words.len(), cells.as_mut_ptr(), cells.len(), partials.as_ptr(), partials.len(),
                bitfield.as_ptr(), bitfield.len(), none.as_ptr(), 0, out.as_mut_ptr(), out.len(), WORDS.as_ptr(), COUNT, request)
        }
    }
}

/// Questions, and the test.
impl Whole {
    #[inline(always)]
    pub fn ask<R>(&self, call: Ask<R>) -> R {
        let (words, cells, partials) = (&self.words, &self.cells, &self.partials);
        unsafe { call(words.as_ptr(), words.len(), cells.as_ptr(), cells.len(), partials.as_ptr(), partials.len()) }
    }

    #[inline(always)]
    pub fn ask_of<R>(&self, call: AskOf<i32, R>, piece: i32) -> R {
        let (words, cells, partials) = (&self.words, &self.cells, &self.partials);
        unsafe { call(words.as_ptr(), words.len(), cells.as_ptr(), cells.len(), partials.as_ptr(), partials.len(), piece) }
    }

    /// How many were written, or the refusal.
    #[inline(always)]
    pub fn list<T>(&self, call: AskList<T>, out: &mut [T]) -> Result<u64, u32> {
        let (words, cells, partials) = (&self.words, &self.cells, &self.partials);
        let told = unsafe {
            call(words.as_ptr(), words.len(), cells.as_ptr(), cells.len(), partials.as_ptr(), partials.len(), out.as_mut_ptr(), out.len())
        };
        if told.refusal == 0 { Ok(told.value) } else { Err(told.refusal) }
    }

    /// The memory test alone, as a call makes it: rows and counts of its own, the live records unpacked.
    #[inline(always)]
    pub fn test(&self) -> u8 {
        let (mut rows, mut counts) = ([0; ROWS], [0; ROWS]);
        let (words, cells, lent) = (&self.words, &self.cells, self.partials.len());
        // both are a record of three numbers, laid out as C does
        let records = unsafe { std::slice::from_raw_parts(self.partials.as_ptr().cast::<DownloadingPiece>(), lent) };
        unpack(words, records, &mut rows);
        let found = unsafe {
            pm_check(words.as_ptr(), words.len(), cells.as_ptr(), cells.len(), rows.as_ptr(), ROWS, lent, counts.as_mut_ptr(), ROWS)
        };
        std::hint::black_box(&counts);
        found
    }
}
