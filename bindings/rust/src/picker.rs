//! A picker with the memory that it stands in: made, saved, set back, and lent to the calls.

use crate::sys::{self, Record};
use crate::{Draws, PieceIndex, Refusal};
use std::fmt;

/// A piece picker that owns its three buffers. They hold a well-formed picker from the first to the last: no call leaves anything else.
#[derive(Clone)]
pub struct PiecePicker {
    pub(crate) words: Vec<u64>,
    pub(crate) cells: Vec<u16>,
    pub(crate) partials: Vec<Record>,
}

impl PiecePicker {
    /// A picker of `total_size` bytes in pieces of `piece_size`: no peers, nothing had, every priority the default.
    ///
    /// Refused with 1.
    pub fn new(total_size: i64, piece_size: i32) -> Result<Self, Refusal> {
        let mut picker = Self::with_room_for(total_size, piece_size);
        let (words, cells, partials) = (&mut picker.words, &mut picker.cells, &mut picker.partials);
        let answer = unsafe {
            sys::pp_new(words.as_mut_ptr(), words.len(), cells.as_mut_ptr(), cells.len(), partials.as_mut_ptr(), partials.len(),
                total_size, piece_size)
        };
        Refusal::check(answer.refusal, answer.place)?;
        Ok(picker)
    }

    /// The picker of an image that was taken before.
    ///
    /// Refused with 13 where the bytes are no image.
    pub fn from_image(bytes: &[u8]) -> Result<Self, Refusal> {
        let (total_size, piece_size) = geometry_of(bytes);
        let mut picker = Self::with_room_for(total_size, piece_size);
        picker.read_image(bytes)?;
        Ok(picker)
    }

    /// Sets this picker back to an image, in the memory that it has. Refused, it stays as it is.
    ///
    /// Refused with 13 where the bytes are no image, and with 2 where its picker needs more memory than this one has.
    pub fn read_image(&mut self, bytes: &[u8]) -> Result<(), Refusal> {
        let (words, cells, partials) = (&mut self.words, &mut self.cells, &mut self.partials);
        let answer = unsafe {
            sys::pp_read_image(words.as_mut_ptr(), words.len(), cells.as_mut_ptr(), cells.len(), partials.as_mut_ptr(), partials.len(),
                bytes.as_ptr(), bytes.len())
        };
        Refusal::check(answer.refusal, answer.place)
    }

    /// The whole state as bytes. Two pickers have equal images exactly when they answer alike in every later list of calls.
    pub fn image(&self) -> Result<Vec<u8>, Refusal> {
        let largest = unsafe { sys::pp_image_needed(self.total_size()?, self.full_piece_size()?) };
        let mut bytes = vec![0; largest as usize];
        let (words, cells, partials) = (&self.words, &self.cells, &self.partials);
        let answer = unsafe {
            sys::pp_take_image(words.as_ptr(), words.len(), cells.as_ptr(), cells.len(), partials.as_ptr(), partials.len(),
                bytes.as_mut_ptr(), bytes.len())
        };
        Refusal::check(answer.refusal, answer.place)?;
        bytes.truncate(answer.value as usize);
        Ok(bytes)
    }

    /// A picker that stands in these buffers, as another part of a program left it.
    ///
    /// Refused with 2 or 3, and the buffers are gone with it.
    pub fn from_buffers(words: Vec<u64>, cells: Vec<u16>, partials: Vec<Record>) -> Result<Self, Refusal> {
        let picker = Self { words, cells, partials };
        picker.num_pieces()?;
        Ok(picker)
    }

    /// The three buffers, to be lent to the exports by hand.
    #[must_use]
    pub fn into_buffers(self) -> (Vec<u64>, Vec<u16>, Vec<Record>) {
        (self.words, self.cells, self.partials)
    }

    /// Buffers of zeros as long as this geometry needs; empty ones where it is not valid.
    fn with_room_for(total_size: i64, piece_size: i32) -> Self {
        let needs = unsafe { sys::pp_memory_needed(total_size, piece_size) };
        Self {
            words: vec![0; needs.words as usize],
            cells: vec![0; needs.cells as usize],
            partials: vec![Record::default(); needs.partials as usize],
        }
    }

    /// A question of the picker. `call` is one of the exports.
    pub(crate) fn ask<R>(&self, call: sys::Ask<R>) -> R {
        let (words, cells, partials) = (&self.words, &self.cells, &self.partials);
        unsafe { call(words.as_ptr(), words.len(), cells.as_ptr(), cells.len(), partials.as_ptr(), partials.len()) }
    }

    /// A question with an argument.
    pub(crate) fn ask_of<A, R>(&self, call: sys::AskOf<A, R>, argument: A) -> R {
        let (words, cells, partials) = (&self.words, &self.cells, &self.partials);
        unsafe { call(words.as_ptr(), words.len(), cells.as_ptr(), cells.len(), partials.as_ptr(), partials.len(), argument) }
    }

    /// A change of the whole picker.
    pub(crate) fn change_all(&mut self, call: sys::AlterAll) -> Result<(), Refusal> {
        let (words, cells, partials) = (&mut self.words, &mut self.cells, &mut self.partials);
        let answer =
            unsafe { call(words.as_mut_ptr(), words.len(), cells.as_mut_ptr(), cells.len(), partials.as_mut_ptr(), partials.len()) };
        Refusal::check(answer.refusal, answer.place)
    }

    /// A change of a piece that draws nothing.
    pub(crate) fn change_piece(&mut self, call: sys::Alter, piece: PieceIndex) -> Result<(), Refusal> {
        let (words, cells, partials) = (&mut self.words, &mut self.cells, &mut self.partials);
        let answer = unsafe {
            call(words.as_mut_ptr(), words.len(), cells.as_mut_ptr(), cells.len(), partials.as_mut_ptr(), partials.len(), piece.0)
        };
        Refusal::check(answer.refusal, answer.place)
    }

    /// A change that may draw; true where it answers 1.
    pub(crate) fn draw<A>(&mut self, call: sys::Draw<A>, draws: &mut Draws, argument: A) -> Result<bool, Refusal> {
        let (words, cells, partials) = (&mut self.words, &mut self.cells, &mut self.partials);
        let lent = draws.lend();
        let answer = unsafe {
            call(words.as_mut_ptr(), words.len(), cells.as_mut_ptr(), cells.len(), partials.as_mut_ptr(), partials.len(), lent.as_ptr(),
                lent.len(), argument)
        };
        Refusal::check(answer.refusal, answer.place)?;
        draws.spend(answer.draws);
        Ok(answer.kind == sys::NUMBER && answer.value == 1)
    }
}

/// Total and piece size by an image's head, or 0 each. Whether it is one is judged by the reading call, before it asks for memory.
fn geometry_of(bytes: &[u8]) -> (i64, i32) {
    let total = bytes.get(1..9).and_then(|field| field.try_into().ok()).map(i64::from_be_bytes);
    let size = bytes.get(9..13).and_then(|field| field.try_into().ok()).map(i32::from_be_bytes);
    (total.unwrap_or(0), size.unwrap_or(0))
}

impl PartialEq for PiecePicker {
    /// Equal images: the same answers to every later list of calls.
    fn eq(&self, other: &Self) -> bool {
        matches!((self.image(), other.image()), (Ok(ours), Ok(theirs)) if ours == theirs)
    }
}

impl fmt::Debug for PiecePicker {
    fn fmt(&self, f: &mut fmt::Formatter<'_>) -> fmt::Result {
        f.debug_struct("PiecePicker")
            .field("total_size", &self.total_size())
            .field("piece_size", &self.full_piece_size())
            .field("num_have", &self.num_have())
            .finish_non_exhaustive()
    }
}
