//! The Rust's picker and the same one in lent memory, led through the same calls and compared after each: answer and draws; what the
//! memory test says of the buffers; the whole image, byte for byte, and so blocks, cursors, extents, list and flags; that nothing beyond
//! the needs moved.

use crate::draws::words;
use crate::lent::Lent;
use crate::linked_changes::Outcome;
use crate::list_operations::update_pieces;
use crate::rng::Rng;
use bitdaemon_common::{random, Bitfield};
use oracle::image::Fields;
use oracle::outcome::Answer;
use oracle::piece_picker::{NullPickerStats, PickerOptions, PiecePicker};
use oracle::script::Change;
use oracle::{changes, image, judge};
use std::rc::Rc;

/// One compared value made wrong, to see that the comparison finds it.
#[derive(Clone, Copy, PartialEq)]
pub enum Spoilt {
    Nothing,
    Answer,
    Draws,
    Edit,
    Cell,
    Word,
    Record,
    Beyond,
    /// Of a question: its answer, or what lies behind it.
    Reply,
    Behind,
}

pub struct Pair {
    pub rust: PiecePicker,
    pub lent: Lent,
}

/// What a change did, where both sides agree.
pub struct Made {
    pub answer: Option<bool>,
    pub used: usize,
    /// 0 none, 1 a record replaced, 2 one put in, 3 one taken out.
    pub edit: u32,
    pub differences: Vec<&'static str>,
}

impl Pair {
    /// Both from these fields.
    pub fn new(rng: &mut Rng, fields: &Fields) -> Result<Pair, String> {
        let rust = PiecePicker::from_fields(fields);
        if let Err(place) = image::read(&rust.image()) {
            return Err(format!("no picker to start from: a fault at {place}"));
        }
        let mut pair = Pair { rust, lent: Lent::laid_out(rng, fields) };
        pair.compare()?;
        Ok(pair)
    }

    /// Makes a change on both sides; None where the table refuses it.
    pub fn change(&mut self, change: &Change, draws: &Rc<[u32]>, spoilt: Spoilt) -> Result<Option<Made>, String> {
        if judge::change(&self.rust, change).is_err() {
            return Ok(None);
        }
        let mut differences = Vec::new();
        random::lend(&words(draws));
        let answer = truth(&changes::carry_out(&mut self.rust, change, &mut differences));
        let used = random::used();
        let live = self.lent.live();
        let mut found = self.lent.tested().carry_out(change, draws);
        self.spoil(&mut found, spoilt);
        if answer.is_some_and(|answer| answer != found.answer) {
            return Err(format!("the answer is {} where {answer:?} is due", found.answer));
        }
        if found.used as u64 != used {
            return Err(format!("{} draws where {used} are due", found.used));
        }
        if !found.edit(&mut self.lent.partials, live) {
            return Err(format!("an edit of kind {} that does not fit the records", found.kind));
        }
        self.compare()?;
        Ok(Some(Made { answer, used: found.used, edit: found.kind, differences }))
    }

    /// Makes a dirty list anew on both sides: the Rust by a pick that finds nothing. Answers whether it was dirty.
    pub fn rebuild(&mut self, draws: &Rc<[u32]>) -> Result<bool, String> {
        if !self.lent.is_dirty() {
            return Ok(false);
        }
        let (none, mut out) = (Bitfield::with_size(self.lent.shape().n), Vec::new());
        random::lend(&words(draws));
        self.rust.pick_pieces(&none, &mut out, 1, 0, None, PickerOptions::RAREST_FIRST, &[], 1000, &mut NullPickerStats);
        let g = self.lent.geometry();
        let used = update_pieces(&mut self.lent.words, &self.lent.cells, g, draws);
        if used as u64 != random::used() {
            return Err(format!("{used} draws where {} are due", random::used()));
        }
        self.compare()?;
        Ok(true)
    }

    fn spoil(&mut self, found: &mut Outcome, spoilt: Spoilt) {
        let lent = &mut self.lent;
        match spoilt {
            Spoilt::Nothing | Spoilt::Reply | Spoilt::Behind => {}
            Spoilt::Answer => found.answer = !found.answer,
            Spoilt::Draws => found.used += 1,
            Spoilt::Edit => found.kind = (found.kind + 1) % 4,
            Spoilt::Cell => lent.cells[0] ^= 1,
            Spoilt::Word => lent.words[3] ^= 1,
            Spoilt::Record => lent.partials[0].flags ^= 1,
            Spoilt::Beyond => *lent.cells.last_mut().expect("cells") ^= 1,
        }
    }

    pub fn compare(&mut self) -> Result<(), String> {
        let refusal = self.lent.test();
        if refusal != 0 {
            return Err(format!("the memory test refuses the buffers with {refusal}"));
        }
        if !self.lent.beyond_untouched() {
            return Err("something beyond the needs moved".into());
        }
        let (due, found) = (self.rust.image(), self.lent.image());
        if due == found {
            return Ok(());
        }
        let at = due.iter().zip(&found).take_while(|(x, y)| x == y).count();
        Err(format!("images of {} bytes and, from the lent memory, {} part at byte {at}", due.len(), found.len()))
    }
}

fn truth(answer: &Answer) -> Option<bool> {
    match answer {
        Answer::Numbers(numbers) => Some(numbers[..] == [1]),
        _ => None,
    }
}
