//! Every question asked of the Rust and of the linked code, and their answers compared. What lies behind an answer in a lent list has to
//! stay as it was.

use crate::calls::Calls;
use crate::lent::Lent;
use crate::linked_questions::{linked, Linked, Query, Replied};
use crate::pair::Spoilt;
use crate::rng::Rng;
use oracle::piece_picker::PiecePicker;
use oracle::questions::{reply, Asked, Question, Reply, Room, QUESTIONS};
use oracle::script::Change;
use std::collections::BTreeSet;

/// The least number of times that each question has to be asked, and that the answer is "nothing" or "stale".
const LEAST: u64 = 50_000;

/// Places that lie past every list.
const FAR: [usize; 3] = [512, 4096, i64::MAX as usize];

/// Of a torrent of at most so many blocks every piece and block is asked about after some changes.
const FEW: usize = 40;

pub struct Questions {
    /// With how often each was asked.
    all: Vec<(&'static Question, Linked, u64)>,
    nothing: u64,
    stale: u64,
    /// Lent for answers: at each place a number that no answer has there.
    out: Vec<u64>,
    column: Vec<u16>,
    rng: Rng,
    spoilt: Spoilt,
}

impl Questions {
    pub fn new(seed: u64, spoilt: Spoilt) -> Questions {
        let all = QUESTIONS.iter().map(|question| (question, linked(question.name), 0)).collect();
        let (out, column) = ((0..4096).map(untold).collect(), (0..4200).map(untold_cell).collect());
        Questions { all, nothing: 0, stale: 0, out, column, rng: Rng::new(seed), spoilt }
    }

    /// Asks every question after a change: those of a piece or block of the one that was changed and of others.
    pub fn ask(&mut self, rust: &PiecePicker, lent: &Lent, calls: &Calls, change: &Change) -> Result<(), String> {
        let blocks = self.blocks(lent, calls, change);
        let pieces = blocks.iter().map(|at| at.0).collect::<BTreeSet<_>>();
        for k in 0..self.all.len() {
            match self.all[k].0.asked {
                Asked::Picker(_) => self.one(k, rust, lent, (0, 0))?,
                Asked::Piece(_) => pieces.iter().try_for_each(|i| self.one(k, rust, lent, (*i, 0)))?,
                Asked::Block(_) => blocks.iter().try_for_each(|at| self.one(k, rust, lent, *at))?,
                Asked::Place(_) => {
                    let live = lent.live();
                    let places = [self.rng.place(live + 1), self.rng.place(6), live, self.rng.of(&FAR)];
                    places.iter().try_for_each(|place| self.one(k, rust, lent, (*place, 0)))?;
                }
                Asked::ListPlace => self.list_places(k, rust, lent)?,
            }
        }
        Ok(())
    }

    /// Pieces with their blocks to ask about.
    fn blocks(&mut self, lent: &Lent, calls: &Calls, change: &Change) -> Vec<(usize, usize)> {
        let s = lent.shape();
        if s.n * s.b <= FEW && self.rng.percent(10) {
            return (0..s.n).flat_map(|i| (0..s.blocks_in_piece(&lent.words, i)).map(move |j| (i, j))).collect();
        }
        let i = calls.piece(&mut self.rng, lent);
        let j = calls.block(&mut self.rng, lent, i);
        touched(change).into_iter().chain([(i, j)]).collect()
    }

    /// Two places of the list. Past its end the Rust has no answer, and the definition says nothing.
    fn list_places(&mut self, k: usize, rust: &PiecePicker, lent: &Lent) -> Result<(), String> {
        let listed = rust.list().len();
        if lent.is_dirty() || listed > 0 {
            let place = self.rng.place(listed.max(1));
            self.one(k, rust, lent, (place, 0))?;
            self.one(k, rust, lent, (listed.max(1) - 1, 0))?;
        }
        if lent.is_dirty() {
            return Ok(());
        }
        for place in [listed, listed + 1, listed + self.rng.place(5000)] {
            let found = (self.all[k].1)(&mut query(lent, (place, 0), &mut [], &mut [])).reply;
            if found != Reply::Nothing {
                return Err(format!("place {place} behind a list of {listed} is answered {found:?}"));
            }
        }
        Ok(())
    }

    /// One question of both.
    fn one(&mut self, k: usize, rust: &PiecePicker, lent: &Lent, at: (usize, usize)) -> Result<(), String> {
        let (question, ask, asked) = &mut self.all[k];
        *asked += 1;
        let more = self.rng.place(4);
        let [words, cells] = question.room.as_ref().map_or([0, 0], |room| room_for(room, lent, more));
        let due = reply(rust, question, at.0 as i64, at.1 as i64);
        let (out, column) = (&mut self.out[..words], &mut self.column[..cells]);
        let Replied { reply: mut found, written } = ask(&mut query(lent, at, out, column));
        match self.spoilt {
            Spoilt::Reply => found = Reply::Nothing,
            Spoilt::Behind => column.last_mut().into_iter().for_each(|cell| *cell ^= 1),
            _ => {}
        }
        let name = question.name;
        if found != due {
            return Err(format!("{name} of {at:?} is answered {found:?} where {due:?} is due"));
        }
        if (written..words).any(|place| out[place] != untold(place)) || (written..cells).any(|place| column[place] != untold_cell(place)) {
            return Err(format!("{name} of {at:?} moved what lies behind the {written} places of its answer"));
        }
        out.iter_mut().take(written).enumerate().for_each(|(place, word)| *word = untold(place));
        column.iter_mut().take(written).enumerate().for_each(|(place, cell)| *cell = untold_cell(place));
        self.nothing += u64::from(due == Reply::Nothing);
        self.stale += u64::from(due == Reply::Stale);
        Ok(())
    }

    /// How often each was asked; an error where one was too seldom.
    pub fn told(&self) -> Result<u64, String> {
        for (question, _, asked) in &self.all {
            at_least(question.name, *asked, LEAST)?;
        }
        at_least("nothing", self.nothing, LEAST)?;
        at_least("stale", self.stale, LEAST)?;
        Ok(self.all.iter().map(|(_, _, asked)| asked).sum())
    }
}

fn at_least(what: &str, many: u64, least: u64) -> Result<(), String> {
    if many < least {
        return Err(format!("{many} times {what}, fewer than {least}"));
    }
    Ok(())
}

/// A number that is told of no piece, block or partial.
fn untold(place: usize) -> u64 {
    (1 << 63) + ((place as u64) << 32) + 77
}

fn untold_cell(place: usize) -> u16 {
    60_000 + (place % 5000) as u16
}

/// Words and cells lent for an answer: as many as it may need, and some more.
fn room_for(room: &Room, lent: &Lent, more: usize) -> [usize; 2] {
    let g = lent.geometry();
    match room {
        Room::Pieces => [0, g.pieces + more],
        Room::Partials => [7 * g.places + more, 0],
        Room::BlocksPerPiece => [4 * g.blocks + more, 0],
    }
}

fn query<'a>(lent: &'a Lent, at: (usize, usize), out: &'a mut [u64], column: &'a mut [u16]) -> Query<'a> {
    let Lent { words, cells, rows, counts, .. } = lent;
    let (live, g) = (lent.live(), lent.geometry());
    Query { words, cells, rows, live, counts, g, i: at.0, j: at.1, k: at.0, out, column }
}

/// The piece and block that a change names.
fn touched(change: &Change) -> Option<(usize, usize)> {
    match *change {
        Change::IncRefcountAll | Change::DecRefcountAll => None,
        Change::IncRefcount { piece }
        | Change::DecRefcount { piece }
        | Change::SetPiecePriority { piece, .. }
        | Change::LockPiece { piece }
        | Change::PiecePassed { piece } => Some((piece as usize, 0)),
        Change::MarkAsDownloading { piece, block, .. }
        | Change::MarkAsWriting { piece, block, .. }
        | Change::MarkAsFinished { piece, block, .. }
        | Change::MarkAsCanceled { piece, block, .. }
        | Change::AbortDownload { piece, block, .. } => Some((piece as usize, block as usize)),
    }
}
