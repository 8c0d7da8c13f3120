//! The changes of `harness/whole_bench`: cycles of calls that end where they began, and courses that are set back after each round.

use crate::sizes::{At, Size};
use crate::timing::each;
use crate::whole_picker::{done, Whole};
use crate::{Lines, Times};
use bitdaemon_common::random::{self, Made, Words};
use bitdaemon_common::{DownloadPriority, PieceBlock, PieceIndex};
use oracle::image::{Block, Fields};
use oracle::piece_picker::{PickerOptions, PiecePicker};
use piece_picker::sys::{self, NamedBlock, Priority, Request};
use std::hint::black_box;

/// Rounds of a cycle, and of a course.
const ROUNDS: usize = 400;
const COURSES: usize = 100;
const PEER: Option<u64> = Some(2);
/// The table from its start, for the Rust.
const ANY: Words = Words { count: 0, made: Made::Seeded(0) };

/// A call on a piece, on both sides.
struct Call {
    name: &'static str,
    whole: fn(&mut Whole, i32),
    rust: fn(&mut PiecePicker, PieceIndex),
}

fn of_block(piece: i32, block: i32) -> NamedBlock {
    NamedBlock { piece, block, peer: 2, has_peer: 1 }
}

fn asked(piece: i32, block: i32) -> Request {
    Request { piece, block, peer: 2, has_peer: 1, options: 0 }
}

fn block(piece_index: PieceIndex, block_index: i32) -> PieceBlock {
    PieceBlock { piece_index, block_index }
}

/// Calls by name and both sides: `w` or `r` is the picker, `i` the piece.
macro_rules! calls {
    ($($group:ident: $(($name:expr, |$w:ident, $i:ident| $whole:expr, |$r:ident, $at:ident| $rust:expr))*;)*) => { $(
        const $group: &[Call] = &[$(Call {
            name: $name,
            whole: |$w, $i| { black_box(($whole, $i)); },
            rust: |$r, $at| { black_box(($rust, $at)); },
        }),*];
    )* };
}

// block 1 of a partial is free, and an Open piece is opened by its block 0
calls! {
    COUNTED: ("inc_refcount", |w, i| w.draw(sys::pp_inc_refcount, i), |r, i| r.inc_refcount(i))
        ("dec_refcount", |w, i| w.draw(sys::pp_dec_refcount, i), |r, i| r.dec_refcount(i));
    SEEDED: ("inc_refcount_all", |w, i| w.alter_all(sys::pp_inc_refcount_all), |r, i| r.inc_refcount_all())
        ("dec_refcount_all", |w, i| w.alter_all(sys::pp_dec_refcount_all), |r, i| r.dec_refcount_all());
    WISHED: ("set_piece_priority, to 0", |w, i| w.draw(sys::pp_set_piece_priority, Priority { piece: i, priority: 0 }),
            |r, i| r.set_piece_priority(i, DownloadPriority::DONT_DOWNLOAD))
        ("set_piece_priority, from 0", |w, i| w.draw(sys::pp_set_piece_priority, Priority { piece: i, priority: 4 }),
            |r, i| r.set_piece_priority(i, DownloadPriority::DEFAULT));
    ASKED: ("mark_as_downloading, of a partial", |w, i| w.draw(sys::pp_mark_as_downloading, asked(i, 1)),
            |r, i| r.mark_as_downloading(block(i, 1), PEER, PickerOptions::NONE))
        ("abort_download, of a partial", |w, i| w.draw(sys::pp_abort_download, of_block(i, 1)),
            |r, i| r.abort_download(block(i, 1), PEER));
    OPENED: ("mark_as_downloading, opening", |w, i| w.draw(sys::pp_mark_as_downloading, asked(i, 0)),
            |r, i| r.mark_as_downloading(block(i, 0), PEER, PickerOptions::NONE))
        ("abort_download, closing", |w, i| w.draw(sys::pp_abort_download, of_block(i, 0)),
            |r, i| r.abort_download(block(i, 0), PEER));
    WRITTEN: ("mark_as_downloading, of a partial", |w, i| w.draw(sys::pp_mark_as_downloading, asked(i, 1)),
            |r, i| r.mark_as_downloading(block(i, 1), PEER, PickerOptions::NONE))
        ("mark_as_writing", |w, i| w.draw(sys::pp_mark_as_writing, of_block(i, 1)),
            |r, i| r.mark_as_writing(block(i, 1), PEER))
        ("mark_as_canceled", |w, i| w.draw(sys::pp_mark_as_canceled, of_block(i, 1)),
            |r, i| r.mark_as_canceled(block(i, 1), PEER));
    LOCKED: ("lock_piece", |w, i| done(w.alter(sys::pp_lock_piece, i)), |r, i| r.lock_piece(i));
    BROUGHT: ("mark_as_writing", |w, i| w.draw(sys::pp_mark_as_writing, of_block(i, 0)),
            |r, i| r.mark_as_writing(block(i, 0), PEER))
        ("mark_as_finished", |w, i| w.draw(sys::pp_mark_as_finished, of_block(i, 0)),
            |r, i| r.mark_as_finished(block(i, 0), PEER));
    COMPLETED: ("mark_as_writing, the last block", |w, i| w.draw(sys::pp_mark_as_writing, of_block(i, 0)),
            |r, i| r.mark_as_writing(block(i, 0), PEER))
        ("mark_as_finished, the last block", |w, i| w.draw(sys::pp_mark_as_finished, of_block(i, 0)),
            |r, i| r.mark_as_finished(block(i, 0), PEER))
        ("piece_passed", |w, i| done(w.alter(sys::pp_piece_passed, i)), |r, i| r.piece_passed(i));
}

/// The same picker on both sides.
struct Sides {
    whole: Whole,
    rust: PiecePicker,
}

impl Sides {
    fn new(fields: &Fields) -> Sides {
        let geometry = &fields.head.geometry;
        let rust = PiecePicker::from_fields(fields);
        let whole = Whole::new(&rust.image(), geometry.total, geometry.piece_size as i32);
        random::lend(&ANY);
        Sides { whole, rust }
    }

    /// As they were; what the calls are timed on has been looked at.
    fn set_back(&mut self, whole: &Whole, rust: &PiecePicker, pieces: &[usize]) {
        self.whole.set_back(whole);
        self.rust = rust.clone();
        random::lend(&ANY);
        black_box(self.whole.test());
        for i in pieces {
            black_box(self.rust.is_requested(block(PieceIndex(*i as i32), 0)));
        }
    }

    /// The test alone, and as it is linked by itself.
    fn tests(&mut self, pieces: &[usize]) -> [f64; 2] {
        let test = each(pieces, |_| { black_box(self.whole.alter(sys::pp_lock_piece, -1)); });
        let linked = each(pieces, |_| { black_box(self.whole.test()); });
        [test, linked]
    }

    /// A turn of each. Calls may open and close partials, so the test is that before them and that behind them, halved.
    fn turn(&mut self, call: &Call, pieces: &[usize]) -> Times {
        let before = self.tests(pieces);
        let whole = each(pieces, |i| (call.whole)(&mut self.whole, i as i32));
        let rust = each(pieces, |i| (call.rust)(&mut self.rust, PieceIndex(i as i32)));
        let behind = self.tests(pieces);
        let [test, linked] = [0, 1].map(|k| (before[k] + behind[k]) / 2.0);
        [whole, rust, test, linked]
    }

    /// Both made the same.
    fn check(&mut self) {
        let due = self.rust.image();
        let mut found = vec![0; due.len() + 1];
        let length = self.whole.take_image(&mut found);
        assert!(found[..length] == due[..], "the two sides part");
    }
}

fn round(sides: &mut Sides, calls: &[Call], pieces: &[usize], lines: &mut Lines) {
    for call in calls {
        lines.put(call.name, sides.turn(call, pieces));
    }
}

fn cycle(fields: &Fields, calls: &[Call], pieces: &[usize], lines: &mut Lines) {
    let mut sides = Sides::new(fields);
    for _ in 0..ROUNDS {
        round(&mut sides, calls, pieces, lines);
    }
    sides.check();
}

fn course(fields: &Fields, calls: &[Call], pieces: &[usize], lines: &mut Lines) {
    let Sides { whole, rust } = Sides::new(fields);
    let mut sides = Sides { whole: whole.clone(), rust: rust.clone() };
    for _ in 0..COURSES {
        sides.set_back(&whole, &rust, pieces);
        round(&mut sides, calls, pieces, lines);
    }
    sides.check();
}

/// One seed, so that one more does not make the list stale.
fn with_a_seed(mut fields: Fields) -> Fields {
    fields.head.seeds = 1;
    fields
}

/// The partials of these pieces lack one block, which is requested.
fn but_one_on_disk(size: Size, pieces: &[At]) -> Fields {
    let mut fields = with_a_seed(size.fields(pieces));
    for at in pieces {
        fields.pieces[at.piece].state = 1;
        fields.partials[at.row].blocks[0] = Block { state: 1, requesters: 1, peer: Some(1) };
    }
    fields
}

fn pieces_of(at: &[At]) -> Vec<usize> {
    at.iter().map(|at| at.piece).collect()
}

/// Every change. Where no piece is Open, counts and priorities are those of pieces with a partial, and none is opened.
pub fn all(size: Size, lines: &mut Lines) {
    let fields = with_a_seed(size.fields(&[]));
    let (open, begun) = (pieces_of(&size.open_pieces()), pieces_of(&size.begun_pieces()));
    let listed = if open.is_empty() { &begun } else { &open };
    for calls in [COUNTED, SEEDED, WISHED] {
        cycle(&fields, calls, listed, lines);
    }
    if !open.is_empty() {
        cycle(&fields, OPENED, &open, lines);
    }
    for calls in [ASKED, WRITTEN, LOCKED] {
        cycle(&fields, calls, &begun, lines);
    }
    course(&fields, BROUGHT, &begun, lines);
    course(&but_one_on_disk(size, &size.begun_pieces()), COMPLETED, &begun, lines);
}
