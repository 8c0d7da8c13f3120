//! A call of docs/CALLS.md made by the exports on lent buffers: what it answers as the line of that paper, and which places of the output
//! that was lent to it are its answer's.

use crate::draws::listed;
use crate::exports::{ask, width, Answer, Buffers, Change as Changed, NamedBlock, PickRequest, Picked, Priority, Request, Room};
use crate::rng::Rng;
use bitdaemon_common::random::{Made as Words, Words as Draws};
use oracle::questions::{Question, Reply};
use oracle::script::{Call, Change, Lent, Memory, Pick, What};
use std::borrow::Cow;
use std::fmt::Write;
use std::ops::Range;
use std::rc::Rc;

/// Words, cells and bytes that can be lent for an answer, with some behind them that never are.
const MOST: [usize; 3] = [8192, 4200, 1 << 21];
const BEHIND: usize = 4;

/// What a call answered.
pub struct Made {
    pub refusal: u32,
    pub place: u64,
    /// The line where it is not refused.
    pub answer: String,
    pub lent: Kind,
    /// So many places were lent, of which these were written.
    pub places: usize,
    pub written: Range<usize>,
}

/// Which output is lent.
#[derive(Clone, Copy, PartialEq)]
pub enum Kind {
    Words,
    Cells,
    Bytes,
}

impl Made {
    fn new(refusal: u32, place: u64, answer: String) -> Made {
        Made { refusal, place, answer, lent: Kind::Words, places: 0, written: 0..0 }
    }

    /// The line of the outcome. Only 13 has a place.
    pub fn line(&self) -> String {
        match (self.refusal, self.place) {
            (0, 0) => self.answer.clone(),
            (0, place) => format!("{} at {place}", self.answer),
            (13, place) => format!("refused 13 {place}"),
            (refusal, 0) => format!("refused {refusal}"),
            (refusal, place) => format!("refused {refusal} {place}"),
        }
    }
}

/// Lent for answers: at each place a number that is told of no piece, block or partial.
pub struct Output {
    words: Vec<u64>,
    cells: Vec<u16>,
    bytes: Vec<u8>,
}

fn untold(place: usize) -> u64 {
    (1 << 63) + ((place as u64) << 32) + 77
}

fn untold_cell(place: usize) -> u16 {
    60_000 + (place % 5000) as u16
}

fn untold_byte(place: usize) -> u8 {
    (place * 37 + place / 251 + 11) as u8
}

/// Whether the places from 0 on are as before but for those written, which are made so.
fn restored<T: PartialEq>(row: &mut [T], written: &Range<usize>, untold: fn(usize) -> T) -> bool {
    let stay = (0..row.len()).all(|k| written.contains(&k) || row[k] == untold(k));
    written.clone().for_each(|k| row[k] = untold(k));
    stay
}

impl Output {
    pub fn new() -> Output {
        let [words, cells, bytes] = MOST.map(|most| 0..most + BEHIND);
        Output { words: words.map(untold).collect(), cells: cells.map(untold_cell).collect(), bytes: bytes.map(untold_byte).collect() }
    }

    /// Whether nothing moved but what the call wrote, some places behind those lent included. Then all is as before again.
    pub fn kept(&mut self, made: &Made) -> bool {
        let all = made.places + BEHIND;
        match made.lent {
            Kind::Words => restored(&mut self.words[..all], &made.written, untold),
            Kind::Cells => restored(&mut self.cells[..all], &made.written, untold_cell),
            Kind::Bytes => restored(&mut self.bytes[..all], &made.written, untold_byte),
        }
    }

    /// Changes a place behind those lent.
    pub fn spoil(&mut self, made: &Made) {
        match made.lent {
            Kind::Words => self.words[made.places] ^= 1,
            Kind::Cells => self.cells[made.places] ^= 1,
            Kind::Bytes => self.bytes[made.places] ^= 1,
        }
    }
}

/// A call without draws that is lent memory enough, and this room for an image.
pub fn plain(what: What, room: usize) -> Call {
    let draws = Draws { count: 0, made: Words::Listed(Rc::new([])) };
    Call { line: 0, what, lent: Lent { memory: Memory::default(), room: Some(room as u64), draws, free: 0 } }
}

/// The call's name; a change's as the oracle has it.
pub fn name_of(what: &What) -> String {
    match what {
        What::Zero => "zero".into(),
        What::New { .. } => "new".into(),
        What::Read(_) => "read_image".into(),
        What::Image => "take_image".into(),
        What::Pick(_) => "pick_pieces".into(),
        What::Change(change) => format!("{change:?}").split(' ').next().unwrap_or("").into(),
        What::Question(question, ..) => question.name.into(),
    }
}

/// The answer that gives an image.
pub fn shown_image(bytes: &[u8]) -> String {
    const DIGITS: &[u8; 16] = b"0123456789abcdef";
    let pairs = bytes.iter().flat_map(|byte| [DIGITS[usize::from(byte >> 4)], DIGITS[usize::from(byte & 15)]]);
    String::from("bytes ") + &pairs.map(char::from).collect::<String>()
}

/// Makes the call.
pub fn make(buffers: &mut Buffers, call: &Call, output: &mut Output, rng: &mut Rng) -> Made {
    match &call.what {
        What::Zero => panic!("no call of the picker"),
        What::New { total, piece_size } => done(buffers.pp_new(*total, *piece_size as i32)),
        What::Read(bytes) => done(buffers.pp_read_image(bytes.as_ptr(), bytes.len())),
        What::Image => take_image(buffers, room(&call.lent), output),
        What::Change(change) => {
            let draws = lent_words(&call.lent.draws);
            changed(carry_out(buffers, change, &draws, rng), call.what.may_draw())
        }
        What::Pick(pick) => pick_pieces(buffers, pick, &call.lent, output, rng),
        What::Question(question, first, second) => {
            let more = rng.place(width(question.name).max(1));
            asked(buffers, question, [*first as i32, *second as i32], room(&call.lent), more, output)
        }
    }
}

/// The places lent for an answer, as far as there are any to lend.
fn room(lent: &Lent) -> usize {
    lent.room.unwrap_or(0).min(MOST[2] as u64) as usize
}

fn done(answer: Answer) -> Made {
    let shown = if answer.kind == 0 { "done".into() } else { format!("kind {}", answer.kind) };
    Made::new(answer.refusal, answer.place, shown)
}

fn take_image(buffers: &mut Buffers, room: usize, output: &mut Output) -> Made {
    let answer = buffers.pp_take_image(output.bytes.as_mut_ptr(), room);
    let many = if answer.refusal == 0 && answer.kind == 1 { (answer.value as usize).min(room) } else { 0 };
    let shown = shown_image(&output.bytes[..many]);
    Made { lent: Kind::Bytes, places: room, written: 0..many, ..Made::new(answer.refusal, answer.place, shown) }
}

/// The words lent to draw from.
fn lent_words(draws: &Draws) -> Cow<'_, [u32]> {
    match &draws.made {
        Words::Listed(words) if words.len() as u64 >= draws.count => Cow::Borrowed(&words[..draws.count as usize]),
        _ => Cow::Owned(listed(draws).to_vec()),
    }
}

/// A peer and its flag: any number but 0 says that there is one, and what is lent beside no peer means nothing.
fn named(peer: Option<u64>, rng: &mut Rng) -> (u64, u32) {
    let some = rng.of(&[1, 1, 2, 256, 65536, u32::MAX]);
    peer.map_or((rng.of(&[0, 7, u64::MAX]), 0), |peer| (peer, some))
}

fn named_block(piece: i64, block: i64, peer: Option<u64>, rng: &mut Rng) -> NamedBlock {
    let (peer, has_peer) = named(peer, rng);
    NamedBlock { piece: piece as i32, block: block as i32, peer, has_peer }
}

fn carry_out(buffers: &mut Buffers, change: &Change, draws: &[u32], rng: &mut Rng) -> Changed {
    let (drawn, many) = (draws.as_ptr(), draws.len());
    match *change {
        Change::IncRefcount { piece } => buffers.pp_inc_refcount(drawn, many, piece as i32),
        Change::DecRefcount { piece } => buffers.pp_dec_refcount(drawn, many, piece as i32),
        Change::IncRefcountAll => buffers.pp_inc_refcount_all(),
        Change::DecRefcountAll => buffers.pp_dec_refcount_all(),
        Change::SetPiecePriority { piece, wish } => {
            buffers.pp_set_piece_priority(drawn, many, Priority { piece: piece as i32, priority: wish as u8 })
        }
        Change::MarkAsDownloading { piece, block, peer, options } => {
            let NamedBlock { piece, block, peer, has_peer } = named_block(piece, block, peer, rng);
            buffers.pp_mark_as_downloading(drawn, many, Request { piece, block, peer, has_peer, options })
        }
        Change::MarkAsWriting { piece, block, peer } => buffers.pp_mark_as_writing(drawn, many, named_block(piece, block, peer, rng)),
        Change::MarkAsFinished { piece, block, peer } => buffers.pp_mark_as_finished(drawn, many, named_block(piece, block, peer, rng)),
        Change::MarkAsCanceled { piece, block, peer } => buffers.pp_mark_as_canceled(drawn, many, named_block(piece, block, peer, rng)),
        Change::AbortDownload { piece, block, peer } => buffers.pp_abort_download(drawn, many, named_block(piece, block, peer, rng)),
        Change::LockPiece { piece } => buffers.pp_lock_piece(piece as i32),
        Change::PiecePassed { piece } => buffers.pp_piece_passed(piece as i32),
    }
}

fn changed(change: Changed, may_draw: bool) -> Made {
    let mut shown = match change.kind {
        0 => String::from("done"),
        1 => format!("answer {}", change.value),
        kind => format!("kind {kind}"),
    };
    if may_draw || change.draws != 0 {
        write!(shown, " draws {}", change.draws).expect("room");
    }
    Made::new(change.refusal, change.place, shown)
}

/// Some output from before the pick, and sometimes an end past the last place where no place is free.
fn pick_pieces(buffers: &mut Buffers, pick: &Pick, lent: &Lent, output: &mut Output, rng: &mut Rng) -> Made {
    let (start, free) = (rng.place(4), lent.free.min(MOST[0] as u64 - 4) as usize);
    let (places, past) = (start + free, rng.of(&[0, 1, 2, usize::MAX >> 1]));
    let end = if free == 0 { start + past } else { start };
    let suggestions: Vec<i32> = pick.suggestions.iter().map(|number| *number as i32).collect();
    let draws = lent_words(&lent.draws);
    let (peer, has_peer) = named(pick.peer, rng);
    let request = PickRequest {
        num_blocks: pick.wanted as i32,
        prefer_contiguous_blocks: pick.run as i32,
        num_peers: pick.peers as i32,
        options: pick.options,
        peer,
        has_peer,
        bits: pick.bits as usize,
        end,
    };
    let out = output.words.as_mut_ptr();
    let picked = buffers.pp_pick_pieces(pick.bytes.as_ptr(), pick.bytes.len(), suggestions.as_ptr(), suggestions.len(), out, places,
        draws.as_ptr(), draws.len(), request);
    let written = if picked.refusal == 0 { start..(picked.end as usize).clamp(start, places) } else { 0..0 };
    let shown = shown_pick(&picked, &output.words[written.clone()]);
    Made { places, written, ..Made::new(picked.refusal, picked.place, shown) }
}

fn shown_pick(picked: &Picked, blocks: &[u64]) -> String {
    let mut shown = format!("picked {} loops", picked.flags);
    picked.loops.iter().for_each(|steps| write!(shown, " {steps}").expect("room"));
    shown.push_str(" blocks");
    blocks.iter().for_each(|word| write!(shown, " {}.{}", word >> 16, word & 65535).expect("room"));
    write!(shown, " draws {}", picked.draws).expect("room");
    shown
}

/// A question, lent room for so many records and some places that are no whole record.
fn asked(buffers: &mut Buffers, question: &Question, at: [i32; 2], room: usize, more: usize, output: &mut Output) -> Made {
    let name = question.name;
    let lent = if matches!(width(name), 1) { Kind::Cells } else { Kind::Words };
    let places = if question.room.is_some() { room * width(name) + more } else { 0 };
    let places = places.min(MOST[lent as usize]);
    let (words, cells) = if lent == Kind::Words { (places, 0) } else { (0, places) };
    let told = ask(name, buffers, at, &mut Room { out: &mut output.words[..words], column: &mut output.cells[..cells] });
    let shown = match &told.reply {
        Reply::Nothing => "nothing".into(),
        Reply::Stale => "stale".into(),
        Reply::Numbers(numbers) => numbers.iter().fold(String::from("answer"), |mut shown, number| {
            write!(shown, " {number}").expect("room");
            shown
        }),
    };
    Made { lent, places, written: 0..told.written, ..Made::new(told.refusal, told.place, shown) }
}
