//! Random calls of a list: changes, questions, picks and images taken, mostly with arguments that tell something (calls.rs,
//! pick_requests.rs); now and then negative and huge ones, short draws, short output, short lists or a short buffer.

use crate::calls::Calls;
use crate::draws::{words, Draws};
use crate::lent::Lent;
use crate::pick_requests::a_pick;
use crate::rng::Rng;
use oracle::questions::{Asked, Question, Room, QUESTIONS};
use oracle::script::{Call, Change, Lent as Lending, Memory, Pick, What, DRAWS};

/// How many of a hundred calls have something that is refused.
const ODD: u64 = 6;

/// How many of a hundred calls are changes, and how many changes or picks; the others are questions.
#[derive(Clone, Copy)]
pub struct Share {
    pub changes: u64,
    pub picks: u64,
}

/// A call, and the buffer that is cut short for it, if one is.
pub struct Drawn {
    pub call: Call,
    pub cut: Option<(usize, usize)>,
}

/// A number outside 0 to end.
fn outside(rng: &mut Rng, end: usize) -> i64 {
    let end = end as i64;
    rng.of(&[-1, i64::from(i32::MIN), end, end + 1, end + 4096, i64::from(i32::MAX)])
}

/// What is refused of a call.
#[derive(Clone, Copy, PartialEq)]
enum Odd {
    Nothing,
    Arguments,
    Room,
    Draws,
    Memory,
    Making,
}

pub fn a_call(rng: &mut Rng, lent: &Lent, calls: &Calls, draws: &Draws, share: Share) -> Drawn {
    let kind = rng.below(100);
    let some = rng.of(&[Odd::Arguments, Odd::Arguments, Odd::Arguments, Odd::Room, Odd::Room, Odd::Draws, Odd::Memory, Odd::Making]);
    let odd = if rng.percent(ODD) { some } else { Odd::Nothing };
    let arguments = odd == Odd::Arguments;
    let what = match kind {
        _ if odd == Odd::Making => refused_making(rng, lent),
        _ if kind < share.changes => What::Change(a_change(rng, lent, calls, arguments)),
        _ if kind < share.changes + share.picks => What::Pick(any_pick(rng, lent, arguments)),
        97.. => What::Image,
        _ => a_question(rng, lent, calls, arguments),
    };
    let cut = (odd == Odd::Memory).then(|| a_cut(rng, lent));
    let lending = Lending {
        memory: cut.map_or_else(Memory::default, cut_memory),
        room: Some(a_room(rng, lent, &what, odd == Odd::Room)),
        draws: lent_draws(rng, draws, odd == Odd::Draws),
        free: a_free(rng, &what, odd == Odd::Room),
    };
    Drawn { call: Call { line: 0, what, lent: lending }, cut }
}

/// A geometry that is not valid, or bytes that are no image.
fn refused_making(rng: &mut Rng, lent: &Lent) -> What {
    if rng.percent(50) {
        let geometries = [(0, 1), (-1, 5), (5, 0), (5, -1), (4097, 1), (1 << 40, 4_194_305), (i64::MAX, 16384), (i64::MIN, 1)];
        let (total, piece_size) = rng.of(&geometries);
        return What::New { total, piece_size };
    }
    let mut bytes = lent.image();
    bytes.truncate(rng.place(bytes.len()));
    What::Read(bytes)
}

fn a_change(rng: &mut Rng, lent: &Lent, calls: &Calls, odd: bool) -> Change {
    let mut change = calls.change(rng, lent);
    if !odd {
        return change;
    }
    let far = outside(rng, lent.shape().n);
    let second = outside(rng, 8);
    let of_block = rng.percent(50);
    match &mut change {
        Change::IncRefcountAll | Change::DecRefcountAll => {}
        Change::SetPiecePriority { wish, .. } if of_block => *wish = second.rem_euclid(256),
        Change::MarkAsDownloading { block, .. }
        | Change::MarkAsWriting { block, .. }
        | Change::MarkAsFinished { block, .. }
        | Change::MarkAsCanceled { block, .. }
        | Change::AbortDownload { block, .. }
            if of_block =>
        {
            *block = outside(rng, lent.shape().b);
        }
        Change::IncRefcount { piece }
        | Change::DecRefcount { piece }
        | Change::SetPiecePriority { piece, .. }
        | Change::LockPiece { piece }
        | Change::PiecePassed { piece }
        | Change::MarkAsDownloading { piece, .. }
        | Change::MarkAsWriting { piece, .. }
        | Change::MarkAsFinished { piece, .. }
        | Change::MarkAsCanceled { piece, .. }
        | Change::AbortDownload { piece, .. } => *piece = far,
    }
    change
}

fn any_pick(rng: &mut Rng, lent: &Lent, odd: bool) -> Pick {
    let mut pick = a_pick(rng, lent);
    if !odd {
        return pick;
    }
    match rng.below(8) {
        0 => pick.wanted = rng.of(&[0, -1, 2049, i64::from(i32::MIN), i64::from(i32::MAX)]),
        1 => pick.run = rng.of(&[-1, 2049, i64::from(i32::MIN), i64::from(i32::MAX)]),
        2 => pick.peers = rng.of(&[-1, 1001, i64::from(i32::MIN), i64::from(i32::MAX)]),
        3 => pick.suggestions = vec![0; 257],
        4 => pick.options |= 17,
        5 => pick.bits = rng.of(&[0, pick.bits - 1, pick.bits + 1, pick.bits + 8, i64::MAX]),
        6 => pick.bytes.push(0),
        _ => pick.bytes.truncate(pick.bytes.len() - 1),
    }
    pick
}

fn a_question(rng: &mut Rng, lent: &Lent, calls: &Calls, odd: bool) -> What {
    let question = &QUESTIONS[rng.place(QUESTIONS.len())];
    let piece = calls.piece(rng, lent);
    let block = calls.block(rng, lent, piece);
    let s = lent.shape();
    let (first, second) = match question.asked {
        Asked::Picker(_) => (0, 0),
        Asked::Piece(_) if odd => (outside(rng, s.n), 0),
        Asked::Piece(_) => (piece as i64, 0),
        Asked::Block(_) if odd => (piece as i64, outside(rng, s.b)),
        Asked::Block(_) => (piece as i64, block as i64),
        Asked::Place(_) => (a_place(rng, lent.live().max(5)), 0),
        Asked::ListPlace => (a_place(rng, s.list(&lent.words).len()), 0),
    };
    What::Question(question, first, second)
}

/// One of so many, the last, or past them.
fn a_place(rng: &mut Rng, many: usize) -> i64 {
    if many == 0 || rng.percent(10) {
        return outside(rng, many);
    }
    let any = rng.place(many);
    rng.of(&[any, many - 1]) as i64
}

/// Places lent for an answer of several records.
fn a_room(rng: &mut Rng, lent: &Lent, what: &What, short: bool) -> u64 {
    let s = lent.shape();
    let need = match what {
        What::Image => lent.image().len(),
        What::Question(Question { room: Some(room), .. }, ..) => match room {
            Room::Pieces => s.n,
            Room::Partials => s.m,
            Room::BlocksPerPiece => s.b,
        },
        _ => return 0,
    };
    if short { too_few(rng, need) as u64 } else { need as u64 + rng.below(3) }
}

fn a_free(rng: &mut Rng, what: &What, short: bool) -> u64 {
    let What::Pick(pick) = what else { return 0 };
    let need = (pick.wanted + pick.run + 255).clamp(0, 4351) as u64;
    if short { rng.of(&[0, need.saturating_sub(1), need / 2]) } else { need + rng.below(3) }
}

fn lent_draws(rng: &mut Rng, draws: &Draws, short: bool) -> bitdaemon_common::random::Words {
    let mut lent = words(&draws.some(rng));
    if short {
        lent.count = rng.of(&[0, 1, DRAWS / 2, DRAWS - 1]);
    }
    lent
}

/// A buffer, and a length that is too short.
fn a_cut(rng: &mut Rng, lent: &Lent) -> (usize, usize) {
    let which = rng.place(3);
    let need = lent.shape().needs()[which];
    (which, too_few(rng, need))
}

/// One fewer than there have to be, or any number below.
fn too_few(rng: &mut Rng, need: usize) -> usize {
    let any = rng.place(need);
    rng.of(&[need - 1, any])
}

fn cut_memory((which, length): (usize, usize)) -> Memory {
    let length = Some(length as u64);
    match which {
        0 => Memory { words: length, ..Memory::default() },
        1 => Memory { cells: length, ..Memory::default() },
        _ => Memory { partials: length, ..Memory::default() },
    }
}
