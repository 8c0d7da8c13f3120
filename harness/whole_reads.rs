//! The picks, questions and images of `harness/whole_bench`: calls that leave the picker as it was.

use crate::rust_pick;
use crate::sizes::Size;
use crate::states::not_stale;
use crate::turns::times;
use crate::whole_picker::{done, Whole};
use crate::{Lines, Times};
use bitdaemon_common::random::{self, Made, Words, WORDS};
use bitdaemon_common::{Bitfield, PieceIndex};
use oracle::image::{self, Fields};
use oracle::piece_picker::PiecePicker;
use oracle::script::Pick;
use piece_picker::sys::{self, PickRequest};
use std::cell::RefCell;
use std::hint::black_box;
use std::rc::Rc;

/// A pick: its name, options, N and run.
const PICKS: [(&str, u16, i64, i64); 6] = [
    ("pick_pieces, rarest, N 16", 1, 16, 0),
    ("pick_pieces, rarest, N 2,048", 1, 2048, 0),
    ("pick_pieces, rarest, run 64", 1, 64, 64),
    ("pick_pieces, sequential, N 16", 16, 16, 0),
    ("pick_pieces, random, N 16", 0, 16, 0),
    ("pick_pieces, partials first, N 16", 9, 16, 0),
];
const PEERS: i64 = 1000;
const PEER: u64 = 7;
/// Questions of a piece are asked of so many.
const ASKED: usize = 16;

/// The same picker on both sides; calls of one side take turns with the test on it.
struct Sides {
    whole: RefCell<Whole>,
    rust: PiecePicker,
}

impl Sides {
    fn new(fields: &Fields) -> Sides {
        let geometry = &fields.head.geometry;
        let rust = PiecePicker::from_fields(fields);
        let whole = Whole::new(&rust.image(), geometry.total, geometry.piece_size as i32);
        Sides { whole: RefCell::new(whole), rust }
    }

    /// Times a call of each side, `alone` as the test alone, and the test as it is linked by itself; the calls are so many.
    fn time(
        &self,
        many: usize,
        mut whole: impl FnMut(&mut Whole),
        mut rust: impl FnMut(&PiecePicker),
        mut alone: impl FnMut(&mut Whole),
    ) -> Times {
        let [whole, rust, test, linked] = times([
            &mut || whole(black_box(&mut *self.whole.borrow_mut())),
            &mut || rust(black_box(&self.rust)),
            &mut || alone(black_box(&mut *self.whole.borrow_mut())),
            &mut || by_itself(&mut self.whole.borrow_mut()),
        ]);
        [whole / many as f64, rust / many as f64, test, linked]
    }
}

/// The test as it is linked by itself.
fn by_itself(whole: &mut Whole) {
    black_box(whole.test());
}

fn lend() {
    random::lend(&Words { count: WORDS.len() as u64, made: Made::Listed(Rc::new([])) });
}

fn request_of(pick: &Pick) -> PickRequest {
    PickRequest {
        num_blocks: pick.wanted as i32,
        prefer_contiguous_blocks: pick.run as i32,
        num_peers: pick.peers as i32,
        options: pick.options,
        peer: PEER,
        has_peer: 1,
        bits: pick.bits as usize,
        end: 0,
    }
}

/// One pick, made once on both sides and compared, then timed.
fn pick(sides: &Sides, pick: &Pick) -> Times {
    let have = Bitfield::from_bytes(&pick.bytes, pick.bits as usize).expect("bytes enough");
    let (request, mut out, mut blocks) = (request_of(pick), vec![0; 4600], Vec::new());
    let mut rust = sides.rust.clone();
    lend();
    let flags = rust_pick::pick_pieces(&mut rust, &have, pick, &mut blocks);
    let found = sides.whole.borrow_mut().pick_pieces(&pick.bytes, &mut out, request);
    let due = rust_pick::as_words(&blocks);
    assert!(out[..found.end as usize] == due[..] && found.flags == flags && found.draws == random::used(), "another pick");
    let none_wanted = PickRequest { num_blocks: 0, ..request };
    let mut unused = vec![0; 4600];
    sides.time(
        1,
        |whole| done(whole.pick_pieces(&pick.bytes, &mut out, request).refusal),
        |_| {
            lend();
            black_box(rust_pick::pick_pieces(&mut rust, &have, pick, &mut blocks));
        },
        |whole| assert!(whole.pick_pieces(&pick.bytes, &mut unused, none_wanted).refusal == 11),
    )
}

fn picks(size: Size, lines: &mut Lines) {
    let sides = Sides::new(&not_stale([size.n, size.b, size.partials]));
    for (name, options, wanted, run) in PICKS {
        let bytes = vec![255; size.n.div_ceil(8)];
        let (bits, peer) = (size.n as i64, Some(PEER));
        let asked = Pick { options, wanted, run, peers: PEERS, peer, bits, bytes, suggestions: Vec::new() };
        lines.put(name, pick(&sides, &asked));
    }
}

/// The two questions that count answer the same on both sides.
fn check_questions(sides: &Sides) {
    let (whole, rust) = (sides.whole.borrow(), &sides.rust);
    assert!(whole.ask(sys::pp_num_have).value == rust.num_have() as u64, "another num_have");
    let records = whole.list(sys::pp_get_download_queue, &mut vec![0; 7 * 512]);
    assert!(records == Ok(rust.get_download_queue().len() as u64), "another queue");
}

/// Of the picker. Those beside `num_pieces` in the archive have it as their test alone.
fn of_picker(sides: &Sides, lines: &mut Lines) {
    let num_pieces = |w: &mut Whole| { black_box(w.ask(sys::pp_num_pieces)); };
    lines.put("num_pieces", sides.time(1, num_pieces, |r| { black_box(r.num_pieces()); }, by_itself));
    lines.put("num_have", sides.time(1, |w| { black_box(w.ask(sys::pp_num_have)); }, |r| { black_box(r.num_have()); }, by_itself));
    lines.put("distributed_copies", sides.time(
        1,
        |w| { black_box(w.ask(sys::pp_distributed_copies)); },
        |r| { black_box(r.distributed_copies()); },
        num_pieces,
    ));
}

fn of_pieces(sides: &Sides, pieces: &[i32], lines: &mut Lines) {
    lines.put("piece_priority", sides.time(
        pieces.len(),
        |w| pieces.iter().for_each(|i| { black_box(w.ask_of(sys::pp_piece_priority, *i)); }),
        |r| pieces.iter().for_each(|i| { black_box(r.piece_priority(PieceIndex(*i))); }),
        |w| assert!(w.ask_of(sys::pp_piece_priority, -1).refusal == 5),
    ));
}

fn lists(sides: &Sides, n: usize, lines: &mut Lines) {
    let (mut column, mut avail, mut records) = (vec![0; n], Vec::new(), vec![0; 7 * 512]);
    lines.put("get_availability_vec", sides.time(
        1,
        |w| assert!(w.list(sys::pp_get_availability_vec, &mut column).is_ok()),
        |r| r.get_availability_vec(black_box(&mut avail)),
        |w| assert!(w.list(sys::pp_get_availability_vec, &mut []) == Err(2)),
    ));
    lines.put("get_download_queue", sides.time(
        1,
        |w| assert!(w.list(sys::pp_get_download_queue, &mut records).is_ok()),
        |r| { black_box(r.get_download_queue()); },
        |w| assert!(w.list(sys::pp_get_download_queue, &mut []) == Err(2)),
    ));
}

fn questions(size: Size, lines: &mut Lines) {
    let sides = Sides::new(&not_stale([size.n, size.b, size.partials]));
    check_questions(&sides);
    of_picker(&sides, lines);
    let pieces: Vec<i32> = (0..ASKED).map(|k| (k * size.n / ASKED) as i32).collect();
    of_pieces(&sides, &pieces, lines);
    lists(&sides, size.n, lines);
}

/// Images, beside the Rust that the oracle reads and writes them with.
fn images(size: Size, lines: &mut Lines) {
    let sides = Sides::new(&size.fields(&[]));
    let due = sides.rust.image();
    let mut bytes = vec![0; due.len()];
    assert!(sides.whole.borrow().take_image(&mut bytes) == due.len() && bytes == due, "another image");
    lines.put("take_image", sides.time(
        1,
        |w| { black_box(w.take_image(&mut bytes)); },
        |r| { black_box(r.image()); },
        |w| assert!(w.list(sys::pp_take_image, &mut []) == Err(2)),
    ));
    lines.put("read_image", sides.time(
        1,
        |w| w.read_image(black_box(&due)),
        |_| { black_box(PiecePicker::from_fields(&image::read(black_box(&due)).ok().expect("an image"))); },
        by_itself,
    ));
}

pub fn all(size: Size, lines: &mut Lines) {
    picks(size, lines);
    questions(size, lines);
    images(size, lines);
}
