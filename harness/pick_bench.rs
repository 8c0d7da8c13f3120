//! Times the proved pick behind the memory test against the Rust's `pick_pieces`, on the same pickers with the same draws. `harness/bench`
//! builds and runs it. A line for each pick and size: microseconds here and in the Rust, the ratio, and the goal. Before it is timed each
//! pick is made once on both sides, and blocks, flags and draws are compared.

#[allow(dead_code)]
mod edits;
#[allow(dead_code)]
mod lent;
#[allow(dead_code)]
mod linked_changes;
#[allow(dead_code)]
mod linked_pick;
#[allow(dead_code)]
mod list_operations;
#[allow(dead_code)]
mod picker;
mod records;
#[allow(dead_code)]
mod rng;
mod rust_pick;
#[allow(dead_code)]
mod states;
mod turns;

use bitdaemon_common::random::{self, Made, Words, WORDS};
use bitdaemon_common::{Bitfield, PieceBlock};
use lent::Lent;
use oracle::image::Fields;
use oracle::piece_picker::PiecePicker;
use oracle::script::Pick;
use rng::Rng;
use states::not_stale;
use std::hint::black_box;
use std::rc::Rc;
use turns::times;

/// A pick: its name, options, N, run, whether the list is dirty, and the goal.
const PICKS: [(&str, u16, i64, i64, bool, f64); 8] = [
    ("rarest, N 16", 1, 16, 0, false, 0.7),
    ("rarest, N 2,048", 1, 2048, 0, false, 0.4),
    ("rarest, run 64", 1, 64, 64, false, 0.9),
    ("partials first, N 16", 9, 16, 0, false, 0.5),
    ("random, run 64, N 2,048", 0, 2048, 64, false, 0.5),
    ("sequential, N 16", 16, 16, 0, false, 0.4),
    ("sequential, N 2,048", 16, 2048, 0, false, 0.4),
    ("a stale list, N 16", 1, 16, 0, true, 0.9),
];

const PEERS: i64 = 1000;
const PEER: u64 = 7;

fn lend() {
    random::lend(&Words { count: WORDS.len() as u64, made: Made::Listed(Rc::new([])) });
}

/// One pick on one picker: microseconds here and in the Rust.
fn timed(fields: &Fields, pick: &Pick, dirty: bool) -> [f64; 2] {
    let mut rust = PiecePicker::from_fields(fields);
    let mut lent = Lent::laid_out(&mut Rng::new(7), fields);
    assert!(lent.test() == 0, "the memory test refuses the buffers");
    let have = Bitfield::from_bytes(&pick.bytes, pick.bits as usize).expect("bytes enough");
    let (mut out, mut blocks) = (vec![0; 4600], Vec::new());
    let ours = |lent: &mut Lent, out: &mut [u64]| {
        if dirty {
            (lent.words[5], lent.words[6]) = (1, 0);
        }
        linked_pick::pick_pieces(lent, pick, &[], &WORDS, out, 0)
    };
    let rusts = |rust: &mut PiecePicker, blocks: &mut Vec<PieceBlock>| {
        if dirty {
            rust.make_stale();
        }
        lend();
        rust_pick::pick_pieces(rust, &have, pick, blocks)
    };
    let (found, flags) = (ours(&mut lent, &mut out), rusts(&mut rust, &mut blocks));
    let due = rust_pick::as_words(&blocks);
    assert!(out[..found.end] == due[..] && found.flags == flags && found.used as u64 == random::used(), "another pick");
    times([
        &mut || {
            black_box(ours(black_box(&mut lent), &mut out));
        },
        &mut || {
            black_box(rusts(black_box(&mut rust), &mut blocks));
        },
    ])
}

fn main() {
    for (n, b, partials) in [1024, 4096].into_iter().flat_map(|n| [16, 256].map(|b| [64, 400].map(|p| (n, b, p)))).flatten() {
        let fields = not_stale([n, b, partials]);
        println!("{n} pieces, b {b}, {partials} partials: µs, the Rust's µs, ratio, goal");
        for (name, options, wanted, run, dirty, goal) in PICKS {
            let bytes = vec![255; n.div_ceil(8)];
            let pick = Pick { options, wanted, run, peers: PEERS, peer: Some(PEER), bits: n as i64, bytes, suggestions: Vec::new() };
            let [ours, rusts] = timed(&fields, &pick, dirty);
            println!("  {name:26} {ours:10.3} {rusts:10.3} {:8.2} {goal:8.1}", ours / rusts);
        }
    }
}
