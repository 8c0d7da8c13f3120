//! Times the proved list operations on a picker in lent buffers against the Rust's: the rebuild of a dirty list, a piece added, its rank
//! changed, a piece removed. `harness/bench` builds and runs it. A line for each size and spread of counts: microseconds here, and the
//! ratio to the Rust.

mod list_operations;
mod timing;

use bitdaemon_common::{Bitfield, DownloadPriority, PieceIndex};
use list_operations::{geometry, rank, update, update_pieces, Geometry};
use picker_rs::{NullPickerStats, PickerOptions, PiecePicker};
use std::hint::black_box;
use std::time::Instant;
use timing::{counts, each, least, since, spread};

const ROUNDS: usize = 400;

/// A piece added, its count changed by one, a piece removed: so many microseconds each, on average over the pieces of a round.
type Moves = [f64; 3];

// ---- the Rust
fn rust_picker(counts: &[u16]) -> PiecePicker {
    let mut p = PiecePicker::new(counts.len() as i64 * 16384, 16384);
    for (i, c) in counts.iter().enumerate() {
        for _ in 0..*c {
            p.inc_refcount(PieceIndex(i as i32));
        }
    }
    p
}

/// A pick that finds nothing: of a dirty list it rebuilds it first.
fn empty_pick(p: &mut PiecePicker, none: &Bitfield) -> f64 {
    let start = Instant::now();
    let mut out = Vec::new();
    p.pick_pieces(none, &mut out, 1, 0, None, PickerOptions::RAREST_FIRST, &[], 1000, &mut NullPickerStats);
    black_box(&out);
    since(start)
}

/// A pick with a dirty list, and one without.
fn rust_picks(p: &mut PiecePicker, none: &Bitfield) -> [f64; 2] {
    p.inc_refcount_all();
    p.dec_refcount_all();
    [empty_pick(p, none), empty_pick(p, none)]
}

fn rust_moves(p: &mut PiecePicker, pieces: &[usize]) -> Moves {
    let piece = |i: usize| PieceIndex(i as i32);
    let up = each(pieces, |i| p.inc_refcount(piece(i)));
    let down = each(pieces, |i| p.dec_refcount(piece(i)));
    let remove = each(pieces, |i| { black_box(p.set_piece_priority(piece(i), DownloadPriority::DONT_DOWNLOAD)); });
    let add = each(pieces, |i| { black_box(p.set_piece_priority(piece(i), DownloadPriority::DEFAULT)); });
    [add, (up + down) / 2.0, remove]
}

// ---- the proved code
/// A picker of one block a piece in lent buffers, its list dirty, and draws, the next of which has a number. Words: 16 of the head, pad
/// bytes, list and peers; cells: count, state, priority and flushed of each piece, then its blocks.
struct Memory {
    words: Vec<u64>,
    cells: Vec<u16>,
    geometry: Geometry,
    draws: Vec<u32>,
    next: usize,
}

impl Memory {
    fn new(counts: &[u16]) -> Memory {
        let (n, places) = (counts.len(), counts.len().min(512));
        let (mut words, mut cells) = (vec![0; 16 + 2 * n + places], vec![0; 4 * n + 3 * places]);
        words[..6].copy_from_slice(&[n as u64 * 16384, 16384, 0, 0, n as u64, 1]);
        cells[..n].copy_from_slice(counts);
        cells[n..3 * n].fill(4);
        let draws = (0..4352u32).map(|i| i.wrapping_mul(2654435761)).collect();
        Memory { geometry: geometry(&words), words, cells, draws, next: 0 }
    }

    fn rebuild(&mut self) -> [f64; 1] {
        self.words[5..7].copy_from_slice(&[1, 0]);
        let start = Instant::now();
        black_box(update_pieces(&mut self.words, &self.cells, self.geometry, &self.draws));
        [since(start)]
    }

    /// A cell of piece i changed, and the list mended.
    fn set(&mut self, field: usize, i: usize, to: u16) {
        let g = self.geometry;
        let old = rank(&self.words, &self.cells, g, i);
        self.cells[field * g.pieces + i] = to;
        let used = update(&mut self.words, &self.cells, g, i, old, &self.draws[self.next..]);
        self.next = if self.next + used < self.draws.len() { self.next + used } else { 0 };
    }

    fn moves(&mut self, counts: &[u16], pieces: &[usize]) -> Moves {
        let up = each(pieces, |i| self.set(0, i, counts[i] + 1));
        let down = each(pieces, |i| self.set(0, i, counts[i]));
        let remove = each(pieces, |i| self.set(2, i, 0));
        let add = each(pieces, |i| self.set(2, i, 4));
        [add, (up + down) / 2.0, remove]
    }
}

/// The least of all rounds, the two in turns.
fn row(n: usize, most: usize) {
    let (counts, pieces, none) = (counts(n, most), spread(n), Bitfield::with_size(n));
    let (mut p, mut memory) = (rust_picker(&counts), Memory::new(&counts));
    let (mut picks, mut rebuild) = ([f64::MAX; 2], [f64::MAX; 1]);
    let (mut theirs, mut ours) = ([f64::MAX; 3], [f64::MAX; 3]);
    for _ in 0..ROUNDS {
        picks = least(picks, rust_picks(&mut p, &none));
        rebuild = least(rebuild, memory.rebuild());
        theirs = least(theirs, rust_moves(&mut p, &pieces));
        ours = least(ours, memory.moves(&counts, &pieces));
    }
    print!("{n:6} {most:11} {:13.2} {:12.2}", rebuild[0], rebuild[0] / (picks[0] - picks[1]));
    for k in 0..3 {
        print!(" {:8.3} {:6.2}", ours[k], ours[k] / theirs[k]);
    }
    println!();
}

fn main() {
    println!("pieces   counts to    rebuild µs, to the Rust        add           update         remove");
    for (n, most) in [(64, 23), (1024, 23), (4096, 23), (64, 900), (1024, 900), (4096, 900)] {
        row(n, most);
    }
}
