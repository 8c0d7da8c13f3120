//! Times the proved changes on a picker in lent buffers, without the memory test, against the Rust's: a count up or down, a priority set
//! to 0 and back, a block asked for and given back, a piece opened and closed, a piece passed and flushed. `harness/bench` builds and
//! runs it. A line for each size: microseconds here, and the ratio to the Rust. Both sides start from one picker, make the same calls
//! with the same draws, and have to end with the same image. At the end stand parts of opening and closing in plain Rust.

#[allow(dead_code)]
mod edits;
#[allow(dead_code)]
mod lent;
mod linked_changes;
#[allow(dead_code)]
mod list_operations;
mod opening_parts;
#[allow(dead_code)]
mod picker;
mod records;
mod rng;
mod sizes;
#[allow(dead_code)]
mod states;
#[allow(dead_code)]
mod timing;

use bitdaemon_common::random::{self, Made, Words, COUNT, WORDS};
use bitdaemon_common::{DownloadPriority, PieceBlock, PieceIndex};
use lent::Lent;
use linked_changes::Tested;
use list_operations::Geometry;
use opening_parts::{summed_place, insert_rising, marked_place, remove_rising};
use oracle::image::Fields;
use oracle::piece_picker::{PickerOptions, PiecePicker};
use oracle::script::Change;
use records::{unpack, DownloadingPiece};
use rng::Rng;
use sizes::{At, Size};
use std::hint::black_box;
use std::time::Instant;
use timing::{least, since};

const ROUNDS: usize = 2000;
const PEER: Option<u64> = Some(2);
/// Pieces, blocks of a piece, partials.
const SIZES: [(usize, usize, usize); 8] =
    [(1024, 16, 64), (1024, 16, 400), (1024, 256, 64), (1024, 256, 400), (4096, 16, 64), (4096, 16, 400), (4096, 256, 64), (4096, 256, 400)];
/// The table from its start, for the Rust.
const ANY: Words = Words { count: 0, made: Made::Seeded(0) };

/// The processor's clock; what was begun before has ended.
fn ticks() -> u64 {
    use std::arch::x86_64::{_mm_lfence, _rdtsc};
    unsafe {
        _mm_lfence();
        let now = _rdtsc();
        _mm_lfence();
        now
    }
}

/// The same, and what was stored before has left the processor's buffer of stores: bringing rows up to date between two calls is no part
/// of the second.
fn ticks_from_here() -> u64 {
    unsafe { std::arch::x86_64::_mm_mfence() };
    ticks()
}

/// How many ticks a microsecond has, and how many it takes to read the clock.
struct Clock {
    microsecond: f64,
    nothing: u64,
}

impl Clock {
    fn new() -> Clock {
        let (start, first) = (Instant::now(), ticks());
        while start.elapsed().as_millis() < 50 {}
        let microsecond = (ticks() - first) as f64 / since(start);
        let nothing = (0..100_000).map(|_| ticks()).scan(ticks(), |last, now| Some(now - std::mem::replace(last, now)));
        Clock { microsecond, nothing: nothing.min().unwrap_or(0) }
    }

    /// The ticks that f takes.
    #[inline(always)]
    fn of<T>(&self, f: impl FnOnce() -> T) -> u64 {
        let start = ticks();
        black_box(f());
        (ticks() - start).saturating_sub(self.nothing)
    }

    /// Microseconds of a change, on average over the pieces of a round. Where rows move, each is timed alone.
    #[inline(never)]
    fn time<O: Op, S: Side>(&self, side: &mut S, pieces: &[At]) -> f64 {
        let mut sum = 0;
        if O::MOVES_ROWS {
            for &at in pieces {
                let start = ticks_from_here();
                side.make::<O>(at);
                sum += ticks() - start - self.nothing;
                side.settle::<O>(at);
            }
        } else {
            let start = ticks_from_here();
            for &at in pieces {
                side.make::<O>(at);
                side.settle::<O>(at);
            }
            sum = ticks() - start;
        }
        sum as f64 / pieces.len() as f64 / self.microsecond
    }
}

// ---- what is timed
/// A timed change.
trait Op {
    /// Rows move when a piece is opened or closed: then they are brought up to date between two calls, untimed.
    const MOVES_ROWS: bool = false;
    /// What the change adds to the partial's count of requested blocks.
    const REQUESTS: i16 = 0;

    fn pieces(size: Size) -> Vec<At>;
    fn change(piece: i64) -> Change;
    fn rust(picker: &mut PiecePicker, piece: PieceIndex);
}

/// A change by its names: the pieces of a round, the change, what the Rust is called with, and what differs from the usual.
macro_rules! ops {
    ($($name:ident on $pieces:ident: |$i:ident| $change:expr, |$p:ident, $at:ident| $rust:expr $(, $constant:ident: $kind:ty = $value:expr)*;)*) => {
        $(struct $name;
        impl Op for $name {
            $(const $constant: $kind = $value;)*
            fn pieces(size: Size) -> Vec<At> {
                size.$pieces()
            }
            #[inline(always)]
            fn change($i: i64) -> Change {
                $change
            }
            #[inline(always)]
            fn rust($p: &mut PiecePicker, $at: PieceIndex) {
                black_box($rust);
            }
        })*
    };
}

fn block(piece_index: PieceIndex, block_index: i32) -> PieceBlock {
    PieceBlock { piece_index, block_index }
}

// block 1 of a partial is free, and an Open piece is opened by its block 0
ops! {
    Up on open_pieces: |piece| Change::IncRefcount { piece }, |p, i| p.inc_refcount(i);
    Down on open_pieces: |piece| Change::DecRefcount { piece }, |p, i| p.dec_refcount(i);
    Remove on open_pieces: |piece| Change::SetPiecePriority { piece, wish: 0 },
        |p, i| p.set_piece_priority(i, DownloadPriority::DONT_DOWNLOAD);
    Add on open_pieces: |piece| Change::SetPiecePriority { piece, wish: 4 }, |p, i| p.set_piece_priority(i, DownloadPriority::DEFAULT);
    Mark on begun_pieces: |piece| Change::MarkAsDownloading { piece, block: 1, peer: PEER, options: 0 },
        |p, i| p.mark_as_downloading(block(i, 1), PEER, PickerOptions::NONE), REQUESTS: i16 = 1;
    GiveBack on begun_pieces: |piece| Change::AbortDownload { piece, block: 1, peer: PEER },
        |p, i| p.abort_download(block(i, 1), PEER), REQUESTS: i16 = -1;
    Open on open_pieces: |piece| Change::MarkAsDownloading { piece, block: 0, peer: PEER, options: 0 },
        |p, i| p.mark_as_downloading(block(i, 0), PEER, PickerOptions::NONE), MOVES_ROWS: bool = true, REQUESTS: i16 = 1;
    Close on open_pieces: |piece| Change::AbortDownload { piece, block: 0, peer: PEER },
        |p, i| p.abort_download(block(i, 0), PEER), MOVES_ROWS: bool = true, REQUESTS: i16 = -1;
    Again on begun_pieces: |piece| Change::MarkAsWriting { piece, block: 0, peer: PEER }, |p, i| p.mark_as_writing(block(i, 0), PEER);
    Passed on begun_pieces: |piece| Change::PiecePassed { piece }, |p, i| p.piece_passed(i), MOVES_ROWS: bool = true;
}

/// One of the two sides.
trait Side {
    fn make<O: Op>(&mut self, at: At);

    /// What a call would have from its memory test is brought up to date.
    fn settle<O: Op>(&mut self, _: At) {}
}

impl Side for PiecePicker {
    #[inline(always)]
    fn make<O: Op>(&mut self, at: At) {
        O::rust(self, PieceIndex(at.piece as i32));
    }
}

/// The picker in lent memory, and draws: the Rust's table twice, so that from each of its words on a whole table is lent.
struct Proved {
    lent: Lent,
    geometry: Geometry,
    table: Vec<u32>,
    next: usize,
}

impl Proved {
    fn new(fields: &Fields) -> Proved {
        // the lowest places, as they are taken, by no order of the pieces
        let (mut rng, mut places) = (Rng::new(1), (0..fields.partials.len()).collect::<Vec<_>>());
        rng.shuffle(&mut places);
        let mut lent = Lent::laid_out_at(&mut rng, fields, &places);
        assert_eq!(lent.test(), 0, "a picker stands in the buffers");
        Proved { geometry: lent.geometry(), lent, table: [WORDS, WORDS].concat(), next: 0 }
    }
}

impl Side for Proved {
    /// As a call makes it behind the memory test, with the edit of the records.
    #[inline(always)]
    fn make<O: Op>(&mut self, at: At) {
        let (live, lent) = (self.lent.live(), &mut self.lent);
        let (rows, counts, geometry) = (&lent.rows, &lent.counts, self.geometry);
        let mut tested = Tested { words: &mut lent.words, cells: &mut lent.cells, rows, live, counts, geometry };
        let made = tested.carry_out(&O::change(at.piece as i64), &self.table[self.next..self.next + COUNT]);
        black_box(made.edit(&mut lent.partials, live));
        let next = self.next + made.used;
        self.next = if next < COUNT { next } else { next - COUNT };
    }

    #[inline(always)]
    fn settle<O: Op>(&mut self, at: At) {
        let Lent { words, partials, rows, counts, .. } = &mut self.lent;
        if !O::MOVES_ROWS {
            counts[at.row] = counts[at.row].wrapping_add_signed(O::REQUESTS);
            return;
        }
        unpack(words, partials, rows);
        let row = rows[..words[7] as usize].partition_point(|i| (*i as usize) < at.piece);
        for (column, requested) in counts.chunks_exact_mut(512).zip([1, 0, 0]) {
            if O::REQUESTS > 0 {
                column.copy_within(row..511, row + 1);
                column[row] = requested;
            } else {
                column.copy_within(row + 1.., row);
            }
        }
    }
}

/// Rows and counts as they were settled, for the live records.
fn settled(lent: &Lent) -> (Vec<u32>, Vec<u16>) {
    let live = lent.live();
    let columns = || (0..3).flat_map(|c| 512 * c..512 * c + live);
    (columns().map(|k| lent.rows[k]).collect(), columns().map(|k| lent.counts[k]).collect())
}

/// Microseconds here and in the Rust, the least of all rounds.
type Best = [f64; 2];
const NONE_YET: Best = [f64::MAX; 2];

/// The two sides of a row.
struct Sides<'a> {
    size: Size,
    clock: &'a Clock,
    rust: PiecePicker,
    proved: Proved,
}

impl<'a> Sides<'a> {
    fn new(size: Size, clock: &'a Clock, finished: &[At]) -> Sides<'a> {
        let fields = size.fields(finished);
        random::lend(&ANY);
        Sides { size, clock, rust: PiecePicker::from_fields(&fields), proved: Proved::new(&fields) }
    }

    /// A round of each.
    fn round<O: Op>(&mut self, best: &mut Best) {
        let pieces = O::pieces(self.size);
        let theirs = self.clock.time::<O, _>(&mut self.rust, &pieces);
        let ours = self.clock.time::<O, _>(&mut self.proved, &pieces);
        *best = least(*best, [ours, theirs]);
    }

    /// Both made the same, and rows and counts were up to date throughout.
    fn check(&mut self) {
        let before = settled(&self.proved.lent);
        assert_eq!(self.proved.lent.test(), 0, "a picker stands in the buffers");
        assert!(settled(&self.proved.lent) == before, "rows and counts were not up to date");
        assert!(self.rust.image() == self.proved.lent.image(), "the two sides part");
    }
}

/// Counts and priorities.
fn counted(size: Size, clock: &Clock) -> [Best; 4] {
    let mut sides = Sides::new(size, clock, &[]);
    let mut best = [NONE_YET; 4];
    for _ in 0..ROUNDS {
        sides.round::<Up>(&mut best[0]);
        sides.round::<Down>(&mut best[1]);
        sides.round::<Remove>(&mut best[2]);
        sides.round::<Add>(&mut best[3]);
    }
    sides.check();
    best
}

/// Marks. Nothing undoes a piece passed: both sides start anew each time.
fn marked(size: Size, clock: &Clock) -> [Best; 5] {
    let mut sides = Sides::new(size, clock, &[]);
    let mut best = [NONE_YET; 5];
    for _ in 0..ROUNDS {
        sides.round::<Mark>(&mut best[0]);
        sides.round::<GiveBack>(&mut best[1]);
        sides.round::<Open>(&mut best[2]);
        sides.round::<Close>(&mut best[3]);
    }
    sides.check();
    for _ in 0..ROUNDS / 20 {
        let mut sides = Sides::new(size, clock, &size.begun_pieces());
        // a block on disk is not written again; both sides have then looked at what they are timed on
        sides.round::<Again>(&mut [0.0; 2]);
        sides.round::<Passed>(&mut best[4]);
        sides.check();
    }
    best
}

/// Parts of opening and closing in plain Rust, on the same buffers: the free place, a record put in, one taken out. Each as where nothing is
/// known of places and order, then as where it is.
fn parts(size: Size, clock: &Clock) -> [Best; 3] {
    let Proved { mut lent, .. } = Proved::new(&size.fields(&[]));
    let (live, pieces, mut best) = (lent.live(), size.open_pieces(), [NONE_YET; 3]);
    for _ in 0..ROUNDS {
        let mut ticks = [[0; 2]; 3];
        for at in &pieces {
            let d = DownloadingPiece { index: at.piece as u32, info_idx: live as u32, flags: 0 };
            let (rows, records) = (&lent.rows, &mut lent.partials[..live + 1]);
            ticks[0][0] += clock.of(|| marked_place(black_box(rows), live));
            ticks[0][1] += clock.of(|| summed_place(black_box(rows), live));
            ticks[1][0] += clock.of(|| edits::insert(black_box(records), d));
            ticks[2][0] += clock.of(|| edits::remove(black_box(records), d.index));
            ticks[1][1] += clock.of(|| insert_rising(black_box(records), d));
            ticks[2][1] += clock.of(|| remove_rising(black_box(records), d.index));
        }
        for (best, ticks) in best.iter_mut().zip(ticks) {
            *best = least(*best, ticks.map(|sum| sum as f64 / pieces.len() as f64 / clock.microsecond));
        }
    }
    best
}

fn print(size: Size, times: &[Best]) {
    print!("{:6} {:3} {:8} {:6}", size.n, size.b, size.partials, size.groups());
    for [ours, theirs] in times {
        print!(" {ours:7.3} {:5.2}", ours / theirs);
    }
    println!();
}

/// Opening and closing, beside their parts in plain Rust.
fn print_parts(size: Size, clock: &Clock) {
    let mut sides = Sides::new(size, clock, &[]);
    let mut best = [NONE_YET; 2];
    for _ in 0..ROUNDS {
        sides.round::<Open>(&mut best[0]);
        sides.round::<Close>(&mut best[1]);
    }
    sides.check();
    let [open, close] = best;
    let [place, put_in, taken_out] = parts(size, clock);
    print!("{:6} {:3} {:8}", size.n, size.b, size.partials);
    for time in [open, place, put_in, close, taken_out].concat() {
        print!(" {time:7.3}");
    }
    println!();
}

fn main() {
    let clock = Clock::new();
    println!("pieces   b partials groups      up, to the Rust  down         remove          add");
    for (most, one_group) in [(23, true), (23, false), (900, false)] {
        for (n, b, partials) in SIZES {
            let size = Size { n, b, partials, most, one_group };
            print(size, &counted(size, &clock));
        }
    }
    println!("pieces   b partials groups    mark, to the Rust  give back    open          close         passed");
    for (n, b, partials) in SIZES {
        let size = Size { n, b, partials, most: 23, one_group: false };
        print(size, &marked(size, &clock));
    }
    println!("pieces   b partials      open, the Rust, place marked, added, put in, in a block   close, the Rust, taken out, in a block");
    for (n, b, partials) in SIZES {
        print_parts(Size { n, b, partials, most: 23, one_group: false }, &clock);
    }
}
