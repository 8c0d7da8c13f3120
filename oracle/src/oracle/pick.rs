//! A pick, made twice: by the ruled copy on a clone, and by the unchanged function on the picker itself.
//!
//! Where no rule applied, both have to agree in everything. Where one did, the unchanged function has to fail in the way that the rule
//! mends, and the ruled pick stands: a difference.

use std::any::Any;
use std::cell::Cell;
use std::panic::{catch_unwind, resume_unwind, AssertUnwindSafe};

use bitdaemon_common::random;
use bitdaemon_common::{Bitfield, PieceBlock, PieceIndex};

use crate::piece_picker::{rules, PickerCounter, PickerFlags, PickerOptions, PickerStats, PiecePicker};
use crate::script::{Lent, Pick};

/// How a division by zero ends in a remainder.
const REMAINDER_BY_ZERO: &str = "attempt to calculate the remainder with a divisor of zero";

/// The counters of a pick, in document 01's order.
const SHOWN: [PickerCounter; 7] = [
    PickerCounter::PartialLoops,
    PickerCounter::SuggestLoops,
    PickerCounter::ReverseRareLoops,
    PickerCounter::RareLoops,
    PickerCounter::RandStartLoops,
    PickerCounter::RandLoops,
    PickerCounter::BusyLoops,
];

const COUNTERS: usize = PickerCounter::ReverseRareLoops as usize + 1;

#[derive(Debug, PartialEq, Eq)]
pub struct Picked {
    pub flags: u32,
    pub blocks: Vec<PieceBlock>,
    pub draws: u64,
    counters: [u64; COUNTERS],
}

impl Picked {
    pub fn loops(&self) -> [u64; 7] {
        SHOWN.map(|counter| self.counters[counter as usize])
    }
}

/// Counts; a pick that takes more than `limit` steps of skipping in the walk round the torrent is ended by `OverLimit`.
struct Counting {
    counters: [u64; COUNTERS],
    limit: u64,
}

struct OverLimit;

impl PickerStats for Counting {
    fn inc(&mut self, counter: PickerCounter) {
        self.counters[counter as usize] += 1;
        if self.counters[PickerCounter::RandStartLoops as usize] > self.limit {
            resume_unwind(Box::new(OverLimit));
        }
    }
}

/// A pick's arguments, as the picker takes them.
struct Arguments<'a> {
    pick: &'a Pick,
    lent: &'a Lent,
    have: Bitfield,
    suggestions: Vec<PieceIndex>,
}

impl<'a> Arguments<'a> {
    fn new(pick: &'a Pick, lent: &'a Lent) -> Self {
        let have = Bitfield::from_bytes(&pick.bytes, pick.bits as usize).expect("as many bytes as the bits need");
        // A number that no piece index holds is out of range, as −1 is.
        let suggestion = |number: &i64| PieceIndex(i32::try_from(*number).unwrap_or(-1));
        Self { pick, lent, have, suggestions: pick.suggestions.iter().map(suggestion).collect() }
    }
}

/// `pick_pieces` or its ruled copy.
type PickPieces = fn(
    &mut PiecePicker,
    &Bitfield,
    &mut Vec<PieceBlock>,
    i32,
    i32,
    Option<u64>,
    PickerOptions,
    &[PieceIndex],
    i32,
    &mut dyn PickerStats,
) -> PickerFlags;

fn run(picker: &mut PiecePicker, pick_pieces: PickPieces, arguments: &Arguments, limit: u64) -> Picked {
    let pick = arguments.pick;
    let mut blocks = Vec::new();
    let mut counting = Counting { counters: [0; COUNTERS], limit };
    random::lend(&arguments.lent.draws);
    let flags = pick_pieces(
        picker,
        &arguments.have,
        &mut blocks,
        pick.wanted as i32,
        pick.run as i32,
        pick.peer,
        PickerOptions::from_bits(pick.options),
        &arguments.suggestions,
        pick.peers as i32,
        &mut counting,
    );
    Picked { flags: flags.0, blocks, draws: random::used(), counters: counting.counters }
}

/// Carries out a pick that no refusal stops.
///
/// # Panics
///
/// Where the two picks part in a way that no rule explains, or what has to hold afterwards does not.
pub fn carry_out(picker: &mut PiecePicker, pick: &Pick, lent: &Lent, differences: &mut Vec<&'static str>) -> Picked {
    let arguments = Arguments::new(pick, lent);
    let mut ruled_picker = picker.clone();
    rules::take();
    let ruled = run(&mut ruled_picker, PiecePicker::pick_pieces_ruled, &arguments, u64::MAX);
    let applied = rules::take();
    let ten_laps = 10 * picker.num_pieces() as u64 + 10;
    let limit = ruled.counters[PickerCounter::RandStartLoops as usize] + ten_laps;
    EXPECTED.with(|expected| expected.set(applied & rules::ZERO_RUN != 0));
    let unchanged = catch_unwind(AssertUnwindSafe(|| run(picker, PiecePicker::pick_pieces, &arguments, limit)));
    EXPECTED.with(|expected| expected.set(false));
    match unchanged {
        Ok(unchanged) => {
            assert_eq!(applied, 0, "a rule applied, and the unchanged pick came to an end all the same");
            assert_eq!(ruled, unchanged, "the ruled pick and the unchanged one part");
            assert!(ruled_picker.image() == picker.image(), "the ruled pick and the unchanged one leave two images");
        }
        Err(end) => {
            check_end(end, applied);
            note(applied, differences);
            *picker = ruled_picker;
        }
    }
    assert!(ruled.blocks.len() as i64 <= pick.wanted + pick.run + 255, "{} blocks appended", ruled.blocks.len());
    assert_eq!(picker.running_totals(), picker.counted_totals(), "totals after a pick");
    picker.check();
    ruled
}

/// The unchanged pick has to end as the first rule that applied lets expect. The walk ends with the ring rule, so that the zero run
/// comes first where both applied.
fn check_end(end: Box<dyn Any + Send>, applied: u8) {
    if applied & rules::ZERO_RUN != 0 {
        assert!(!end.is::<OverLimit>(), "the unchanged pick walks on instead of dividing by zero");
    } else if applied & rules::RING_WALK != 0 {
        assert!(end.is::<OverLimit>(), "the unchanged pick fails instead of walking on");
    } else {
        panic!("no rule applied, and the unchanged pick walks on");
    }
}

fn note(applied: u8, differences: &mut Vec<&'static str>) {
    for (rule, name) in [(rules::ZERO_RUN, "zero-run"), (rules::RING_WALK, "ring-walk")] {
        if applied & rule != 0 {
            differences.push(name);
        }
    }
}

thread_local! {
    /// Set while the unchanged pick has to divide by zero.
    static EXPECTED: Cell<bool> = const { Cell::new(false) };
}

/// Whether a panic with this payload is the one that the unchanged pick has to end with.
pub fn is_expected(payload: &(dyn Any + Send)) -> bool {
    let message = payload.downcast_ref::<&str>().copied().or_else(|| payload.downcast_ref::<String>().map(String::as_str));
    EXPECTED.with(Cell::get) && message == Some(REMAINDER_BY_ZERO)
}
