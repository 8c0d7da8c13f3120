//! Leads the unchanged Rust and the exported calls, linked as a maker links them, through the same lists of calls in one process, from
//! `new` and from images of every kind (states.rs), with changes, questions, picks and images mixed (any_calls.rs). Compared after each:
//! the whole answer, refusals too; the image where the picker may change, and that nothing else moved. At random points the picker is
//! saved and read into other buffers, and both go on; one is dropped; all are set back to an image from before. Prints how often each was
//! made; ends with status 1 at the first difference, 2 where a kind was made less often than it has to be. `whole SPOILT` makes one
//! compared value wrong after a while, which has to end with status 1; `whole none TIMES SEED` leads so many times as many lists, from
//! another seed.

mod any_calls;
mod calls;
#[allow(dead_code)]
mod draws;
mod exports;
mod led;
#[path = "lent_picker.rs"]
#[allow(dead_code)]
mod lent;
mod lent_call;
mod pick_requests;
#[allow(dead_code)]
mod picker;
#[allow(dead_code)]
mod records;
mod rng;
#[allow(dead_code)]
mod states;

use any_calls::{a_call, Share};
use calls::Calls;
use draws::Draws;
use led::{Led, Outcome};
use lent::{needs_of, Spoilt};
use lent_call::{name_of, Output};
use oracle::geometry::Geometry;
use oracle::piece_picker::PiecePicker;
use oracle::script::What;
use rng::Rng;
use states::{a_picker, Kind};
use std::collections::BTreeMap;
use std::process::exit;

const SEED: u64 = 11;

/// Lists of each kind, the calls of a list, and the share of changes and picks among them.
const PLAN: [(Kind, usize, usize, Share); 6] = [
    (Kind::Small, 1200, 120, Share { changes: 45, picks: 15 }),
    (Kind::Many, 350, 100, Share { changes: 50, picks: 10 }),
    (Kind::Wide, 180, 100, Share { changes: 50, picks: 10 }),
    (Kind::Crowded, 40, 60, Share { changes: 60, picks: 4 }),
    (Kind::Huge, 60, 40, Share { changes: 45, picks: 5 }),
    (Kind::Full, 6, 25, Share { changes: 40, picks: 8 }),
];

/// The least number of each, by the names of `note`; each of the 73 calls has to be made `EACH` times.
const LEAST: [(&str, u64); 30] = [
    ("call", 200_000),
    ("change", 80_000),
    ("question", 60_000),
    ("pick", 20_000),
    ("image taken", 4_000),
    ("lists from new", 300),
    ("lists from images", 800),
    ("saved and read", 6_000),
    ("on two pickers", 80_000),
    ("the first dropped", 1_500),
    ("set back", 1_500),
    ("refused 1", 300),
    ("refused 2", 1_000),
    ("refused 4", 400),
    ("refused 5", 2_000),
    ("refused 6", 500),
    ("refused 7", 1_500),
    ("refused 8", 500),
    ("refused 9", 1_000),
    ("refused 10", 10),
    ("refused 11", 300),
    ("refused 12", 200),
    ("refused 13", 300),
    ("stale", 100),
    ("nothing", 2_000),
    ("difference ring-walk", 100),
    ("difference zero-run", 5),
    ("difference reverse-full", 10),
    ("difference totals", 500),
    ("picked", 20_000),
];
const CALLS: usize = 73;
const EACH: u64 = 300;

type Seen = BTreeMap<String, u64>;

fn note(seen: &mut Seen, what: &str, many: u64) {
    match seen.get_mut(what) {
        Some(seen) => *seen += many,
        None => {
            seen.insert(what.into(), many);
        }
    }
}

fn note_outcome(seen: &mut Seen, what: &What, outcome: &Outcome) {
    note(seen, "call", 1);
    note(seen, "export", outcome.made);
    note(seen, &format!("of {}", name_of(what)), 1);
    note(seen, "on two pickers", u64::from(outcome.made == 2));
    let kind = match what {
        What::Change(_) => "change",
        What::Question(..) => "question",
        What::Pick(_) => "pick",
        What::Image => "image taken",
        _ => "making",
    };
    note(seen, kind, 1);
    match outcome.refusal() {
        0 => outcome.differences.iter().for_each(|name| note(seen, name, 1)),
        number => note(seen, &format!("refused {number}"), 1),
    }
    let first = outcome.line.split(' ').next().unwrap_or("");
    if ["stale", "nothing", "picked"].contains(&first) {
        note(seen, first, 1);
    }
}

/// Where a list starts: `new`, or the reading of any image; and what that needs.
fn a_start(rng: &mut Rng, kind: Kind, seen: &mut Seen) -> Result<(What, [usize; 3]), String> {
    if rng.percent(30) {
        note(seen, "lists from new", 1);
        let geometry = kind.geometry(rng);
        return Ok((What::New { total: geometry.total, piece_size: geometry.piece_size }, told_needs(&geometry)?));
    }
    note(seen, "lists from images", 1);
    let fields = a_picker(rng, kind);
    Ok((What::Read(PiecePicker::from_fields(&fields).image()), told_needs(&fields.head.geometry)?))
}

/// The needs that the exports tell, which are those of the oracle.
fn told_needs(geometry: &Geometry) -> Result<[usize; 3], String> {
    let (memory, image) = exports::needs(geometry.total, geometry.piece_size as i32);
    let (told, due) = ([memory.words, memory.cells, memory.partials].map(|need| need as usize), needs_of(geometry));
    let (n, b) = (geometry.pieces, geometry.blocks_per_piece as usize);
    let largest = 24 + 10 * n + n.min(512) * (6 + 13 * b) + 25 + 5 * n;
    if told != due || image != largest as u64 {
        return Err(format!("the needs are told as {told:?} and {image} where {due:?} and {largest} are due"));
    }
    Ok(told)
}

/// A point where nothing is called: the picker saved and read, the first one dropped, or all set back.
fn a_point(rng: &mut Rng, led: &mut Led, saved: &mut Vec<u8>, output: &mut Output, seen: &mut Seen) -> Result<(), String> {
    match rng.below(100) {
        0..=3 => {
            led.save_and_read(rng, output)?;
            note(seen, "saved and read", 1);
        }
        4..=5 if led.pickers.len() == 2 => {
            led.pickers.remove(0);
            note(seen, "the first dropped", 1);
        }
        6..=7 if !saved.is_empty() => {
            led.set_back(rng, saved, output)?;
            note(seen, "set back", 1);
        }
        8..=9 => saved.clone_from(&led.image),
        _ => {}
    }
    Ok(())
}

struct All {
    rng: Rng,
    draws: Draws,
    output: Output,
    seen: Seen,
    spoilt: Spoilt,
}

impl All {
    /// One list of calls; an error says what differs at which of them.
    fn a_list(&mut self, kind: Kind, many: usize, share: Share) -> Result<(), String> {
        let All { rng, draws, output, seen, spoilt } = self;
        let (start, needs) = a_start(rng, kind, seen)?;
        let mut led = Led::start(rng, start, needs, output).map_err(|why| format!("the start: {why}"))?;
        let (calls, mut saved) = (Calls::new(rng, &led.pickers[0]), Vec::new());
        for k in 0..many {
            a_point(rng, &mut led, &mut saved, output, seen).map_err(|why| format!("before call {k}: {why}"))?;
            let drawn = a_call(rng, &led.pickers[0], &calls, draws, share);
            let spoilt = if k > 20 { *spoilt } else { Spoilt::Nothing };
            let outcome = led.call(rng, &drawn, output, spoilt).map_err(|why| format!("call {k}, {}: {why}", shown(&drawn.call.what)))?;
            note_outcome(seen, &drawn.call.what, &outcome);
        }
        Ok(())
    }
}

fn shown(what: &What) -> String {
    match what {
        What::Change(change) => format!("{change:?}"),
        What::Question(question, first, second) => format!("{} {first} {second}", question.name),
        What::Pick(pick) => format!("pick_pieces {} {} {} {}", pick.options, pick.wanted, pick.run, pick.peers),
        What::New { total, piece_size } => format!("new {total} {piece_size}"),
        What::Read(bytes) => format!("read {} bytes", bytes.len()),
        _ => "image".into(),
    }
}

/// The unchanged pick may have to divide by zero (the difference zero-run): no word of that.
fn hush_expected_panics() {
    let usual = std::panic::take_hook();
    std::panic::set_hook(Box::new(move |info| {
        if !oracle::pick::is_expected(info.payload()) {
            usual(info);
        }
    }));
}

fn main() {
    hush_expected_panics();
    let spoilt = Spoilt::named(std::env::args().nth(1).as_deref().unwrap_or("none"));
    let [times, seed] = [(2, 1), (3, SEED)].map(|(place, usual)| {
        std::env::args().nth(place).map_or(usual, |number| number.parse().expect("a number"))
    });
    let mut rng = Rng::new(seed);
    let draws = Draws::new(&mut rng);
    let mut all = All { rng, draws, output: Output::new(), seen: Seen::new(), spoilt };
    for (kind, lists, many, share) in PLAN {
        for list in 0..lists * times as usize {
            if let Err(what) = all.a_list(kind, many, share) {
                eprintln!("whole: list {list}, {what}");
                exit(1);
            }
        }
    }
    if let Err(what) = told(&all.seen) {
        eprintln!("whole: {what}");
        exit(2);
    }
}

/// Prints the figures; an error where there were too few of a kind.
fn told(seen: &Seen) -> Result<(), String> {
    let (each, kinds): (Vec<_>, Vec<_>) = seen.iter().partition(|(name, _)| name.starts_with("of "));
    let told: Vec<String> = kinds.iter().map(|(name, many)| format!("{many} {name}")).collect();
    println!("the Rust and the exports agree: {}", told.join(", "));
    for (name, least) in LEAST {
        let many = seen.get(name).copied().unwrap_or(0);
        if many < least {
            return Err(format!("{many} times {name}, fewer than {least}"));
        }
    }
    match each.iter().find(|(_, many)| **many < EACH) {
        Some((name, many)) => Err(format!("{many} times a call {name}, fewer than {EACH}")),
        None if each.len() < CALLS => Err(format!("{} calls, fewer than {CALLS}", each.len())),
        None => Ok(()),
    }
}
