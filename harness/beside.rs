//! Leads the unchanged Rust and the proved code, linked, through the same random lists of calls in one process: lists from `new` and from
//! images of every kind (states.rs), the calls drawn by calls.rs, each compared by pair.rs, and every question asked after each
//! (questions.rs). Prints how often each was made; ends with status 1 at the first difference, 2 where a kind was made less often than it
//! has to be. `beside SPOILT` makes one compared value wrong after a while, which has to end with status 1; `beside none TIMES SEED` leads
//! so many times as many lists, from another seed.
//!
//! To add calls: their exports and how they are led in a file like linked_changes.rs; drawn arguments in calls.rs or beside it; what is
//! compared as a method of `Pair`; made and counted in `a_list`, with a floor in `LEAST`.

mod calls;
mod draws;
mod edits;
mod lent;
mod linked_changes;
mod linked_questions;
#[allow(dead_code)]
mod list_operations;
mod pair;
#[allow(dead_code)]
mod picker;
mod questions;
mod records;
mod rng;
#[allow(dead_code)]
mod states;

use calls::Calls;
use draws::Draws;
use oracle::image::{self, Fields};
use oracle::piece_picker::PiecePicker;
use pair::{Made, Pair, Spoilt};
use questions::Questions;
use rng::Rng;
use states::{a_picker, Kind};
use std::collections::BTreeMap;
use std::process::exit;

const SEED: u64 = 11;

/// Lists of each kind, and the calls of a list.
const PLAN: [(Kind, usize, usize); 6] = [
    (Kind::Small, 1400, 100),
    (Kind::Many, 600, 100),
    (Kind::Wide, 200, 100),
    (Kind::Crowded, 20, 100),
    (Kind::Huge, 30, 100),
    (Kind::Full, 4, 40),
];

/// The least number of each, by the names of `note`.
const LEAST: [(&str, u64); 29] = [
    ("change", 200_000),
    ("IncRefcount", 15_000),
    ("DecRefcount", 10_000),
    ("IncRefcountAll", 2_000),
    ("DecRefcountAll", 1_500),
    ("SetPiecePriority false", 8_000),
    ("SetPiecePriority true", 4_000),
    ("MarkAsDownloading false", 8_000),
    ("MarkAsDownloading true", 8_000),
    ("MarkAsWriting false", 8_000),
    ("MarkAsWriting true", 5_000),
    ("MarkAsFinished", 15_000),
    ("MarkAsCanceled", 10_000),
    ("AbortDownload", 15_000),
    ("LockPiece", 5_000),
    ("PiecePassed", 10_000),
    ("put in", 5_000),
    ("taken out", 3_000),
    ("replaced", 8_000),
    ("flushed", 300),
    ("that drew", 5_000),
    ("with a dirty list", 30_000),
    ("with a list", 100_000),
    ("rebuild", 3_000),
    ("refused", 5_000),
    ("difference reverse-full", 20),
    ("difference totals", 1_000),
    ("lists from new", 400),
    ("lists from images", 1_000),
];

/// How often each kind of call and of answer was seen.
type Seen = BTreeMap<String, u64>;

fn note(seen: &mut Seen, what: &str) {
    match seen.get_mut(what) {
        Some(many) => *many += 1,
        None => {
            seen.insert(what.into(), 1);
        }
    }
}

fn note_made(seen: &mut Seen, name: &str, made: &Made, dirty: bool) {
    note(seen, "change");
    note(seen, name);
    if let Some(answer) = made.answer {
        note(seen, &format!("{name} {answer}"));
    }
    note(seen, ["no edit", "replaced", "put in", "taken out"][made.edit as usize]);
    if made.edit == 3 && ["PiecePassed", "MarkAsFinished"].contains(&name) {
        note(seen, "flushed");
    }
    note(seen, if dirty { "with a dirty list" } else { "with a list" });
    if made.used > 0 {
        note(seen, "that drew");
    }
    for difference in &made.differences {
        note(seen, &format!("difference {difference}"));
    }
}

/// Where a list starts: what `new` gives, or any image.
fn a_start(rng: &mut Rng, kind: Kind, seen: &mut Seen) -> Fields {
    if rng.percent(70) {
        note(seen, "lists from images");
        return a_picker(rng, kind);
    }
    note(seen, "lists from new");
    let geometry = kind.geometry(rng);
    let picker = PiecePicker::new(geometry.total, geometry.piece_size as i32);
    image::read(&picker.image()).unwrap_or_else(|place| panic!("a new picker's image has a fault at {place}"))
}

/// One list of calls; an error says what differs after which of them.
fn a_list(rng: &mut Rng, kind: Kind, many: usize, draws: &Draws, spoilt: Spoilt, seen: &mut Seen,
    questions: &mut Questions) -> Result<(), String> {
    let start = a_start(rng, kind, seen);
    let mut pair = Pair::new(rng, &start)?;
    let calls = Calls::new(rng, &pair.lent);
    for k in 0..many {
        let words = draws.some(rng);
        if rng.percent(8) && pair.rebuild(&words).map_err(|what| format!("call {k}, a rebuild: {what}"))? {
            note(seen, "rebuild");
        }
        let change = calls.change(rng, &pair.lent);
        let dirty = pair.lent.is_dirty();
        let spoilt = if k > 20 { spoilt } else { Spoilt::Nothing };
        match pair.change(&change, &words, spoilt).map_err(|what| format!("call {k}, {change:?}: {what}"))? {
            Some(made) => {
                note_made(seen, name_of(&format!("{change:?}")), &made, dirty);
                questions.ask(&pair.rust, &pair.lent, &calls, &change).map_err(|what| format!("after call {k}, {change:?}: {what}"))?;
            }
            None => note(seen, "refused"),
        }
    }
    Ok(())
}

fn name_of(shown: &str) -> &str {
    shown.split(' ').next().unwrap_or(shown)
}

fn spoilt_by(name: Option<&str>) -> Spoilt {
    match name {
        None | Some("none") => Spoilt::Nothing,
        Some("answer") => Spoilt::Answer,
        Some("draws") => Spoilt::Draws,
        Some("edit") => Spoilt::Edit,
        Some("cell") => Spoilt::Cell,
        Some("word") => Spoilt::Word,
        Some("record") => Spoilt::Record,
        Some("beyond") => Spoilt::Beyond,
        Some("reply") => Spoilt::Reply,
        Some("behind") => Spoilt::Behind,
        Some(_) => panic!("no such value"),
    }
}

fn main() {
    let spoilt = spoilt_by(std::env::args().nth(1).as_deref());
    let [times, seed] = [(2, 1), (3, SEED)].map(|(place, usual)| {
        std::env::args().nth(place).map_or(usual, |number| number.parse().expect("a number"))
    });
    let (mut rng, mut questions) = (Rng::new(seed), Questions::new(seed, spoilt));
    let (draws, mut seen) = (Draws::new(&mut rng), Seen::new());
    for (kind, lists, many) in PLAN {
        for list in 0..lists * times as usize {
            if let Err(what) = a_list(&mut rng, kind, many, &draws, spoilt, &mut seen, &mut questions) {
                eprintln!("beside: list {list}, {what}");
                exit(1);
            }
        }
    }
    let told: Vec<String> = seen.iter().map(|(name, many)| format!("{many} {name}")).collect();
    let asked = questions.told().unwrap_or_else(|what| {
        eprintln!("beside: {what}");
        exit(2);
    });
    println!("the Rust and the linked code agree: {}, {asked} questions", told.join(", "));
    for (name, least) in LEAST {
        let many = seen.get(name).copied().unwrap_or(0);
        if many < least {
            eprintln!("beside: {many} times {name}, fewer than {least}");
            exit(2);
        }
    }
}
