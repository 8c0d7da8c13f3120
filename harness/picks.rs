//! Leads the unchanged Rust and the proved pick, linked, through the same picks in one process, on pickers of every kind (states.rs) and on
//! those that the scripts named as arguments lead to, with changes between them. Blocks in their order, flags, the seven counters, draws and
//! the image afterwards are compared, and that nothing else of output and memory moved. Prints how often each kind was met; ends with
//! status 1 at the first difference, 2 where a kind was met less often than it has to be. `picks SPOILT SCRIPT..` makes one compared value
//! wrong after a while, which has to end with status 1; `picks none:TIMES:SEED SCRIPT..` makes so many times as many, from another seed.

mod calls;
mod draws;
mod edits;
mod lent;
mod linked_changes;
mod linked_pick;
#[allow(dead_code)]
mod list_operations;
#[allow(dead_code)]
mod pair;
mod pick_pair;
mod pick_requests;
#[allow(dead_code)]
mod picker;
mod records;
mod rng;
#[allow(dead_code)]
mod states;

use calls::Calls;
use draws::{listed, Draws};
use oracle::image;
use oracle::piece_picker::PiecePicker;
use oracle::script::{parse, Lent as LentWords, Pick, What};
use pair::{Pair, Spoilt};
use pick_pair::{PickMade, SpoiltPick};
use rng::Rng;
use states::{a_picker, Kind};
use std::collections::BTreeMap;
use std::process::exit;

const SEED: u64 = 11;

/// Lists of each kind, and the picks of a list.
const PLAN: [(Kind, usize, usize); 6] = [
    (Kind::Small, 9000, 8),
    (Kind::Many, 2500, 8),
    (Kind::Wide, 1200, 8),
    (Kind::Crowded, 60, 8),
    (Kind::Huge, 150, 6),
    (Kind::Full, 12, 6),
];

/// The least number of each, by the names of `note`.
const LEAST: [(&str, u64); 25] = [
    ("pick", 100_000),
    ("from scripts", 1_500),
    ("fewer than N", 20_000),
    ("more than N", 2_000),
    ("that drew", 10_000),
    ("dirty list", 10_000),
    ("run", 30_000),
    ("parole", 20_000),
    ("extents", 20_000),
    ("reverse", 20_000),
    ("random", 10_000),
    ("sequential", 20_000),
    ("rarest", 20_000),
    ("aligned", 20_000),
    ("flag 1", 3_000),
    ("flag 2", 5_000),
    ("flag 8", 5_000),
    ("flag 16", 2_000),
    ("flag 32", 5_000),
    ("flag 64", 1_000),
    ("flag 128", 2_000),
    ("flag 1024", 5_000),
    ("flag 8192", 20_000),
    ("flag 32768", 2_000),
    ("flag 65536", 1_000),
];

/// How often each kind of pick was met.
type Seen = BTreeMap<String, u64>;

fn note(seen: &mut Seen, what: &str) {
    *seen.entry(what.into()).or_default() += 1;
}

fn note_pick(seen: &mut Seen, pick: &Pick, made: &PickMade, dirty: bool) {
    note(seen, "pick");
    let options = [(4, "parole"), (128, "extents"), (2, "reverse"), (16, "sequential"), (1, "rarest"), (64, "aligned")];
    for (_, name) in options.iter().filter(|(bit, _)| pick.options & bit != 0) {
        note(seen, name);
    }
    let facts = [
        (pick.options & 17 == 0, "random"),
        (pick.run > 0, "run"),
        (made.blocks < pick.wanted as usize, "fewer than N"),
        (made.blocks > pick.wanted as usize, "more than N"),
        (made.used > 0, "that drew"),
        (dirty, "dirty list"),
    ];
    for (_, name) in facts.iter().filter(|fact| fact.0) {
        note(seen, name);
    }
    for bit in (0..17).filter(|bit| made.flags >> bit & 1 == 1) {
        note(seen, &format!("flag {}", 1 << bit));
    }
    for difference in &made.differences {
        note(seen, &format!("difference {difference}"));
    }
}

/// Some picks of one picker, with changes between them; an error says what differs after which of them.
fn a_list(rng: &mut Rng, kind: Kind, many: usize, draws: &Draws, spoilt: SpoiltPick, seen: &mut Seen) -> Result<(), String> {
    let start = a_picker(rng, kind);
    let mut pair = Pair::new(rng, &start)?;
    let calls = Calls::new(rng, &pair.lent);
    for k in 0..many {
        for _ in 0..rng.below(3) {
            let change = calls.change(rng, &pair.lent);
            pair.change(&change, &draws.some(rng), Spoilt::Nothing).map_err(|what| format!("pick {k}, {change:?}: {what}"))?;
        }
        let (pick, words, dirty) = (pick_requests::a_pick(rng, &pair.lent), draws.some(rng), pair.lent.is_dirty());
        let made = pair.pick(rng, &pick, &words, spoilt).map_err(|what| format!("pick {k}: {what}"))?;
        note_pick(seen, &pick, &made, dirty);
    }
    Ok(())
}

/// The picks of a script, on what its other calls lead to. Calls that are refused change nothing.
fn a_script(rng: &mut Rng, path: &str, spoilt: SpoiltPick, seen: &mut Seen) -> Result<(), String> {
    let text = std::fs::read(path).map_err(|why| format!("{path}: {why}"))?;
    let mut pair = None;
    for call in parse(&text).map_err(|why| format!("{path}: {why}"))? {
        let at = |what: String| format!("{path}, line {}: {what}", call.line);
        match (&call.what, &mut pair) {
            (What::New { total, piece_size }, _) if oracle::geometry::Geometry::new(*total, *piece_size).is_some() => {
                let bytes = PiecePicker::new(*total, *piece_size as i32).image();
                pair = Some(Pair::new(rng, &image::read(&bytes).expect("a new picker's image")).map_err(at)?);
            }
            (What::Read(bytes), _) => {
                if let Ok(fields) = image::read(bytes) {
                    pair = Some(Pair::new(rng, &fields).map_err(at)?);
                }
            }
            (What::Zero, _) => pair = None,
            (What::Change(change), Some(pair)) if enough(&call.lent) => {
                pair.change(change, &listed(&call.lent.draws), Spoilt::Nothing).map_err(at)?;
            }
            (What::Pick(pick), Some(pair)) if enough(&call.lent) && oracle::judge::pick(&pair.rust, pick, &call.lent).is_ok() => {
                let dirty = pair.lent.is_dirty();
                let made = pair.pick(rng, pick, &listed(&call.lent.draws), spoilt).map_err(at)?;
                note_pick(seen, pick, &made, dirty);
                note(seen, "from scripts");
            }
            _ => {}
        }
    }
    Ok(())
}

/// Draws enough: a call that gets fewer is refused.
fn enough(lent: &LentWords) -> bool {
    lent.draws.count >= oracle::script::DRAWS
}

/// The unchanged pick may have to divide by zero (the difference zero-run): no word of that.
fn hush_expected_panics() {
    let usual = std::panic::take_hook();
    std::panic::set_hook(Box::new(move |info| {
        if !oracle::pick::is_expected(info.payload()) {
            usual(info);
        }
    }));
}

fn main() {
    hush_expected_panics();
    let words: Vec<String> = std::env::args().skip(1).collect();
    let mut first = words.first().map_or("none", String::as_str).split(':');
    let spoilt = SpoiltPick::named(first.next().unwrap_or("none"));
    let [times, seed] = [1, SEED].map(|usual| first.next().map_or(usual, |number| number.parse().expect("a number")));
    let mut rng = Rng::new(seed);
    let (draws, mut seen) = (Draws::new(&mut rng), Seen::new());
    let end = |what: String| -> ! {
        eprintln!("picks: {what}");
        exit(1)
    };
    for path in words.iter().skip(1) {
        a_script(&mut rng, path, spoilt, &mut seen).unwrap_or_else(|what| end(what));
    }
    for (kind, lists, many) in PLAN {
        for list in 0..lists * times as usize {
            a_list(&mut rng, kind, many, &draws, spoilt, &mut seen).unwrap_or_else(|what| end(format!("list {list}, {what}")));
        }
    }
    let told: Vec<String> = seen.iter().map(|(name, many)| format!("{many} {name}")).collect();
    println!("the Rust and the linked pick agree: {}", told.join(", "));
    for (name, least) in LEAST {
        let many = seen.get(name).copied().unwrap_or(0);
        if many < least {
            eprintln!("picks: {many} times {name}, fewer than {least}");
            exit(2);
        }
    }
}
