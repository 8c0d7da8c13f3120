//! Reads whole and damaged images (damage.rs) by the exported call and by the oracle's reader, which was written from document 01 alone,
//! in one process. Where the oracle finds a fault, 13 and its place are due, in buffers of any length, and no buffer moves. Else the
//! picker has to stand in buffers that held anything: its image is the bytes again, by the layout and by the exported call, and nothing
//! beyond the needs moved; and 2 is due where a buffer is too short. Prints how many of each kind were read; ends with status 1 at the
//! first difference, 2 where a kind was met too seldom. `damaged SPOILT TIMES SEED` as `whole`.

#[allow(dead_code)]
mod draws;
mod damage;
#[allow(dead_code)]
mod exports;
#[path = "lent_picker.rs"]
#[allow(dead_code)]
mod lent;
#[allow(dead_code)]
mod lent_call;
#[allow(dead_code)]
mod picker;
#[allow(dead_code)]
mod records;
#[allow(dead_code)]
mod rng;
#[allow(dead_code)]
mod states;

use damage::{damaged, records as record_places, WAYS};
use lent::{needs_of, Due, Lent, Spoilt};
use lent_call::{plain, shown_image, Output};
use oracle::image;
use oracle::piece_picker::PiecePicker;
use oracle::script::{Call, What};
use rng::Rng;
use states::{a_picker, Kind};
use std::collections::BTreeMap;
use std::process::exit;

const SEED: u64 = 11;

/// Images of each kind, and how often each is read.
const PLAN: [(Kind, usize, usize); 6] = [
    (Kind::Small, 900, 100),
    (Kind::Many, 100, 60),
    (Kind::Wide, 100, 60),
    (Kind::Crowded, 10, 40),
    (Kind::Huge, 12, 30),
    (Kind::Full, 2, 18),
];

/// The least number of each, by the names of `note`. Of each way of damage there have to be some, too.
const LEAST: [(&str, u64); 4] = [("read", 100_000), ("refused 13", 70_000), ("accepted", 20_000), ("refused 2", 5_000)];
const EACH_WAY: u64 = 10_000;

type Seen = BTreeMap<String, u64>;

fn note(seen: &mut Seen, what: &str) {
    *seen.entry(what.into()).or_default() += 1;
}

struct All {
    rng: Rng,
    output: Output,
    seen: Seen,
    spoilt: Spoilt,
}

impl All {
    /// Some damaged images of one picker.
    fn an_image(&mut self, kind: Kind, many: usize) -> Result<(), String> {
        let fields = a_picker(&mut self.rng, kind);
        let whole = PiecePicker::from_fields(&fields).image();
        let places = record_places(&whole);
        for _ in 0..many {
            let way = self.rng.of(&WAYS);
            let bytes = damaged(&mut self.rng, &whole, &places, way);
            note(&mut self.seen, way);
            note(&mut self.seen, "read");
            self.read(bytes).map_err(|why| format!("{way}: {why}"))?;
        }
        Ok(())
    }

    fn read(&mut self, bytes: Vec<u8>) -> Result<(), String> {
        let found = image::read(&bytes).map(|fields| fields.head.geometry);
        match found {
            Err(place) => {
                note(&mut self.seen, "refused 13");
                let needs = [60, 60, 5].map(|most| self.rng.place(most));
                let line = format!("refused 13 {place}");
                self.call(needs, plain(What::Read(bytes), 0), &Due { line: &line, image: None }).map(|_| ())
            }
            Ok(geometry) => {
                note(&mut self.seen, "accepted");
                self.accepted(bytes, needs_of(&geometry))
            }
        }
    }

    /// An image that has to be read, and taken again; and refused with 2 where a buffer is too short.
    fn accepted(&mut self, bytes: Vec<u8>, needs: [usize; 3]) -> Result<(), String> {
        let mut lent = self.call(needs, plain(What::Read(bytes.clone()), 0), &Due { line: "done", image: Some(&bytes) })?;
        lent.keep();
        let (line, lengths, room) = (shown_image(&bytes), lent.lengths(), bytes.len());
        let due = Due { line: &line, image: None };
        lent.call(&mut self.rng, &plain(What::Image, room), lengths, &mut self.output, &due, Spoilt::Nothing)?;
        if self.rng.percent(30) {
            note(&mut self.seen, "refused 2");
            let which = self.rng.place(3);
            let mut lengths = lengths;
            lengths[which] = needs[which] - 1 - self.rng.place(2).min(needs[which] - 1);
            let due = Due { line: "refused 2", image: None };
            lent.call(&mut self.rng, &plain(What::Read(bytes), 0), lengths, &mut self.output, &due, Spoilt::Nothing)?;
        }
        Ok(())
    }

    /// A call in buffers that hold anything.
    fn call(&mut self, needs: [usize; 3], call: Call, due: &Due) -> Result<Lent, String> {
        let mut lent = Lent::anything(&mut self.rng, needs);
        let lengths = lent.lengths();
        let spoilt = if self.seen["read"] > 1000 { self.spoilt } else { Spoilt::Nothing };
        lent.call(&mut self.rng, &call, lengths, &mut self.output, due, spoilt)?;
        Ok(lent)
    }

    /// The figures; an error where there were too few of a kind.
    fn told(&self) -> Result<String, String> {
        let of = |name: &str| self.seen.get(name).copied().unwrap_or(0);
        for (name, least) in LEAST.into_iter().chain(WAYS.map(|way| (way, EACH_WAY))) {
            if of(name) < least {
                return Err(format!("{} times {name}, fewer than {least}", of(name)));
            }
        }
        Ok(self.seen.iter().map(|(name, many)| format!("{many} {name}")).collect::<Vec<_>>().join(", "))
    }
}

fn main() {
    let spoilt = Spoilt::named(std::env::args().nth(1).as_deref().unwrap_or("none"));
    let [times, seed] = [(2, 1), (3, SEED)].map(|(place, usual)| {
        std::env::args().nth(place).map_or(usual, |number| number.parse().expect("a number"))
    });
    let mut all = All { rng: Rng::new(seed), output: Output::new(), seen: Seen::new(), spoilt };
    for (kind, images, many) in PLAN {
        for k in 0..images * times as usize {
            if let Err(why) = all.an_image(kind, many) {
                eprintln!("damaged: image {k}, {why}");
                exit(1);
            }
        }
    }
    match all.told() {
        Ok(told) => println!("the oracle's reader and the exported one agree: {told}"),
        Err(why) => {
            eprintln!("damaged: {why}");
            exit(2);
        }
    }
}
