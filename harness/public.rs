//! Makes the calls of standard input (`compare/public.py` says how they are written) by the exports, on any memory, and compares them with
//! the reference: refusal, with the place of 13; answer; every buffer where nothing may move; else the image that stands there, and what
//! lies beyond the needs. Prints how many were compared; ends with status 1 at the first difference, 2 on bad input and where there were
//! too few of a kind. `public SPOILT` makes one compared value wrong after a while, which has to end with status 1.

#[allow(dead_code)]
mod draws;
mod exports;
#[allow(dead_code)]
mod lent_call;
#[allow(dead_code)]
mod lent_picker;
#[allow(dead_code)]
mod picker;
#[allow(dead_code)]
mod records;
#[allow(dead_code)]
mod rng;

use lent_call::{name_of, Output};
use lent_picker::{Due, Lent, Spoilt};
use oracle::script::{parse, Call};
use records::DownloadingPiece;
use rng::Rng;
use std::collections::BTreeMap;
use std::io::BufRead;
use std::process::exit;
use std::str::FromStr;

/// Calls before a value is made wrong.
const WHILE: u64 = 3000;

/// The least number of each, by the names of `note`; each of the 75 exports has to be called `EACH` times.
const LEAST: [(&str, u64); 18] = [
    ("call", 40_000),
    ("accepted", 8_000),
    ("refused 1", 300),
    ("refused 2", 8_000),
    ("refused 3", 8_000),
    ("refused 4", 80),
    ("refused 5", 1_000),
    ("refused 6", 80),
    ("refused 7", 80),
    ("refused 8", 20),
    ("refused 9", 30),
    ("refused 10", 5),
    ("refused 11", 150),
    ("refused 12", 50),
    ("refused 13", 300),
    ("changed", 3_500),
    ("with cut buffers", 8_000),
    ("needs", 200),
];
const EXPORTS: usize = 73;
const EACH: u64 = 150;

type Seen = BTreeMap<String, u64>;

fn note(seen: &mut Seen, what: &str) {
    match seen.get_mut(what) {
        Some(many) => *many += 1,
        None => {
            seen.insert(what.into(), 1);
        }
    }
}

fn end(status: i32, line: usize, why: &str) -> ! {
    eprintln!("public: line {line}: {why}");
    exit(status)
}

fn numbers<'a, T: FromStr>(line: usize, words: impl Iterator<Item = &'a str>) -> Vec<T> {
    words.map(|word| word.parse().unwrap_or_else(|_| end(2, line, &format!("not a number, or too large: {word}")))).collect()
}

fn records(line: usize, numbers: Vec<u32>) -> Vec<DownloadingPiece> {
    if numbers.len() % 3 != 0 {
        end(2, line, "a record has three numbers");
    }
    numbers.chunks_exact(3).map(|c| DownloadingPiece { index: c[0], info_idx: c[1], flags: c[2] }).collect()
}

/// The buffers above, with edits, lent to so many words, cells and records.
fn edited(line: usize, base: &Lent, edits: &[&str]) -> Lent {
    let mut lent = base.clone();
    for edit in edits {
        let (place, value) = edit.split_once('=').unwrap_or_else(|| end(2, line, "an edit without `=`"));
        let (buffer, at) = place.split_at(1);
        let [at, value] = [at, value].map(|word| word.parse::<u64>().unwrap_or_else(|_| end(2, line, "not a number")));
        let (at, lengths) = (at as usize, lent.lengths());
        match buffer {
            "w" if at < lengths[0] => lent.words[at] = value,
            "c" if at < lengths[1] => lent.cells[at] = value as u16,
            "p" if at / 3 < lengths[2] => put_record(&mut lent.partials[at / 3], at % 3, value as u32),
            _ => end(2, line, "an edit of no buffer, or beyond it"),
        }
    }
    lent.keep();
    lent
}

fn put_record(d: &mut DownloadingPiece, field: usize, value: u32) {
    *[&mut d.index, &mut d.info_idx, &mut d.flags][field] = value;
}

fn bytes_of(line: usize, hex: &str) -> Vec<u8> {
    let byte = |k| u8::from_str_radix(&hex[k..k + 2], 16).unwrap_or_else(|_| end(2, line, "not bytes in hexadecimal"));
    (0..hex.len()).step_by(2).map(byte).collect()
}

struct Comparison {
    base: Lent,
    lent: Lent,
    lengths: [usize; 3],
    output: Output,
    rng: Rng,
    seen: Seen,
    spoilt: Spoilt,
}

impl Comparison {
    fn memory(&mut self, line: usize, words: Vec<&str>) {
        if words.len() < 3 {
            end(2, line, "three lengths are due");
        }
        let lengths = numbers(line, words[..3].iter().copied());
        self.lengths = [lengths[0], lengths[1], lengths[2]];
        self.lent = edited(line, &self.base, &words[3..]);
        if self.lengths.iter().zip(self.lent.lengths()).any(|(lent, there)| *lent > there) {
            end(2, line, "more is lent than there is");
        }
    }

    /// `CALL|DUE|IMAGE`
    fn call(&mut self, line: usize, text: &str) {
        let parts: Vec<&str> = text.split('|').collect();
        let [called, due, image] = parts[..] else { end(2, line, "a call, what is due and an image are due") };
        let call = parse(format!("{called}\nend\n").as_bytes()).unwrap_or_else(|why| end(2, line, &why)).remove(0);
        let same = if image == "same" { self.lent.image() } else { Vec::new() };
        let given = if ["-", "same"].contains(&image) { same } else { bytes_of(line, image) };
        let due = Due { line: due, image: (image != "-").then_some(&given[..]) };
        let many = self.seen.get("call").copied().unwrap_or(0);
        let spoilt = if many < WHILE { Spoilt::Nothing } else { self.spoilt };
        let made = self.lent.call(&mut self.rng, &call, self.lengths, &mut self.output, &due, spoilt);
        if let Err(why) = made {
            end(1, line, &format!("{}: {why}", &called[..called.len().min(300)]));
        }
        self.note_call(&call, &due);
        if due.image.is_some() {
            self.lent.take_back();
        }
    }

    fn note_call(&mut self, call: &Call, due: &Due) {
        let short = self.lengths != self.lent.lengths();
        note(&mut self.seen, "call");
        note(&mut self.seen, &format!("export {}", name_of(&call.what)));
        let refused = due.line.strip_prefix("refused ").and_then(|rest| rest.split(' ').next());
        match refused {
            Some(number) => note(&mut self.seen, &format!("refused {number}")),
            None => note(&mut self.seen, "accepted"),
        }
        if due.image.is_some() {
            note(&mut self.seen, "changed");
        }
        if short {
            note(&mut self.seen, "with cut buffers");
        }
    }

    /// `TOTAL SIZE WORDS CELLS PARTIALS BYTES`
    fn needs(&mut self, line: usize, words: Vec<i64>) {
        let [total, size, due @ ..] = &words[..] else { end(2, line, "a geometry is due") };
        let (memory, bytes) = exports::needs(*total, *size as i32);
        let mut found = [memory.words, memory.cells, memory.partials, bytes].map(|number| number as i64);
        if self.spoilt == Spoilt::Needs {
            found[0] += 1;
        }
        if due != found {
            end(1, line, &format!("the needs are {found:?}"));
        }
        note(&mut self.seen, "needs");
    }

    /// The figures; status 2 where there were too few of a kind.
    fn told(&self) {
        let of = |name: &str| self.seen.get(name).copied().unwrap_or(0);
        for (name, least) in LEAST.iter().filter(|(name, least)| of(name) < *least) {
            end(2, 0, &format!("{} times {name}, fewer than {least}", of(name)));
        }
        let exports: Vec<(&String, &u64)> = self.seen.iter().filter(|(name, _)| name.starts_with("export ")).collect();
        if exports.len() < EXPORTS || exports.iter().any(|(_, many)| **many < EACH) {
            end(2, 0, &format!("each of {EXPORTS} exports is due {EACH} times: {exports:?}"));
        }
        let told: Vec<String> = LEAST.iter().map(|(name, _)| format!("{} {name}", of(name))).collect();
        println!("{} exports answer as the reference on any memory: {}", exports.len() + 2, told.join(", "));
    }
}

fn main() {
    let spoilt = Spoilt::named(std::env::args().nth(1).as_deref().unwrap_or("none"));
    let (base, lent) = (Lent::default(), Lent::default());
    let mut all = Comparison { base, lent, lengths: [0; 3], output: Output::new(), rng: Rng::new(5), seen: Seen::new(), spoilt };
    let mut ended = false;
    for (k, text) in std::io::stdin().lock().lines().enumerate() {
        let (line, text) = (k + 1, text.unwrap_or_else(|e| end(2, k + 1, &e.to_string())));
        let (first, rest) = text.split_once(' ').unwrap_or((&text, ""));
        let words = || rest.split(' ').filter(|word| !word.is_empty());
        match first {
            _ if ended => end(2, line, "something after the end"),
            "words" => all.base.words = numbers(line, words()),
            "cells" => all.base.cells = numbers(line, words()),
            "partials" => all.base.partials = records(line, numbers(line, words())),
            "memory" => all.memory(line, words().collect()),
            "call" => all.call(line, rest),
            "needs" => all.needs(line, numbers(line, words())),
            "end" => ended = true,
            _ => end(2, line, "no such line"),
        }
    }
    if !ended {
        end(2, 0, "the input has no `end`");
    }
    all.told();
}
