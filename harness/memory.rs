//! Runs the proved memory test on the memories of standard input (`compare/memory.py` says how they are written) and compares its verdict,
//! and the counts of a good one, with those of the reference. `harness/run` builds it. Prints how many were compared; ends with status 1 at
//! the first difference, 2 on bad input and where there were too few of a kind.

mod records;

use records::{unpack, DownloadingPiece, ROWS};
use std::io::BufRead;
use std::process::exit;
use std::str::FromStr;

#[link(name = "link_memory", kind = "static")]
extern "C" {
    fn pm_check(
        words: *const u64,
        words_len: usize,
        cells: *const u16,
        cells_len: usize,
        rows: *const u32,
        rows_len: usize,
        lent: usize,
        counts: *mut u16,
        counts_len: usize,
    ) -> u8;
}

/// The kinds of memories, and how many there have to be of each. The largest geometry is 4,096 pieces of 256 blocks.
const LEAST: [(&str, u64); 5] =
    [("good", 11000), ("short", 1000), ("ill-formed", 8000), ("of the largest geometry", 50), ("with 512 partials", 100)];

struct Memory {
    words: Vec<u64>,
    cells: Vec<u16>,
    partials: Vec<DownloadingPiece>,
}

/// A memory's line that has to be tried: verdict, lengths, edits and counts.
struct Try<'a> {
    verdict: u8,
    lent: [usize; 3],
    edits: Vec<&'a str>,
    counts: Vec<u16>,
}

fn bad(line: usize, why: &str) -> ! {
    eprintln!("memory: line {line}: {why}");
    exit(2)
}

fn number<T: FromStr>(line: usize, word: &str) -> T {
    word.parse().unwrap_or_else(|_| bad(line, &format!("not a number, or too large: {word}")))
}

fn numbers<'a, T: FromStr>(line: usize, words: impl Iterator<Item = &'a str>) -> Vec<T> {
    words.map(|w| number(line, w)).collect()
}

fn records(line: usize, numbers: Vec<u32>) -> Vec<DownloadingPiece> {
    if numbers.len() % 3 != 0 {
        bad(line, "a record has three numbers");
    }
    numbers.chunks_exact(3).map(|c| DownloadingPiece { index: c[0], info_idx: c[1], flags: c[2] }).collect()
}

impl Memory {
    /// Makes an edit, and gives the number that stood there.
    fn edit(&mut self, line: usize, buffer: &str, at: usize, value: u64) -> u64 {
        let lent = [self.words.len(), self.cells.len(), 3 * self.partials.len()];
        let which = ["w", "c", "p"].iter().position(|b| *b == buffer).unwrap_or_else(|| bad(line, "an edit of no buffer"));
        if at >= lent[which] {
            bad(line, "an edit beyond the buffer");
        }
        match which {
            0 => std::mem::replace(&mut self.words[at], value),
            1 => std::mem::replace(&mut self.cells[at], u16::try_from(value).unwrap_or_else(|_| bad(line, "too large"))) as u64,
            _ => {
                let d = &mut self.partials[at / 3];
                let field = [&mut d.index, &mut d.info_idx, &mut d.flags].into_iter().nth(at % 3).unwrap();
                std::mem::replace(field, u32::try_from(value).unwrap_or_else(|_| bad(line, "too large"))) as u64
            }
        }
    }

    /// The verdict on the buffers cut to these lengths.
    fn judged(&self, line: usize, lent: [usize; 3], rows: &mut [u32; ROWS], counts: &mut [u16; ROWS]) -> u8 {
        let (words, cells, partials) = match (self.words.get(..lent[0]), self.cells.get(..lent[1]), self.partials.get(..lent[2])) {
            (Some(words), Some(cells), Some(partials)) => (words, cells, partials),
            _ => bad(line, "more is lent than there is"),
        };
        unpack(words, partials, rows);
        unsafe {
            pm_check(words.as_ptr(), lent[0], cells.as_ptr(), lent[1], rows.as_ptr(), ROWS, lent[2], counts.as_mut_ptr(), ROWS)
        }
    }
}

fn a_try<'a>(line: usize, mut words: impl Iterator<Item = &'a str>) -> Try<'a> {
    let mut next = || number::<usize>(line, words.next().unwrap_or_else(|| bad(line, "too short")));
    let (verdict, lent) = (next() as u8, [next(), next(), next()]);
    let edits = words.by_ref().take_while(|w| *w != ":").collect();
    Try { verdict, lent, edits, counts: numbers(line, words) }
}

fn run(line: usize, memory: &mut Memory, t: &Try, rows: &mut [u32; ROWS], seen: &mut [u64; 5]) {
    let mut back = Vec::new();
    for edit in &t.edits {
        let (place, value) = edit.split_once('=').unwrap_or_else(|| bad(line, "an edit without `=`"));
        let (buffer, at) = place.split_at(1);
        let at = number(line, at);
        back.push((buffer, at, memory.edit(line, buffer, at, number(line, value))));
    }
    let mut counts = [u16::MAX; ROWS];
    let found = memory.judged(line, t.lent, rows, &mut counts);
    if found != t.verdict {
        eprintln!("memory: line {line}: {found} where {} is due", t.verdict);
        exit(1);
    }
    if t.counts.iter().enumerate().any(|(k, want)| counts[512 * (k % 3) + k / 3] != *want) {
        eprintln!("memory: line {line}: the counts are others: {:?} is due", t.counts);
        exit(1);
    }
    let largest = matches!(memory.words[..], [total, size, ..] if size == 1 << 22 && total.div_ceil(size) == 4096);
    let full = memory.words.get(7) == Some(&512);
    for (k, it) in [found == 0, found == 2, found == 3, largest, full].into_iter().enumerate() {
        seen[k] += it as u64;
    }
    for (buffer, at, value) in back.into_iter().rev() {
        memory.edit(line, buffer, at, value);
    }
}

fn main() {
    let mut memory = Memory { words: vec![], cells: vec![], partials: vec![] };
    let (mut rows, mut seen, mut ended) = ([u32::MAX; ROWS], [0; 5], false);
    for (k, text) in std::io::stdin().lock().lines().enumerate() {
        let (line, text) = (k + 1, text.unwrap_or_else(|e| bad(k + 1, &e.to_string())));
        if ended {
            bad(line, "something after the end");
        }
        let mut words = text.split(' ');
        match words.next() {
            Some("words") => memory.words = numbers(line, words),
            Some("cells") => memory.cells = numbers(line, words),
            Some("partials") => memory.partials = records(line, numbers(line, words)),
            Some("try") => run(line, &mut memory, &a_try(line, words), &mut rows, &mut seen),
            Some("end") => ended = true,
            _ => bad(line, "no such line"),
        }
    }
    if !ended {
        bad(0, "the input has no `end`");
    }
    for ((name, least), many) in LEAST.into_iter().zip(seen) {
        if many < least {
            bad(0, &format!("{many} memories {name}, fewer than {least}"));
        }
    }
    let [good, short, other, ..] = seen;
    println!("{} memories judged alike: {good} good, {short} short, {other} ill-formed", good + short + other);
}
