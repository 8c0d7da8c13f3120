//! Writes the images of the pickers of standard input (`compare/images.py` says how they are written) by the proved code, and compares
//! their lengths and bytes with the reference's, and that no byte behind them moved. New pickers are made in buffers that held anything,
//! and their images compared; nothing beyond the needs may move. Built like the programs of `harness/run`. Prints how many were compared, which may not be
//! fewer than its argument; ends with status 1 at the first difference, 2 on bad input. With `time` as a second argument it prints how
//! fast the longest image is written, beside a copy of its bytes.
//!
//! What the proved code requires of its callers is tested here first, and input that does not meet it is bad: buffers in which no
//! well-formed picker stands, or a geometry that is not valid.

mod records;

use records::{unpack, DownloadingPiece, ROWS};
use std::hint::black_box;
use std::io::BufRead;
use std::process::exit;
use std::str::FromStr;
use std::time::Instant;

/// Pieces, blocks of a whole piece, and places for partials.
#[repr(C)]
#[derive(Clone, Copy)]
struct Geometry {
    pieces: usize,
    blocks: usize,
    places: usize,
}

#[link(name = "link_image", kind = "static")]
extern "C" {
    fn im_length(words: *const u64, words_len: usize, rows: *const u32, rows_len: usize, live: usize, g: Geometry) -> usize;
    fn im_write(words: *const u64, words_len: usize, cells: *const u16, cells_len: usize, rows: *const u32, rows_len: usize,
        live: usize, g: Geometry, bytes: *mut u8, bytes_len: usize) -> usize;
    fn im_new(words: *mut u64, words_len: usize, cells: *mut u16, cells_len: usize, total: u64, size: u64);
}

#[link(name = "link_memory", kind = "static")]
extern "C" {
    /// Asks for rows and counts of their length, and nothing else.
    fn pm_check(words: *const u64, words_len: usize, cells: *const u16, cells_len: usize, rows: *const u32, rows_len: usize,
        lent: usize, counts: *mut u16, counts_len: usize) -> u8;
}

fn bad(line: usize, why: &str) -> ! {
    eprintln!("images: line {line}: {why}");
    exit(2)
}

fn differs(line: usize, why: &str) -> ! {
    eprintln!("images: line {line}: {why}");
    exit(1)
}

fn number<T: FromStr>(line: usize, word: &str) -> T {
    word.parse().unwrap_or_else(|_| bad(line, &format!("not a number, or too large: {word}")))
}

fn numbers<T: FromStr>(line: usize, words: &[&str]) -> Vec<T> {
    words.iter().map(|w| number(line, w)).collect()
}

fn bytes(line: usize, hex: &str) -> Vec<u8> {
    if hex.len() % 2 != 0 || !hex.is_ascii() {
        bad(line, "bytes are two digits each");
    }
    (0..hex.len() / 2).map(|k| u8::from_str_radix(&hex[2 * k..2 * k + 2], 16).unwrap_or_else(|_| bad(line, "not a byte"))).collect()
}

fn records(line: usize, numbers: Vec<u32>) -> Vec<DownloadingPiece> {
    if numbers.len() % 3 != 0 {
        bad(line, "a record has three numbers");
    }
    numbers.chunks_exact(3).map(|c| DownloadingPiece { index: c[0], info_idx: c[1], flags: c[2] }).collect()
}

fn geometry(total: u64, size: u64) -> Geometry {
    let pieces = total.div_ceil(size) as usize;
    Geometry { pieces, blocks: size.div_ceil(size.min(16384)) as usize, places: pieces.min(512) }
}

/// Numbers that mean nothing, one after another.
struct Anything(u64);

impl Anything {
    fn next(&mut self) -> u64 {
        self.0 = self.0.wrapping_mul(6364136223846793005).wrapping_add(1442695040888963407);
        self.0 >> 24
    }
}

#[derive(Default)]
struct Memory {
    words: Vec<u64>,
    cells: Vec<u16>,
    partials: Vec<DownloadingPiece>,
}

impl Memory {
    /// The live records in rows; bad where no well-formed picker stands.
    fn rows(&self, line: usize) -> [u32; ROWS] {
        let (mut rows, mut counts) = ([u32::MAX; ROWS], [u16::MAX; ROWS]);
        unpack(&self.words, &self.partials, &mut rows);
        let refusal = unsafe {
            pm_check(self.words.as_ptr(), self.words.len(), self.cells.as_ptr(), self.cells.len(), rows.as_ptr(), ROWS,
                self.partials.len(), counts.as_mut_ptr(), ROWS)
        };
        if refusal != 0 {
            bad(line, "no well-formed picker stands in the buffers");
        }
        rows
    }

    fn length(&self, rows: &[u32; ROWS]) -> usize {
        let g = geometry(self.words[0], self.words[1]);
        unsafe { im_length(self.words.as_ptr(), self.words.len(), rows.as_ptr(), ROWS, self.words[7] as usize, g) }
    }

    /// In bytes that have room.
    fn write(&self, rows: &[u32; ROWS], bytes: &mut [u8]) -> usize {
        let (words, cells, g) = (&self.words, &self.cells, geometry(self.words[0], self.words[1]));
        unsafe {
            im_write(words.as_ptr(), words.len(), cells.as_ptr(), cells.len(), rows.as_ptr(), ROWS, words[7] as usize, g,
                bytes.as_mut_ptr(), bytes.len())
        }
    }

    fn compare(&self, line: usize, due: &[u8], any: &mut Anything) {
        let rows = self.rows(line);
        let long = self.length(&rows);
        if long != due.len() {
            differs(line, &format!("a length of {long} where {} is due", due.len()));
        }
        let before: Vec<u8> = (0..long + (any.next() % 40) as usize).map(|_| any.next() as u8).collect();
        let mut after = before.clone();
        let written = self.write(&rows, &mut after);
        if written != long || after[..long] != *due || after[long..] != before[long..] {
            differs(line, "another image");
        }
    }
}

/// A new picker, in buffers somewhat longer than they have to be.
fn made(line: usize, total: u64, size: u64, any: &mut Anything) -> Memory {
    if total < 1 || size < 1 || size > 4194304 || total.div_ceil(size) > 4096 {
        bad(line, "a geometry that is not valid");
    }
    let g = geometry(total, size);
    let blocks = g.places * g.blocks;
    let needs = [16 + 2 * g.pieces + blocks, 4 * g.pieces + 3 * blocks];
    let longer = any.next() as usize % 9;
    let words: Vec<u64> = (0..needs[0] + longer).map(|_| any.next()).collect();
    let cells: Vec<u16> = (0..needs[1] + longer).map(|_| any.next() as u16).collect();
    let mut memory = Memory { words: words.clone(), cells: cells.clone(), partials: Vec::new() };
    unsafe {
        im_new(memory.words.as_mut_ptr(), words.len(), memory.cells.as_mut_ptr(), cells.len(), total, size)
    }
    if memory.words[needs[0]..] != words[needs[0]..] || memory.cells[needs[1]..] != cells[needs[1]..] {
        differs(line, "something beyond the needs moved");
    }
    memory.partials = vec![DownloadingPiece { index: u32::MAX, info_idx: u32::MAX, flags: u32::MAX }; g.places];
    memory
}

/// The least of many rounds, in bytes a nanosecond: written, and copied.
fn timed(memory: &Memory, line: usize) {
    let rows = memory.rows(line);
    let long = memory.length(&rows);
    let (mut from, mut to) = (vec![0; long], vec![0; long]);
    memory.write(&rows, &mut from);
    let mut least = [f64::MAX; 3];
    for _ in 0..400 {
        for (k, least) in least.iter_mut().enumerate() {
            let start = Instant::now();
            match k {
                0 => drop(black_box(memory.write(&rows, black_box(&mut to)))),
                1 => black_box(&mut to).copy_from_slice(black_box(&from)),
                _ => drop(black_box(memory.length(&rows))),
            }
            *least = least.min(start.elapsed().as_nanos() as f64);
        }
    }
    println!("images: {long} bytes written at {:.2} GB/s, copied at {:.2} GB/s; the length told in {:.2} µs", long as f64 / least[0],
        long as f64 / least[1], least[2] / 1000.0);
}

fn main() {
    let args: Vec<String> = std::env::args().skip(1).collect();
    let least: u64 = args.first().map_or(0, |w| number(0, w));
    let (mut memory, mut any, mut images, mut news) = (Memory::default(), Anything(1), 0, 0);
    let mut longest = (0, 0, Memory::default());
    let mut whole = false;
    for (k, text) in std::io::stdin().lock().lines().enumerate() {
        let line = k + 1;
        let text = text.unwrap_or_else(|e| bad(line, &e.to_string()));
        let w: Vec<&str> = text.split(' ').collect();
        match (w[0], w.len()) {
            ("words", _) => memory = Memory { words: numbers(line, &w[1..]), ..Memory::default() },
            ("cells", _) => memory.cells = numbers(line, &w[1..]),
            ("partials", _) => memory.partials = records(line, numbers(line, &w[1..])),
            ("image", 2) => {
                let due = bytes(line, w[1]);
                memory.compare(line, &due, &mut any);
                images += 1;
                if due.len() > longest.0 {
                    longest = (due.len(), line, std::mem::take(&mut memory));
                }
            }
            ("new", 4) => {
                made(line, number(line, w[1]), number(line, w[2]), &mut any).compare(line, &bytes(line, w[3]), &mut any);
                news += 1;
            }
            ("end", 1) => whole = true,
            _ => bad(line, "no such line"),
        }
    }
    if !whole || images < least || news < least {
        eprintln!("images: {images} images and {news} new pickers, or cut short");
        exit(2);
    }
    println!("images: {images} images and {news} new pickers as the reference has them");
    if args.get(1).is_some_and(|w| w == "time") {
        timed(&longest.2, longest.1);
    }
}
