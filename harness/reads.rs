//! Reads the images of `compare.judged` (standard input), whole and damaged, into lent buffers by the proved code. One that the reference
//! accepts has to be read into buffers as long as they have to be or somewhat longer: the memory test finds the picker well-formed, its
//! image is written again byte for byte, nothing beyond the needs moved; a buffer that is one too short is refused with 2. One that the
//! reference refuses is refused with 13, in buffers of any length. A refusal leaves every buffer as it was. Built like the programs of
//! `harness/run`. Prints how many were compared, and ends with status 1 at the first difference. With `time` as an argument it prints
//! instead how fast the longest images of `compare.images` (standard input) are read, beside a copy of their bytes, the memory test, and the
//! passes that no reader leaves out, by hand.

mod read_floor;
mod records;

use read_floor::{judge_each, judge_four, judge_list, judge_pieces, parts, store_each, store_eight, store_list, store_pieces, Columns, Part};
use records::{unpack, DownloadingPiece, ROWS};
use std::hint::black_box;
use std::io::BufRead;
use std::process::exit;
use std::time::Instant;

/// Pieces, blocks of a whole piece, and places for partials.
#[repr(C)]
#[derive(Clone, Copy)]
struct Geometry {
    pieces: usize,
    blocks: usize,
    places: usize,
}

#[link(name = "link_read", kind = "static")]
extern "C" {
    fn im_read(bytes: *const u8, bytes_len: usize, words: *mut u64, words_len: usize, cells: *mut u16, cells_len: usize,
        rows: *mut u32, rows_len: usize, lent: usize) -> u8;
}

#[link(name = "link_judge", kind = "static")]
extern "C" {
    fn im_judge_image(bytes: *const u8, bytes_len: usize) -> usize;
}

#[link(name = "link_image", kind = "static")]
extern "C" {
    fn im_write(words: *const u64, words_len: usize, cells: *const u16, cells_len: usize, rows: *const u32, rows_len: usize,
        live: usize, g: Geometry, bytes: *mut u8, bytes_len: usize) -> usize;
}

#[link(name = "link_memory", kind = "static")]
extern "C" {
    fn pm_check(words: *const u64, words_len: usize, cells: *const u16, cells_len: usize, rows: *const u32, rows_len: usize,
        lent: usize, counts: *mut u16, counts_len: usize) -> u8;
}

fn differs(line: usize, why: &str) -> ! {
    eprintln!("reads: line {line}: {why}");
    exit(1)
}

fn bytes(hex: &str) -> Vec<u8> {
    if hex == "-" { return Vec::new(); }
    (0..hex.len()).step_by(2).map(|k| u8::from_str_radix(&hex[k..k + 2], 16).unwrap()).collect()
}

/// Numbers that mean nothing, one after another.
struct Anything(u64);

impl Anything {
    fn next(&mut self) -> u64 {
        self.0 = self.0.wrapping_mul(6364136223846793005).wrapping_add(1442695040888963407);
        self.0 >> 24
    }
}

/// Words, cells and rows that are lent, with the number of lent records.
#[derive(Clone, PartialEq)]
struct Lent {
    words: Vec<u64>,
    cells: Vec<u16>,
    rows: [u32; ROWS],
    records: usize,
}

impl Lent {
    /// Buffers that hold anything.
    fn anything(words: usize, cells: usize, records: usize, any: &mut Anything) -> Lent {
        let mut lent = Lent { words: vec![0; words], cells: vec![0; cells], rows: [0; ROWS], records };
        lent.words.iter_mut().for_each(|w| *w = any.next());
        lent.cells.iter_mut().for_each(|c| *c = any.next() as u16);
        lent.rows.iter_mut().for_each(|r| *r = any.next() as u32);
        lent
    }

    fn read(&mut self, data: &[u8]) -> u8 {
        unsafe {
            im_read(data.as_ptr(), data.len(), self.words.as_mut_ptr(), self.words.len(), self.cells.as_mut_ptr(), self.cells.len(),
                self.rows.as_mut_ptr(), ROWS, self.records)
        }
    }

    fn check(&self, counts: &mut [u16; ROWS]) -> u8 {
        unsafe {
            pm_check(self.words.as_ptr(), self.words.len(), self.cells.as_ptr(), self.cells.len(), self.rows.as_ptr(), ROWS,
                self.records, counts.as_mut_ptr(), ROWS)
        }
    }

    fn write(&self, g: Geometry, data: &mut [u8]) -> usize {
        unsafe {
            im_write(self.words.as_ptr(), self.words.len(), self.cells.as_ptr(), self.cells.len(), self.rows.as_ptr(), ROWS,
                self.words[7] as usize, g, data.as_mut_ptr(), data.len())
        }
    }
}

/// The geometry in the head of an image.
fn geometry(data: &[u8]) -> Geometry {
    let total = u64::from_be_bytes(data[1..9].try_into().unwrap());
    let size = u32::from_be_bytes(data[9..13].try_into().unwrap()) as u64;
    let pieces = total.div_ceil(size) as usize;
    Geometry { pieces, blocks: size.div_ceil(size.min(16384)) as usize, places: pieces.min(512) }
}

/// What a picker needs: words, cells, records.
fn needs(g: Geometry) -> [usize; 3] {
    let blocks = g.places * g.blocks;
    [16 + 2 * g.pieces + blocks, 4 * g.pieces + 3 * blocks, g.places]
}

fn accepted(line: usize, data: &[u8], any: &mut Anything) {
    let g = geometry(data);
    let need = needs(g);
    let longer = any.next() as usize % 5;
    let before = Lent::anything(need[0] + longer, need[1] + longer, need[2] + longer, any);
    let mut after = before.clone();
    if after.read(data) != 0 {
        differs(line, "an image is refused");
    }
    if after.words[need[0]..] != before.words[need[0]..] || after.cells[need[1]..] != before.cells[need[1]..] {
        differs(line, "something beyond the needs moved");
    }
    if after.check(&mut [0; ROWS]) != 0 {
        differs(line, "no well-formed picker stands in the buffers");
    }
    // the records that the rows are packed as, unpacked by the next call
    let live = after.words[7] as usize;
    let record = |k: usize| DownloadingPiece { index: after.rows[k], info_idx: after.rows[512 + k], flags: after.rows[1024 + k] };
    let partials: Vec<DownloadingPiece> = (0..live).map(record).collect();
    let mut again = after.clone();
    unpack(&after.words, &partials, &mut again.rows);
    let mut written = vec![0xAA; data.len() + 3];
    if again.write(g, &mut written) != data.len() || written[..data.len()] != *data {
        differs(line, "another image is written again");
    }
    let short = any.next() as usize % 3;
    let less = |k: usize| need[k] - (k == short) as usize;
    let before = Lent::anything(less(0), less(1), less(2), any);
    let mut after = before.clone();
    if after.read(data) != 2 || after != before {
        differs(line, "a buffer is too short, and 2 is not answered, or something moved");
    }
}

fn refused(line: usize, data: &[u8], any: &mut Anything) {
    let before = Lent::anything(any.next() as usize % 60, any.next() as usize % 60, any.next() as usize % 5, any);
    let mut after = before.clone();
    if after.read(data) != 13 || after != before {
        differs(line, "a fault, and 13 is not answered, or something moved");
    }
}

/// The passes by hand that no reader leaves out, over all partials: judged and stored a block a turn, and many at once.
fn by_hand(k: usize, data: &[u8], parts: &[Part], g: Geometry, lent: &mut Lent) {
    let (peers, cells) = (lent.words[16 + 2 * g.pieces..].as_mut_ptr(), lent.cells[4 * g.pieces..].as_mut_ptr());
    for (p, &(start, many)) in parts.iter().enumerate() {
        unsafe {
            let column = |f: usize| cells.add((f * g.places + p) * g.blocks);
            let to = Columns { peers: peers.add(p * g.blocks), cells: [column(0), column(1), column(2)] };
            let from = data.as_ptr().add(start);
            match k {
                0 => drop(black_box(judge_each(from, many).unwrap())),
                1 => store_each(from, many, to),
                2 => drop(black_box(judge_four(from, many).unwrap())),
                _ => store_eight(from, many, to),
            }
        }
    }
}

/// Pieces and list by hand: judged, or stored.
fn rest_by_hand(stores: bool, data: &[u8], size: u32, g: Geometry, lent: &mut Lent, ranks: &mut [u16; 4096]) {
    let (n, places) = (g.pieces, lent.words[6] as usize);
    let start = data.len() - 5 * places;
    unsafe {
        let (pieces, list) = (data.as_ptr().add(24), data.as_ptr().add(start));
        if stores {
            store_pieces(pieces, n, lent.words[16..].as_mut_ptr(), lent.cells.as_mut_ptr());
            store_list(list, places, &ranks[..n], lent.words[16 + n..].as_mut_ptr());
        } else {
            let seeds = lent.words[2] as u16;
            assert!(judge_pieces(pieces, n, seeds, size, ranks) && (lent.words[5] == 1 || judge_list(list, places, &mut ranks[..n])));
        }
    }
}

/// The least of many rounds, in nanoseconds. What is stored by hand has to be what was read.
fn timed(data: &[u8]) {
    let g = geometry(data);
    let need = needs(g);
    let mut lent = Lent::anything(need[0], need[1], need[2], &mut Anything(1));
    let head = |k: usize, w: usize| data[k..k + w].iter().fold(0, |n, b| n << 8 | *b as u64);
    let parts = parts(data, head(1, 8), head(9, 4));
    let (mut to, mut counts) = (vec![0; data.len()], [0; ROWS]);
    lent.read(data);
    let mut again = lent.clone();
    for form in [1, 3] {
        again.words[16 + 2 * g.pieces..][..parts.len() * g.blocks].fill(0);
        again.cells[4 * g.pieces..].fill(0);
        by_hand(form, data, &parts, g, &mut again);
        for (p, &(_, many)) in parts.iter().enumerate() {
            let same = |f: usize| {
                let at = 4 * g.pieces + (f * g.places + p) * g.blocks;
                again.cells[at..at + many] == lent.cells[at..at + many]
            };
            let at = 16 + 2 * g.pieces + p * g.blocks;
            if again.words[at..at + many] != lent.words[at..at + many] || !(same(0) && same(1) && same(2)) {
                differs(0, "what is stored by hand is not what is read");
            }
        }
    }
    let (size, mut ranks) = (head(9, 4) as u32, [0; 4096]);
    again.words[16..16 + 2 * g.pieces].fill(0);
    again.cells[..4 * g.pieces].fill(0);
    rest_by_hand(false, data, size, g, &mut again, &mut ranks);
    rest_by_hand(true, data, size, g, &mut again, &mut ranks);
    let listed = 16 + g.pieces + lent.words[6] as usize;
    if again.words[..listed] != lent.words[..listed] || again.cells[..4 * g.pieces] != lent.cells[..4 * g.pieces] {
        differs(0, "pieces or list stored by hand are not what is read");
    }
    let mut least = [f64::MAX; 10];
    for _ in 0..400 {
        for (k, least) in least.iter_mut().enumerate() {
            let start = Instant::now();
            match k {
                0 => drop(black_box(lent.read(black_box(data)))),
                1 => black_box(&mut to).copy_from_slice(black_box(data)),
                2 => drop(black_box(lent.check(black_box(&mut counts)))),
                3 => drop(black_box(unsafe { im_judge_image(black_box(data).as_ptr(), data.len()) })),
                4..=7 => by_hand(k - 4, black_box(data), &parts, g, &mut lent),
                _ => rest_by_hand(k == 9, black_box(data), size, g, &mut lent, &mut ranks),
            }
            *least = least.min(start.elapsed().as_nanos() as f64);
        }
    }
    let goal = 3.0 * least[2] + 2.0 * least[1];
    println!("reads: {} bytes read in {:.2} µs, {:.2} GB/s; copied in {:.2} µs, tested in {:.2} µs; {:.2} of 3 tests and 2 copies",
        data.len(), least[0] / 1000.0, data.len() as f64 / least[0], least[1] / 1000.0, least[2] / 1000.0, least[0] / goal);
    let blocks: usize = parts.iter().map(|part| part.1).sum();
    println!("  judged in {:.2} µs; {blocks} blocks by hand, judged and stored: a block a turn {:.2} and {:.2} µs, {:.2} of that goal; \
        many at once {:.2} and {:.2}, {:.2}", least[3] / 1000.0, least[4] / 1000.0, least[5] / 1000.0, (least[4] + least[5]) / goal,
        least[6] / 1000.0, least[7] / 1000.0, (least[6] + least[7]) / goal);
    let rest = least[8] + least[9];
    println!("  pieces and list by hand, judged and stored: {:.2} and {:.2} µs; with the blocks a block a turn {:.2} of that goal, \
        many at once {:.2}",
        least[8] / 1000.0, least[9] / 1000.0, (least[4] + least[5] + rest) / goal, (least[6] + least[7] + rest) / goal);
}

fn main() {
    let lines = std::io::stdin().lock().lines().map(|line| line.unwrap());
    if std::env::args().nth(1).is_some_and(|w| w == "time") {
        let mut images: Vec<Vec<u8>> = lines.filter_map(|l| l.strip_prefix("image ").map(bytes)).collect();
        images.sort_by_key(|data| data.len());
        images.iter().rev().take(4).for_each(|data| timed(data));
        return;
    }
    let (mut any, mut read, mut faults) = (Anything(7), 0, 0);
    for (k, text) in lines.enumerate() {
        let fields: Vec<&str> = text.split(' ').collect();
        if fields[0] != "image" {
            continue;
        }
        let data = bytes(fields[1]);
        if fields[2] == "-" {
            accepted(k + 1, &data, &mut any);
            read += 1;
        } else {
            refused(k + 1, &data, &mut any);
            faults += 1;
        }
    }
    if read == 0 || faults == 0 {
        eprintln!("reads: {read} images and {faults} faults, or cut short");
        exit(2);
    }
    println!("reads: {read} images read, and written again as they were; {faults} refused with nothing moved");
}
