//! Leads pickers in three lent buffers through the list operations of standard input, by the proved code, and compares list and draws used
//! with what oracle and reference have after each, the ranks in the list's words with the reference's, and that nothing else changed. The
//! queues of each picker are compared with the reference's. `harness/run` builds it. Prints how many were compared, which may not be
//! fewer than its argument; ends with status 1 at the first difference, 2 on bad input.
//!
//! What the proved code requires of its callers is tested here first, and input that does not meet it is bad: buffers in which no
//! well-formed picker stands, at `start`; later a piece, a count or a priority out of range, or a change of another piece's rank.

mod list_operations;
mod records;

use list_operations::{geometry, Geometry};
use records::{unpack, DownloadingPiece, ROWS};
use std::io::BufRead;
use std::process::exit;
use std::str::FromStr;

#[link(name = "link_lists", kind = "static")]
extern "C" {
    fn ls_queue_place(words: *const u64, words_len: usize, cells: *const u16, cells_len: usize, rows: *const u32, rows_len: usize,
        live: usize, g: Geometry, q: usize, k: usize) -> usize;
}

#[link(name = "link_memory", kind = "static")]
extern "C" {
    /// Asks for rows and counts of their length, and nothing else.
    fn pm_check(words: *const u64, words_len: usize, cells: *const u16, cells_len: usize, rows: *const u32, rows_len: usize,
        lent: usize, counts: *mut u16, counts_len: usize) -> u8;
}

/// The most that a piece's count, state, priority and flushed may be, in this order.
const MOST: [u16; 4] = [1000, 6, 7, 1];

fn bad(line: usize, why: &str) -> ! {
    eprintln!("lists: line {line}: {why}");
    exit(2)
}

fn number<T: FromStr>(line: usize, text: &str) -> T {
    text.parse().unwrap_or_else(|_| bad(line, "not a number, or too large"))
}

fn numbers<T: FromStr>(line: usize, text: &str) -> Vec<T> {
    if text == "-" {
        return Vec::new();
    }
    text.split(',').map(|w| number(line, w)).collect()
}

fn partials(line: usize, text: &str) -> Vec<DownloadingPiece> {
    let numbers: Vec<u32> = numbers(line, text);
    if numbers.len() % 3 != 0 {
        bad(line, "a record has three numbers");
    }
    numbers.chunks_exact(3).map(|c| DownloadingPiece { index: c[0], info_idx: c[1], flags: c[2] }).collect()
}

/// Buffers in which a picker stands, its counts and priorities in range, its list dirty or right. Words of the head: 2 seeds, 5 dirty,
/// 6 the list's length.
struct Memory {
    words: Vec<u64>,
    cells: Vec<u16>,
}

impl Memory {
    /// The buffers, whose four queues are compared.
    fn start(line: usize, w: &[&str]) -> Memory {
        let memory = Memory { words: numbers(line, w[0]), cells: numbers(line, w[1]) };
        let partials = partials(line, w[2]);
        let (mut rows, mut counts) = ([u32::MAX; ROWS], [u16::MAX; ROWS]);
        unpack(&memory.words, &partials, &mut rows);
        let refusal = unsafe {
            pm_check(memory.words.as_ptr(), memory.words.len(), memory.cells.as_ptr(), memory.cells.len(), rows.as_ptr(), ROWS,
                partials.len(), counts.as_mut_ptr(), ROWS)
        };
        if refusal != 0 {
            bad(line, "no well-formed picker stands in the buffers");
        }
        for (q, due) in w[3..].iter().enumerate() {
            let found = memory.queue(&rows, q);
            if found != numbers(line, due) {
                eprintln!("lists: line {line}: queue {q} is {found:?} where {due} is due");
                exit(1);
            }
        }
        memory
    }

    /// The places of queue q among the partials, whose records are in the rows.
    fn queue(&self, rows: &[u32; ROWS], q: usize) -> Vec<usize> {
        assert!(q < 4);
        let (words, cells, live) = (&self.words, &self.cells, self.words[7] as usize);
        let place = |k| unsafe {
            ls_queue_place(words.as_ptr(), words.len(), cells.as_ptr(), cells.len(), rows.as_ptr(), ROWS, live, geometry(words), q, k)
        };
        (0..).map(place).take_while(|place| *place < 512).collect()
    }

    fn pieces(&self) -> usize {
        geometry(&self.words).pieces
    }

    fn rank(&self, piece: usize) -> u16 {
        list_operations::rank(&self.words, &self.cells, geometry(&self.words), piece)
    }

    /// The pieces as a call leaves them, each given as count.state.priority.flushed.
    fn set_pieces(&mut self, line: usize, seeds: &str, pieces: &str) {
        self.words[2] = number(line, seeds);
        let (n, pieces) = (self.pieces(), pieces.split(',').collect::<Vec<_>>());
        if pieces.len() != n {
            bad(line, "not as many pieces as the picker has");
        }
        for (i, piece) in pieces.iter().enumerate() {
            let fields: Vec<u16> = piece.split('.').map(|word| number(line, word)).collect();
            if fields.len() != MOST.len() || fields.iter().zip(MOST).any(|(field, most)| *field > most) {
                bad(line, &format!("a field of piece {i} is missing or out of range"));
            }
            for (f, field) in fields.iter().enumerate() {
                self.cells[f * n + i] = *field;
            }
        }
    }

    fn ranks(&self) -> Vec<u16> {
        (0..self.pieces()).map(|i| self.rank(i)).collect()
    }

    fn update(&mut self, line: usize, w: &[&str]) {
        let piece = number(line, w[0]);
        let mut before = self.ranks();
        let old = *before.get(piece).unwrap_or_else(|| bad(line, "a piece out of range"));
        self.set_pieces(line, w[2], w[3]);
        before[piece] = self.rank(piece);
        if self.ranks() != before {
            bad(line, "the rank of another piece changes");
        }
        let (due, cells) = (self.with_list(line, &numbers(line, w[5])), self.cells.clone());
        let g = geometry(&self.words);
        let used = list_operations::update(&mut self.words, &self.cells, g, piece, old, &numbers(line, w[4]));
        self.compare(line, &due, &cells, used, w[1]);
    }

    fn rebuild(&mut self, line: usize, w: &[&str]) {
        if self.words[5] != 1 {
            bad(line, "the list is not dirty");
        }
        self.set_pieces(line, w[1], w[2]);
        let (due, cells) = (self.with_list(line, &numbers(line, w[4])), self.cells.clone());
        let g = geometry(&self.words);
        let used = list_operations::update_pieces(&mut self.words, &self.cells, g, &numbers(line, w[3]));
        self.compare(line, &due, &cells, used, w[0]);
        if list_operations::update_pieces(&mut self.words, &self.cells, g, &[]) != 0 {
            eprintln!("lists: line {line}: a list that is not dirty takes draws");
            exit(1);
        }
        self.compare(line, &due, &cells, used, w[0]);
    }

    fn dirty(&mut self) {
        self.words[5..7].copy_from_slice(&[1, 0]);
    }

    /// The words with another list, and nothing else changed.
    fn with_list(&self, line: usize, list: &[u64]) -> Vec<u64> {
        let n = self.pieces();
        if list.len() > n {
            bad(line, "a list longer than there are pieces");
        }
        let mut due = self.words.clone();
        due[5..7].copy_from_slice(&[0, list.len() as u64]);
        due[16 + n..16 + n + list.len()].copy_from_slice(list);
        due
    }

    fn compare(&self, line: usize, due: &[u64], cells: &[u16], used: usize, used_due: &str) {
        if self.words != due || self.cells != cells || used != number::<usize>(line, used_due) {
            let at = (0..due.len()).find(|&k| self.words[k] != due[k]);
            eprintln!("lists: line {line}: {used} draws where {used_due} are due; the first other word is {at:?}");
            exit(1);
        }
    }
}

fn main() {
    let (mut done, mut ended, mut memory) = (0u64, false, None);
    for (k, line) in std::io::stdin().lock().lines().enumerate() {
        let line = line.unwrap_or_else(|e| bad(k + 1, &e.to_string()));
        let w: Vec<&str> = line.split(' ').collect();
        match (w[0], w.len(), &mut memory) {
            _ if ended => bad(k + 1, "a line after `end`"),
            ("start", 8, _) => memory = Some(Memory::start(k + 1, &w[1..])),
            ("update", 7, Some(m)) => m.update(k + 1, &w[1..]),
            ("rebuild", 6, Some(m)) => m.rebuild(k + 1, &w[1..]),
            ("dirty", 1, Some(m)) => m.dirty(),
            ("end", 1, _) => ended = true,
            _ => bad(k + 1, "no list operation"),
        }
        done += u64::from(["update", "rebuild"].contains(&w[0]));
    }
    if !ended {
        bad(0, "the input has no `end`");
    }
    let least = std::env::args().nth(1).map_or(0, |n| number(0, &n));
    if done < least {
        bad(0, &format!("{done} list operations, fewer than {least}"));
    }
    println!("{done} list operations: lent buffers, reference and oracle agree");
}
