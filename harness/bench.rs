//! Times the proved memory test against the same test written by hand in Rust, on the same buffers, and against a bare pass that sums the
//! same live numbers at their widths. `harness/bench` builds and runs it. A line for each size: microseconds, the two ratios, and what the
//! parts that no form of the test leaves out take of a bare pass.

mod by_hand;
mod floor;
mod picker;
mod records;
mod turns;

use by_hand::by_hand;
use floor::parts_alone;
use picker::{buffers, Buffers, Shape};
use records::{unpack, ROWS};
use std::hint::black_box;
use turns::times;

#[link(name = "link_memory", kind = "static")]
extern "C" {
    fn pm_check(
        words: *const u64,
        words_len: usize,
        cells: *const u16,
        cells_len: usize,
        rows: *const u32,
        rows_len: usize,
        lent: usize,
        counts: *mut u16,
        counts_len: usize,
    ) -> u8;
}

/// The proved test as a call makes it: rows and counts of its own, the live records unpacked.
fn proved(mem: &Buffers) -> u8 {
    let (mut rows, mut counts) = ([0; ROWS], [0; ROWS]);
    unpack(&mem.words, &mem.partials, &mut rows);
    let (words, cells, lent) = (&mem.words[..], &mem.cells[..], mem.partials.len());
    let found = unsafe {
        pm_check(words.as_ptr(), words.len(), cells.as_ptr(), cells.len(), rows.as_ptr(), ROWS, lent, counts.as_mut_ptr(), ROWS)
    };
    black_box(&counts);
    found
}

/// A sum of 64 bytes at a time, so that where the loop lies in the program does not matter.
macro_rules! sum_of {
    ($name:ident, $number:ty, $many:expr) => {
        #[inline(never)]
        fn $name(numbers: &[$number]) -> u64 {
            let mut sums = [0; $many];
            let parts = numbers.chunks_exact($many);
            let rest = parts.remainder().iter().fold(0, |x: $number, y| x.wrapping_add(*y));
            for part in parts {
                for (x, y) in sums.iter_mut().zip(part) {
                    *x = y.wrapping_add(*x);
                }
            }
            sums.iter().fold(rest, |x, y| x.wrapping_add(*y)) as u64
        }
    };
}
sum_of!(sum_words, u64, 8);
sum_of!(sum_cells, u16, 32);

/// The live numbers, summed: head, pads, list, the pieces' cells, the live records, and the cells of their blocks.
fn bare_pass(mem: &Buffers) -> u64 {
    let (words, cells, s) = (&mem.words[..], &mem.cells[..], Shape::of(&mem.words));
    let mut out = sum_words(&words[..9]).wrapping_add(sum_words(s.pads(words))).wrapping_add(sum_words(s.list(words)));
    out = out.wrapping_add(sum_cells(&cells[..4 * s.n]));
    for d in &mem.partials[..words[7] as usize] {
        out = out.wrapping_add((d.index as u64).wrapping_add(d.flags as u64));
        for f in 0..3 {
            out = out.wrapping_add(sum_cells(&cells[s.blocks(f, d.info_idx as usize)..][..s.b]));
        }
    }
    out
}

/// A line of the table.
fn compare(n: usize, b: usize, partials: usize) {
    let mem = buffers(n, b, partials);
    let (mut counts, mut others, mut ranks) = ([[0; 3]; 512], [[0; 3]; 512], [0; 4096]);
    assert!(proved(&mem) == 0 && by_hand(&mem, &mut counts) && parts_alone(&mem, &mut ranks, &mut others));
    let [test, hand, bare, parts] = times([
        &mut || { black_box(proved(black_box(&mem))); },
        &mut || { black_box(by_hand(black_box(&mem), &mut counts)); },
        &mut || { black_box(bare_pass(black_box(&mem))); },
        &mut || { black_box(parts_alone(black_box(&mem), &mut ranks, &mut others)); },
    ]);
    println!("{n:6} {b:3} {partials:8} {test:13.2} {:12.2} {:16.2} {:13.2}", test / hand, test / bare, parts / bare);
}

fn main() {
    println!("pieces  b  partials     proved µs   to by hand   to a bare pass   parts alone");
    for n in [64, 1024, 4096] {
        for b in [16, 256] {
            for partials in [8, 64, 400] {
                if partials <= n {
                    compare(n, b, partials);
                }
            }
        }
    }
}
