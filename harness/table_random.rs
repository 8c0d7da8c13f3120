//! The `random` that the Rust draws from where it is timed: the next word of a table, as the proved code has it. The names beside it are
//! those that the oracle's modules know.

#[allow(dead_code)]
#[path = "../oracle/src/common/random.rs"]
mod words;

use std::cell::Cell;
pub use words::{Made, Words};

pub const COUNT: usize = 4352;
pub static WORDS: [u32; COUNT] = table();

thread_local!(static NEXT: Cell<usize> = const { Cell::new(0) });

const fn table() -> [u32; COUNT] {
    let mut out = [0; COUNT];
    let mut i = 0;
    while i < COUNT {
        out[i] = (i as u32).wrapping_mul(2654435761);
        i += 1;
    }
    out
}

#[inline]
pub fn random(limit: u32) -> u32 {
    let i = NEXT.get();
    NEXT.set(if i + 1 < COUNT { i + 1 } else { 0 });
    if limit < u32::MAX { WORDS[i] % (limit + 1) } else { WORDS[i] }
}

/// The number of the next word.
pub fn used() -> u64 {
    NEXT.get() as u64
}

/// The table from its first word on, whatever is lent.
pub fn lend(_: &Words) {
    NEXT.set(0);
}
