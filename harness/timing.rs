//! What the timings of list and changes share: the pieces and counts of a row, and the least of many rounds.

use std::time::Instant;

/// The counts of n pieces, spread from 1 to `most`.
pub fn counts(n: usize, most: usize) -> Vec<u16> {
    (0..n).map(|i| 1 + (i * 547 % most) as u16).collect()
}

/// The pieces of a round, spread over all of them.
pub fn spread(n: usize) -> Vec<usize> {
    (0..16).map(|k| k * n / 16).collect()
}

/// Microseconds.
pub fn since(start: Instant) -> f64 {
    start.elapsed().as_secs_f64() * 1e6
}

/// Microseconds for each piece.
pub fn each(pieces: &[usize], mut f: impl FnMut(usize)) -> f64 {
    let start = Instant::now();
    for &i in pieces {
        f(i);
    }
    since(start) / pieces.len() as f64
}

pub fn least<const N: usize>(a: [f64; N], b: [f64; N]) -> [f64; N] {
    std::array::from_fn(|k| a[k].min(b[k]))
}
