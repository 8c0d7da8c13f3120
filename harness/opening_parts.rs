//! Two parts of opening and closing a partial in plain Rust, on the buffers that they are timed on: the lowest free place, and a record put
//! in or taken out. The place is found as where nothing says that places differ, by marking each; and as where that is known, by adding
//! them up. The record is put in as where nothing says that they rise by piece, in `edits`; and here as where that is known, by halving.

use crate::records::{DownloadingPiece, ROWS};

/// The lowest place that no live row has: each of theirs is marked, and the marks are looked at.
pub fn marked_place(rows: &[u32; ROWS], live: usize) -> usize {
    let mut marks = [false; 512];
    for place in &rows[512..512 + live] {
        marks[*place as usize & 511] = true;
    }
    marks.iter().position(|taken| !taken).unwrap_or(512)
}

/// The same where no two rows have one place: if they add up to the sum of the numbers below theirs, they are these, and that is it.
pub fn summed_place(rows: &[u32; ROWS], live: usize) -> usize {
    let sum = rows[512..512 + live].iter().sum::<u32>() as usize;
    if 2 * sum + live == live * live { live } else { marked_place(rows, live) }
}

/// A record put in among those that rise, the last place free: its place by halving, the others moved in a block.
pub fn insert_rising(live: &mut [DownloadingPiece], d: DownloadingPiece) {
    let n = live.len() - 1;
    let q = live[..n].partition_point(|other| other.index < d.index);
    live.copy_within(q..n, q + 1);
    live[q] = d;
}

/// A piece's record taken out of those that rise.
pub fn remove_rising(live: &mut [DownloadingPiece], piece: u32) {
    let q = live.partition_point(|other| other.index < piece);
    live.copy_within(q + 1.., q);
}
