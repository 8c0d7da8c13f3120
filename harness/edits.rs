//! The three edits of the live records that a change answers, by the steps of `memory_edits::apply`, so that they can stand for it where
//! changes are timed. Each answers false where it does not fit.

use crate::records::DownloadingPiece;

/// A record in the place of its piece's.
pub fn replace(live: &mut [DownloadingPiece], d: DownloadingPiece) -> bool {
    let k = seek(live, d.index, |other| other.index == d.index);
    let fits = k < live.len();
    if fits {
        live[k] = d;
    }
    fits
}

/// A record put in before those of higher pieces; the last place is free.
pub fn insert(live: &mut [DownloadingPiece], d: DownloadingPiece) -> bool {
    let n = live.len() - 1;
    let q = seek(&live[..n], d.index, |other| d.index < other.index);
    if q > 0 && live[q - 1].index == d.index {
        return false;
    }
    open_gap(live, q, n);
    live[q] = d;
    true
}

/// The records from i to n - 1 go up by one place, the last one first.
fn open_gap(live: &mut [DownloadingPiece], i: usize, n: usize) {
    for k in (i..n).rev() {
        let d = get(live, k);
        put(live, k + 1, d);
    }
}

/// The piece's record taken out; the last one then stands twice.
pub fn remove(live: &mut [DownloadingPiece], piece: u32) -> bool {
    let q = seek(live, piece, |other| other.index == piece);
    if live.len() <= q {
        return false;
    }
    close_gap(live, q, live.len() - 1);
    true
}

/// The records after i, up to the last, go down by one place, the first one first.
fn close_gap(live: &mut [DownloadingPiece], i: usize, last: usize) {
    for k in i..last {
        let d = get(live, k + 1);
        put(live, k, d);
    }
}

/// Field by field. The place is one of the slice: nothing here asks for another.
#[inline(always)]
fn get(live: &[DownloadingPiece], k: usize) -> DownloadingPiece {
    let d = unsafe { live.get_unchecked(k) };
    DownloadingPiece { index: d.index, info_idx: d.info_idx, flags: d.flags }
}

#[inline(always)]
fn put(live: &mut [DownloadingPiece], k: usize, d: DownloadingPiece) {
    let place = unsafe { live.get_unchecked_mut(k) };
    (place.index, place.info_idx, place.flags) = (d.index, d.info_idx, d.flags);
}

/// The first record that passes, or their number. None of a lower piece passes.
fn seek(live: &[DownloadingPiece], piece: u32, passes: impl Fn(DownloadingPiece) -> bool) -> usize {
    let mut k = skip_lower(live, piece);
    while k < live.len() {
        if passes(get(live, k)) {
            break;
        }
        k += 1;
    }
    k
}

/// A place before which all records are of lower pieces. They rise, so that one tells of sixteen.
fn skip_lower(live: &[DownloadingPiece], piece: u32) -> usize {
    let mut k = 0;
    while k + 16 <= live.len() {
        if piece <= get(live, k + 15).index {
            break;
        }
        k += 16;
    }
    k
}
