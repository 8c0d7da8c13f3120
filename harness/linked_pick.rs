//! The proved pick of the crate `link_pick`, on buffers that the memory test accepted.

use crate::lent::Lent;
use crate::list_operations::Geometry;
use crate::records::ROWS;
use oracle::script::Pick;

/// The arguments of a pick but for the lent slices.
#[repr(C)]
struct Request {
    options: u16,
    wanted: usize,
    contiguous: usize,
    peers: usize,
    has_peer: bool,
    peer: u64,
    bits: usize,
}

/// Where the output ends, the flags set, the draws used and the steps of the seven loops.
#[repr(C)]
pub struct Picked {
    pub end: usize,
    pub flags: u32,
    pub used: usize,
    pub loops: [u64; 7],
}

#[link(name = "link_pick", kind = "static")]
extern "C" {
    fn pk_pick_pieces(words: *mut u64, words_len: usize, cells: *const u16, cells_len: usize, rows: *const u32, rows_len: usize,
        live: usize, counts: *const u16, counts_len: usize, g: Geometry, request: Request, bytes: *const u8, bytes_len: usize,
        suggestions: *const i32, suggestions_len: usize, draws: *const u32, draws_len: usize, out: *mut u64, out_len: usize, end: usize) -> Picked;
}

/// A pick that no refusal stops: its blocks stand in the output from place `end` on.
#[inline(always)]
pub fn pick_pieces(lent: &mut Lent, pick: &Pick, suggestions: &[i32], draws: &[u32], out: &mut [u64], end: usize) -> Picked {
    let (live, geometry) = (lent.live(), lent.geometry());
    let request = Request {
        options: pick.options,
        wanted: pick.wanted as usize,
        contiguous: pick.run as usize,
        peers: pick.peers as usize,
        has_peer: pick.peer.is_some(),
        // what is lent beside no peer means nothing
        peer: pick.peer.unwrap_or(7),
        bits: pick.bits as usize,
    };
    let (words, cells) = (&mut lent.words, &lent.cells);
    unsafe {
        pk_pick_pieces(words.as_mut_ptr(), words.len(), cells.as_ptr(), cells.len(), lent.rows.as_ptr(), ROWS, live,
            lent.counts.as_ptr(), ROWS, geometry, request, pick.bytes.as_ptr(), pick.bytes.len(), suggestions.as_ptr(),
            suggestions.len(), draws.as_ptr(), draws.len(), out.as_mut_ptr(), out.len(), end)
    }
}

/// The place that the oracle's number of a suggestion has: one that no piece index holds is out of range, as -1 is.
pub fn suggestions_of(pick: &Pick) -> Vec<i32> {
    pick.suggestions.iter().map(|number| i32::try_from(*number).unwrap_or(-1)).collect()
}
