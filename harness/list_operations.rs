//! The list operations of the crate `link_lists`, on lent words and cells in which a picker stands.

/// Pieces, blocks of a whole piece, and places for partials.
#[repr(C)]
#[derive(Clone, Copy)]
pub struct Geometry {
    pub pieces: usize,
    pub blocks: usize,
    pub places: usize,
}

#[link(name = "link_lists", kind = "static")]
extern "C" {
    fn ls_rank(words: *const u64, words_len: usize, cells: *const u16, cells_len: usize, g: Geometry, piece: usize) -> u16;
    fn ls_update(words: *mut u64, words_len: usize, cells: *const u16, cells_len: usize, g: Geometry, piece: usize, old: u16,
        draws: *const u32, draws_len: usize) -> usize;
    fn ls_update_pieces(words: *mut u64, words_len: usize, cells: *const u16, cells_len: usize, g: Geometry,
        draws: *const u32, draws_len: usize) -> usize;
}

/// The geometry that the head gives.
pub fn geometry(words: &[u64]) -> Geometry {
    let pieces = words[0].div_ceil(words[1]) as usize;
    Geometry { pieces, blocks: words[1].div_ceil(16384) as usize, places: pieces.min(512) }
}

/// The rank of a piece.
pub fn rank(words: &[u64], cells: &[u16], g: Geometry, piece: usize) -> u16 {
    assert!(piece < g.pieces);
    unsafe { ls_rank(words.as_ptr(), words.len(), cells.as_ptr(), cells.len(), g, piece) }
}

/// The list mended after a piece came from rank `old` to the one it has. It was right before.
pub fn update(words: &mut [u64], cells: &[u16], g: Geometry, piece: usize, old: u16, draws: &[u32]) -> usize {
    assert!(piece < g.pieces);
    unsafe {
        ls_update(words.as_mut_ptr(), words.len(), cells.as_ptr(), cells.len(), g, piece, old, draws.as_ptr(), draws.len())
    }
}

/// The list made anew where it is dirty. Where it is not, it was right before.
pub fn update_pieces(words: &mut [u64], cells: &[u16], g: Geometry, draws: &[u32]) -> usize {
    unsafe { ls_update_pieces(words.as_mut_ptr(), words.len(), cells.as_ptr(), cells.len(), g, draws.as_ptr(), draws.len()) }
}
