//! The records of partials as the library has them, and the rows that a call works on: three columns of 512.

pub const ROWS: usize = 1536;

#[repr(C)]
#[derive(Clone, Copy, PartialEq)]
pub struct DownloadingPiece {
    pub index: u32,
    pub info_idx: u32,
    pub flags: u32,
}

/// The live records by word 7 of the head, as far as they are lent, each in its row; what stands in the other rows stays.
pub fn unpack(words: &[u64], partials: &[DownloadingPiece], rows: &mut [u32; ROWS]) {
    let live = if words.len() < 16 { 0 } else { words[7].min(512) as usize };
    for (k, d) in partials.iter().take(live).enumerate() {
        rows[k] = d.index;
        rows[512 + k] = d.info_idx;
        rows[1024 + k] = d.flags;
    }
}
