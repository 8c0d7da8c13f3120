//! A picker in three buffers, for timing: where its numbers stand, and one of any size.

use crate::records::DownloadingPiece;

pub const HEAD: usize = 16;
pub const BLOCK: u64 = 16384;

pub struct Shape {
    pub n: usize,
    pub b: usize,
    pub m: usize,
}

impl Shape {
    pub fn of(words: &[u64]) -> Shape {
        let n = words[0].div_ceil(words[1]) as usize;
        Shape { n, b: words[1].div_ceil(words[1].min(BLOCK)) as usize, m: n.min(512) }
    }
    /// Words, cells and records that there have to be.
    #[allow(dead_code)]
    pub fn needs(&self) -> [usize; 3] {
        [HEAD + 2 * self.n + self.m * self.b, 4 * self.n + 3 * self.m * self.b, self.m]
    }
    pub fn pads<'a>(&self, words: &'a [u64]) -> &'a [u64] {
        &words[HEAD..HEAD + self.n]
    }
    pub fn list<'a>(&self, words: &'a [u64]) -> &'a [u64] {
        &words[HEAD + self.n..HEAD + self.n + words[6] as usize]
    }
    /// Cell column f of the pieces: count, state, priority, flushed.
    pub fn pieces<'a>(&self, cells: &'a [u16], f: usize) -> &'a [u16] {
        &cells[f * self.n..(f + 1) * self.n]
    }
    pub fn blocks_in_piece(&self, words: &[u64], i: usize) -> usize {
        words[1].min(words[0] - i as u64 * words[1]).div_ceil(words[1].min(BLOCK)) as usize
    }
    /// Where the peers of a place's blocks start, among the words.
    pub fn peers(&self, place: usize) -> usize {
        HEAD + 2 * self.n + place * self.b
    }
    /// Where cell column f of a place's blocks starts: state, num_peers, has-peer.
    pub fn blocks(&self, f: usize, place: usize) -> usize {
        4 * self.n + (f * self.m + place) * self.b
    }
}

pub struct Buffers {
    pub words: Vec<u64>,
    pub cells: Vec<u16>,
    pub partials: Vec<DownloadingPiece>,
}

/// The rank of a piece whose cells are in range.
pub fn rank(seeds: u16, count: u16, state: u16, priority: u16, flushed: u16) -> u16 {
    if priority == 0 || flushed == 1 || count + seeds == 0 || state == 1 || state == 2 {
        return 0;
    }
    let less = if state >= 5 { 1 } else if state == 4 { 2 } else { 3 };
    (count + 1) * (8 - priority) * 3 - less + 1
}

/// A picker of n pieces of b blocks with so many partials, half of their blocks requested, and a list that is not dirty.
pub fn buffers(n: usize, b: usize, partials: usize) -> Buffers {
    let s = Shape { n, b, m: n.min(512) };
    let mut words = vec![0; HEAD + 2 * n + s.m * b];
    let mut cells = vec![0; 4 * n + 3 * s.m * b];
    let mut records = vec![DownloadingPiece { index: 0, info_idx: 0, flags: 0 }; s.m];
    words[..9].copy_from_slice(&[(n * b) as u64 * BLOCK, b as u64 * BLOCK, 1, 0, n as u64, 0, n as u64, partials as u64, 0]);
    for i in 0..n {
        cells[i] = (i * 7 % 23) as u16;
        cells[n + i] = 4;
        cells[2 * n + i] = 1 + (i % 7) as u16;
    }
    for (k, d) in records.iter_mut().enumerate().take(partials) {
        *d = DownloadingPiece { index: (k * (n / partials)) as u32, info_idx: (s.m - 1 - k) as u32, flags: 0 };
        cells[n + d.index as usize] = 0;
        for f in 0..3 {
            cells[s.blocks(f, s.m - 1 - k)..][..b].iter_mut().step_by(2).for_each(|c| *c = 1);
        }
    }
    let key = |i: usize| rank(1, cells[i], cells[n + i], cells[2 * n + i], 0) as u64;
    let mut order: Vec<usize> = (0..n).collect();
    order.sort_by_key(|i| key(*i));
    for (k, i) in order.into_iter().enumerate() {
        words[HEAD + n + k] = key(i) << 16 | i as u64;
    }
    Buffers { words, cells, partials: records }
}
