//! How near to its goal reading an image can come: the two passes that no reader leaves out, by hand, without bounds checks and with
//! nothing beside them: every number of pieces, blocks and list read and judged, and every number stored. Blocks in two forms: a block a turn,
//! and four or eight at once by SSE2, which every x86-64 has; the fastest forms known.

use std::arch::x86_64::*;

/// Where the blocks of a partial start, and how many there are.
pub type Part = (usize, usize);

/// Where the blocks of place p become words and cells: peers; state, num_peers and has-peer.
#[derive(Clone, Copy)]
pub struct Columns {
    pub peers: *mut u64,
    pub cells: [*mut u16; 3],
}

/// How many blocks are free, and how many are requested.
type Counts = Option<(u64, u64)>;

/// The partials of an image whose head has these sizes.
pub fn parts(data: &[u8], total: u64, size: u64) -> Vec<Part> {
    let (pieces, block) = (total.div_ceil(size), size.min(16384));
    let (mut found, mut at) = (Vec::new(), 24 + 10 * pieces as usize);
    for i in (0..pieces).filter(|i| data[27 + 10 * *i as usize] != 4) {
        let many = (total - size * i).min(size).div_ceil(block) as usize;
        found.push((at + 6, many));
        at += 6 + 13 * many;
    }
    found
}

unsafe fn read2(p: *const u8) -> u16 {
    (p as *const u16).read_unaligned().swap_bytes()
}

unsafe fn read8(p: *const u8) -> u64 {
    (p as *const u64).read_unaligned().swap_bytes()
}

/// Judged a block a turn.
pub unsafe fn judge_each(p: *const u8, many: usize) -> Counts {
    let weights = [1, 65536, 0, 0];
    let (mut lone, mut sum) = (0, 0);
    for j in 0..many {
        let q = p.add(13 * j);
        let (kind, state, num_peers, has, peer) = (*q, *q.add(1), read2(q.add(2)), *q.add(4), read8(q.add(5)));
        if kind != 4 || state > 3 || num_peers > 1000 || has > 1 {
            return None;
        }
        lone |= if has == 0 { peer } else { 0 };
        sum += *weights.get_unchecked(state as usize);
    }
    (lone == 0).then_some((sum % 65536, sum / 65536))
}

unsafe fn eight(p: *const u8) -> __m128i {
    _mm_loadl_epi64(p as *const __m128i)
}

unsafe fn sum(v: __m128i) -> u64 {
    std::mem::transmute::<__m128i, [u32; 4]>(v).iter().sum::<u32>() as u64
}

/// Judged four blocks at once.
pub unsafe fn judge_four(p: *const u8, many: usize) -> Counts {
    let [zero, one, kind, second, step] = [0, 1, 4, 0xff00, 0x100].map(|n| _mm_set1_epi32(n));
    let [front, flag, above, less] = [0xfcff, 0xfe, 23, -1].map(|n| _mm_set1_epi32(n));
    let (mut wrong, mut most, mut lone, mut free, mut requested) = (zero, zero, zero, zero, zero);
    let mut j = 0;
    while j + 4 <= many {
        let q = p.add(13 * j);
        let (a, b) = (_mm_unpacklo_epi32(eight(q), eight(q.add(13))), _mm_unpacklo_epi32(eight(q.add(26)), eight(q.add(39))));
        // kind, state and num_peers of each; has-peer of each
        let (low, high) = (_mm_unpacklo_epi64(a, b), _mm_unpackhi_epi64(a, b));
        wrong = _mm_or_si128(wrong, _mm_and_si128(_mm_xor_si128(low, kind), front));
        wrong = _mm_or_si128(wrong, _mm_and_si128(high, flag));
        let num_peers = _mm_or_si128(_mm_srli_epi32(low, 24), _mm_and_si128(_mm_srli_epi32(low, 8), second));
        most = _mm_or_si128(most, _mm_add_epi32(num_peers, above));
        let state = _mm_and_si128(low, second);
        free = _mm_sub_epi32(free, _mm_cmpeq_epi32(state, zero));
        requested = _mm_sub_epi32(requested, _mm_cmpeq_epi32(state, step));
        let without = _mm_add_epi32(_mm_and_si128(high, one), less);
        let (c, d) = (_mm_unpacklo_epi64(eight(q.add(5)), eight(q.add(18))), _mm_unpacklo_epi64(eight(q.add(31)), eight(q.add(44))));
        let (c, d) = (_mm_and_si128(c, _mm_unpacklo_epi32(without, without)), _mm_and_si128(d, _mm_unpackhi_epi32(without, without)));
        lone = _mm_or_si128(lone, _mm_or_si128(c, d));
        j += 4;
    }
    let any = _mm_or_si128(_mm_or_si128(wrong, lone), _mm_srli_epi32(most, 10));
    if _mm_movemask_epi8(_mm_cmpeq_epi8(any, zero)) != 0xffff {
        return None;
    }
    let (more_free, more_requested) = judge_each(p.add(13 * j), many - j)?;
    Some((sum(free) + more_free, sum(requested) + more_requested))
}

/// Stored a block a turn, from block j on.
unsafe fn store_from(j: usize, p: *const u8, many: usize, to: Columns) {
    for j in j..many {
        let q = p.add(13 * j);
        *to.peers.add(j) = read8(q.add(5));
        *to.cells[0].add(j) = *q.add(1) as u16;
        *to.cells[1].add(j) = read2(q.add(2));
        *to.cells[2].add(j) = *q.add(4) as u16;
    }
}

/// Stored a block a turn.
pub unsafe fn store_each(p: *const u8, many: usize, to: Columns) {
    store_from(0, p, many, to);
}

unsafe fn four(p: *const u8) -> __m128i {
    let one = |k: usize| _mm_cvtsi32_si128((p.add(13 * k) as *const i32).read_unaligned());
    _mm_unpacklo_epi64(_mm_unpacklo_epi32(one(0), one(1)), _mm_unpacklo_epi32(one(2), one(3)))
}

/// Stored eight blocks at once.
pub unsafe fn store_eight(p: *const u8, many: usize, to: Columns) {
    let [low, second] = [0xff, 0xff00].map(|n| _mm_set1_epi32(n));
    let mut j = 0;
    while j + 8 <= many {
        let q = p.add(13 * j);
        for k in 0..8 {
            *to.peers.add(j + k) = read8(q.add(13 * k + 5));
        }
        let (a, b) = (four(q.add(1)), four(q.add(53)));
        let num_peers = |v| _mm_or_si128(_mm_and_si128(_mm_srli_epi32(v, 16), low), _mm_and_si128(v, second));
        let put = |f: usize, v| _mm_storeu_si128(to.cells[f].add(j) as *mut __m128i, v);
        put(0, _mm_packs_epi32(_mm_and_si128(a, low), _mm_and_si128(b, low)));
        put(1, _mm_packs_epi32(num_peers(a), num_peers(b)));
        put(2, _mm_packs_epi32(_mm_srli_epi32(a, 24), _mm_srli_epi32(b, 24)));
        j += 8;
    }
    store_from(j, p, many, to);
}

unsafe fn read4(p: *const u8) -> u32 {
    (p as *const u32).read_unaligned().swap_bytes()
}

/// Pieces that are judged or stored at a time by columns.
const STRETCH: usize = 128;

/// Their numbers as columns: peer count, state, priority and flushed.
type Rows = [[u16; STRETCH]; 4];

fn over(x: u16, most: u16) -> u16 {
    x.saturating_sub(most)
}

/// A stretch of pieces: each number in its range, and the rank by which the list is judged. No turn over the columns has a branch.
fn judge_rows([counts, states, priorities, flushed]: &Rows, seeds: u16, ranks: &mut [u16]) -> bool {
    let (mut wrong, mut most, mut flags) = (0, 0, 0);
    for i in 0..STRETCH {
        let (count, state, priority, flush) = (counts[i], states[i], priorities[i], flushed[i]);
        wrong |= over(count, 1000 - seeds) | over(state, 6) | if flush == 1 && state != 4 { 1 } else { 0 };
        most |= priority;
        flags |= flush;
        let none = (priority == 0) | (flush == 1) | ((count == 0) & (seeds == 0)) | (state == 1) | (state == 2);
        let rank = (count % 1024 + 1) * (24 - 3 * (priority % 8)) - over(5, state).min(2);
        ranks[i] = if none { 0 } else { rank };
    }
    wrong == 0 && most < 8 && flags < 2
}

/// Pieces judged, all but those behind the last whole stretch.
pub unsafe fn judge_pieces(p: *const u8, many: usize, seeds: u16, size: u32, ranks: &mut [u16; 4096]) -> bool {
    let mut i = 0;
    while i + STRETCH <= many {
        let mut rows: Rows = [[0; STRETCH]; 4];
        for j in 0..STRETCH {
            let q = p.add(10 * (i + j));
            if *q != 2 || read4(q.add(6)) > size {
                return false;
            }
            rows[0][j] = read2(q.add(1));
            rows[1][j] = *q.add(3) as u16;
            rows[2][j] = *q.add(4) as u16;
            rows[3][j] = *q.add(5) as u16;
        }
        if !judge_rows(&rows, seeds, &mut ranks[i..i + STRETCH]) {
            return false;
        }
        i += STRETCH;
    }
    true
}

/// Pieces stored, all but those behind the last whole stretch: pad bytes as words; peer count, state, priority and flushed as cells.
pub unsafe fn store_pieces(p: *const u8, many: usize, pads: *mut u64, cells: *mut u16) {
    let mut i = 0;
    while i + STRETCH <= many {
        let mut row = [0; STRETCH];
        for j in 0..STRETCH {
            let q = p.add(10 * (i + j));
            *pads.add(i + j) = read4(q.add(6)) as u64;
            *cells.add(i + j) = read2(q.add(1));
            row[j] = read4(q.add(2));
        }
        for (f, low) in [16, 8, 0].into_iter().enumerate() {
            for j in 0..STRETCH {
                *cells.add((f + 1) * many + i + j) = (row[j] >> low) as u8 as u16;
            }
        }
        i += STRETCH;
    }
}

/// A piece that the list has is marked in its rank, which is lower than this.
const LISTED: u16 = 1 << 15;

/// The list judged: pieces with a rank, none twice, ranks never falling, none left out.
pub unsafe fn judge_list(p: *const u8, places: usize, ranks: &mut [u16]) -> bool {
    let mut last = 1;
    for k in 0..places {
        let q = p.add(5 * k);
        let piece = read4(q.add(1)) as usize;
        if *q != 6 || piece >= ranks.len() {
            return false;
        }
        let rank = ranks.get_unchecked_mut(piece);
        if *rank < last || *rank >= LISTED {
            return false;
        }
        last = *rank;
        *rank |= LISTED;
    }
    ranks.iter().fold(true, |all, rank| all & (*rank == 0 || *rank >= LISTED))
}

/// The list stored: a word of piece and rank for each place.
pub unsafe fn store_list(p: *const u8, places: usize, ranks: &[u16], list: *mut u64) {
    for k in 0..places {
        let piece = read4(p.add(5 * k + 1)) as usize;
        *list.add(k) = ((ranks.get_unchecked(piece) & (LISTED - 1)) as u64) << 16 | piece as u64;
    }
}
