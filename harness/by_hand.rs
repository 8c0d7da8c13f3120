//! The memory test written by hand in Rust, on the same buffers.

use crate::picker::{rank, Buffers, Shape, HEAD};
use crate::records::DownloadingPiece;

pub fn by_hand(mem: &Buffers, counts: &mut [[u16; 3]; 512]) -> bool {
    let (words, cells, partials) = (&mem.words[..], &mem.cells[..], &mem.partials[..]);
    if words.len() < HEAD {
        return false;
    }
    let (total, size) = (words[0], words[1]);
    if total < 1 || size < 1 || size > 4194304 || total > 4096 * size {
        return false;
    }
    let s = Shape::of(words);
    let blocks = s.m * s.b;
    if words.len() < HEAD + 2 * s.n + blocks || cells.len() < 4 * s.n + 3 * blocks || partials.len() < s.m {
        return false;
    }
    let mut ranks = [0; 4096];
    head(words, &s)
        && pieces(words, cells, &s, &mut ranks)
        && live(words, cells, &partials[..words[7] as usize], &s, counts)
        && extents(words, &s)
        && list(words, &s, &mut ranks)
}

fn head(words: &[u64], s: &Shape) -> bool {
    let n = s.n as u64;
    words[2] <= 1000
        && words[3] <= n
        && words[4] <= n
        && words[5] <= 1
        && words[6] <= if words[5] == 1 { 0 } else { n }
        && words[7] <= s.m as u64
        && words[8] <= 5
}

fn pieces(words: &[u64], cells: &[u16], s: &Shape, ranks: &mut [u16; 4096]) -> bool {
    let seeds = words[2] as u16;
    let [counts, states, priorities, flushed] = [0, 1, 2, 3].map(|f| s.pieces(cells, f));
    let mut at_work = 0;
    for i in 0..s.n {
        if counts[i] > 1000 - seeds
            || states[i] > 6
            || priorities[i] > 7
            || flushed[i] > 1
            || (flushed[i] == 1 && states[i] != 4)
            || s.pads(words)[i] > words[1].min(words[0] - i as u64 * words[1])
        {
            return false;
        }
        at_work += (states[i] != 4) as u64;
        ranks[i] = rank(seeds, counts[i], states[i], priorities[i], flushed[i]);
    }
    at_work == words[7]
}

fn live(words: &[u64], cells: &[u16], partials: &[DownloadingPiece], s: &Shape, counts: &mut [[u16; 3]; 512]) -> bool {
    let mut taken = [false; 512];
    let mut low = 0;
    for (d, counted) in partials.iter().zip(counts) {
        let (i, place) = (d.index as usize, d.info_idx as usize);
        if d.index < low || i >= s.n || d.flags > 7 || place >= s.m || taken[place] {
            return false;
        }
        taken[place] = true;
        low = d.index + 1;
        let many = s.blocks_in_piece(words, i);
        match blocks(cells, s, place, many) {
            Some(found) => *counted = found,
            None => return false,
        }
        if !state_fits(s.pieces(cells, 1)[i], s.pieces(cells, 2)[i], *counted, many, d.flags >= 4) {
            return false;
        }
    }
    true
}

fn blocks(cells: &[u16], s: &Shape, place: usize, many: usize) -> Option<[u16; 3]> {
    let [states, num_peers, has] = [0, 1, 2].map(|f| &cells[s.blocks(f, place)..][..many]);
    let mut counted = [0; 3];
    for j in 0..many {
        if states[j] > 3 || num_peers[j] > 1000 || has[j] > 1 {
            return None;
        }
        if states[j] > 0 {
            counted[states[j] as usize - 1] += 1;
        }
    }
    Some(counted)
}

fn state_fits(state: u16, priority: u16, counted: [u16; 3], many: usize, hashing: bool) -> bool {
    let busy = counted.iter().sum::<u16>() as usize;
    let plain = if state >= 5 { state - 5 } else { state };
    let due = if priority == 0 {
        3
    } else if busy == 0 && !hashing {
        4
    } else if busy < many {
        0
    } else if counted[0] > 0 {
        1
    } else {
        2
    };
    state != 4 && (plain == due || (priority > 0 && busy == 0))
}

fn extents(words: &[u64], s: &Shape) -> bool {
    let extents = &words[9..9 + words[8] as usize];
    let many = if s.b == 256 { 0 } else { s.n.div_ceil(256 / s.b) as u64 };
    (0..extents.len()).all(|k| extents[k] < many && !extents[..k].contains(&extents[k]))
}

/// Each piece's rank is taken as it is met; as many are met as there are.
fn list(words: &[u64], s: &Shape, ranks: &mut [u16; 4096]) -> bool {
    if words[5] == 1 {
        return true;
    }
    let list = s.list(words);
    if list.len() != ranks[..s.n].iter().filter(|r| **r > 0).count() {
        return false;
    }
    let mut last = 1;
    for word in list {
        let (rank, i) = (word >> 16, (word & 65535) as usize);
        if rank < last || i >= s.n || ranks[i] as u64 != rank {
            return false;
        }
        ranks[i] = 0;
        last = rank;
    }
    true
}
