//! How near to a bare pass the memory test can come: what no form of it leaves out, by hand and in the fastest form known.

use crate::picker::{Buffers, Shape};

/// The ranks of pieces whose cells are in range, by product.
fn ranks_alone(mem: &Buffers, s: &Shape, ranks: &mut [u16; 4096]) {
    let seeds = mem.words[2] as u16;
    let [counts, states, priorities, flushed] = [0, 1, 2, 3].map(|f| s.pieces(&mem.cells, f));
    for (i, rank) in ranks[..s.n].iter_mut().enumerate() {
        let (count, state, priority) = (counts[i], states[i], priorities[i]);
        let unlisted = (priority == 0) | (flushed[i] == 1) | (count | seeds == 0) | (state == 1) | (state == 2);
        let full = (count + 1).wrapping_mul(24 - 3 * priority).wrapping_sub(5u16.saturating_sub(state).min(2));
        *rank = if unlisted { 0 } else { full };
    }
}

/// The list, each piece's rank taken as it is met: none twice, none without a rank, ranks never falling, none left.
fn list_alone(mem: &Buffers, s: &Shape, ranks: &mut [u16; 4096]) -> bool {
    let mut last = 1;
    for word in s.list(&mem.words) {
        let (rank, i) = (word >> 16, (word & 65535) as usize);
        if rank < last || i >= s.n || ranks[i & 4095] as u64 != rank {
            return false;
        }
        ranks[i & 4095] = 0;
        last = rank;
    }
    ranks[..s.n].iter().fold(0, |any, rank| any | rank) == 0
}

/// The blocks of a place, joined field by field and tested once: whether all are in range, and how many are in each state.
fn blocks_alone(states: &[u16], num_peers: &[u16], has: &[u16]) -> (bool, [u16; 3]) {
    let (mut joined, mut beyond, mut flags) = (0, 0, 0);
    let (mut requested, mut writing, mut finished) = (0, 0, 0);
    for ((state, num_peers), has) in states.iter().zip(num_peers).zip(has) {
        joined |= state;
        beyond |= num_peers.saturating_sub(1000);
        flags |= has;
        requested += u16::from(*state == 1);
        writing += u16::from(*state == 2);
        finished += u16::from(*state == 3);
    }
    (joined < 4 && beyond == 0 && flags < 2, [requested, writing, finished])
}

/// Ranks, list and blocks of a memory that is well-formed, with the counts of each partial; nothing else of it is tested.
pub fn parts_alone(mem: &Buffers, ranks: &mut [u16; 4096], counts: &mut [[u16; 3]; 512]) -> bool {
    let s = Shape::of(&mem.words);
    ranks_alone(mem, &s, ranks);
    let mut good = list_alone(mem, &s, ranks);
    for (d, counted) in mem.partials[..mem.words[7] as usize].iter().zip(counts) {
        let [states, num_peers, has] = [0, 1, 2].map(|f| &mem.cells[s.blocks(f, d.info_idx as usize)..][..s.b]);
        let (ok, found) = blocks_alone(states, num_peers, has);
        *counted = found;
        good &= ok;
    }
    good
}
