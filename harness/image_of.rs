//! The image of the picker that stands in three lent buffers, by the layout of docs/MEMORY.md and the table of document 01, without any
//! proved code.

use crate::picker::Shape;
use crate::records::DownloadingPiece;

/// Words of the head.
const CURSOR: usize = 3;
const DIRTY: usize = 5;
const LIVE: usize = 7;
const EXTENTS: usize = 8;
const FIRST_EXTENT: usize = 9;

/// The image, of buffers in which a well-formed picker stands.
pub fn image_of(words: &[u64], cells: &[u16], partials: &[DownloadingPiece]) -> Vec<u8> {
    let s = Shape::of(words);
    let (listed, live) = (s.list(words), &partials[..words[LIVE] as usize]);
    let mut out = Vec::with_capacity(24 + 10 * s.n + live.len() * (6 + 13 * s.b) + 25 + 5 * listed.len());
    out.push(1);
    put(&mut out, words[0], 8);
    put(&mut out, words[1], 4);
    put(&mut out, words[2], 2);
    put(&mut out, words[CURSOR], 4);
    put(&mut out, words[CURSOR + 1], 4);
    put(&mut out, words[DIRTY], 1);
    put_pieces(&mut out, &s, words, cells);
    for d in live {
        put_partial(&mut out, &s, words, cells, d);
    }
    for extent in &words[FIRST_EXTENT..][..words[EXTENTS] as usize] {
        out.push(5);
        put(&mut out, *extent, 4);
    }
    for word in listed {
        out.push(6);
        put(&mut out, word & 65535, 4);
    }
    out
}

fn put_pieces(out: &mut Vec<u8>, s: &Shape, words: &[u64], cells: &[u16]) {
    let [counts, states, priorities, flushed] = [0, 1, 2, 3].map(|f| s.pieces(cells, f));
    for (i, pad) in s.pads(words).iter().enumerate() {
        out.push(2);
        put(out, counts[i].into(), 2);
        out.extend([states[i] as u8, priorities[i] as u8, flushed[i] as u8]);
        put(out, *pad, 4);
    }
}

fn put_partial(out: &mut Vec<u8>, s: &Shape, words: &[u64], cells: &[u16], d: &DownloadingPiece) {
    let (place, many) = (d.info_idx as usize, s.blocks_in_piece(words, d.index as usize));
    let [states, num_peers, has] = [0, 1, 2].map(|f| &cells[s.blocks(f, place)..][..many]);
    let peers = &words[s.peers(place)..][..many];
    out.push(3);
    put(out, d.index.into(), 4);
    out.push(d.flags as u8);
    for j in 0..many {
        out.extend([4, states[j] as u8]);
        put(out, num_peers[j].into(), 2);
        out.push(has[j] as u8);
        put(out, if has[j] == 1 { peers[j] } else { 0 }, 8);
    }
}

/// The low bytes of a number, high byte first.
fn put(out: &mut Vec<u8>, number: u64, bytes: usize) {
    out.extend_from_slice(&number.to_be_bytes()[8 - bytes..]);
}
