//! Times the proved questions behind the memory test against the Rust's getters, on the same pickers. `harness/bench` builds and runs it.
//! A line for each question and size: nanoseconds here and in the Rust, and the ratio. Questions of a piece or block are asked of 64 of
//! them, every other one with a partial, and the time is that of one.

#[allow(dead_code)]
mod edits;
#[allow(dead_code)]
mod lent;
#[allow(dead_code)]
mod linked_changes;
#[allow(dead_code)]
mod linked_questions;
#[allow(dead_code)]
mod list_operations;
#[allow(dead_code)]
mod picker;
mod records;
#[allow(dead_code)]
mod rng;
#[allow(dead_code)]
mod states;
mod turns;

use bitdaemon_common::{PieceBlock, PieceIndex};
use lent::Lent;
use linked_questions::*;
use oracle::image::Fields;
use oracle::piece_picker::PiecePicker;
use rng::Rng;
use states::not_stale;
use std::hint::black_box;
use turns::times;

/// What is asked about.
type At = (usize, usize);

/// A line of the table.
fn line(name: &str, asked: usize, [ours, theirs]: [f64; 2]) {
    let each = 1000.0 / asked as f64;
    println!("  {name:26} {:10.1} {:10.1} {:8.2}", ours * each, theirs * each, ours / theirs);
}

/// Times questions: the name, the linked question, and how the Rust is asked.
macro_rules! lines {
    ($query:ident $rust:ident $at:expr; $($name:ident $ours:ident |$p:ident, $i:ident, $b:ident| $theirs:expr;)*) => { $(
        let spent = times([
            &mut || {
                for (i, j) in $at {
                    ($query.i, $query.j) = (*i, *j);
                    black_box($ours(black_box(&mut $query)));
                }
            },
            &mut || {
                for (i, j) in $at {
                    let ($p, $i) = (black_box(&$rust), PieceIndex(*i as i32));
                    let $b = PieceBlock { piece_index: $i, block_index: *j as i32 };
                    black_box($theirs);
                    black_box(($i, $b));
                }
            },
        ]);
        line(stringify!($name), $at.len(), spent);
    )* };
}

/// Pieces with a block: every other one has a partial.
fn spread(fields: &Fields) -> Vec<At> {
    let (n, live) = (fields.pieces.len(), fields.partials.len());
    let block = |i: usize, k: usize| k % fields.head.geometry.blocks_in_piece(i);
    (0..32)
        .flat_map(|k| [fields.partials[k * live / 32].piece, k * n / 32])
        .enumerate()
        .map(|(k, i)| (i, block(i, k)))
        .collect()
}

fn all_of(size: [usize; 3]) {
    let fields = not_stale(size);
    let rust = PiecePicker::from_fields(&fields);
    let mut lent = Lent::laid_out(&mut Rng::new(7), &fields);
    assert!(lent.test() == 0, "the memory test refuses the buffers");
    let (g, live, mut avail) = (lent.geometry(), lent.live(), Vec::new());
    let (mut out, mut column) = (vec![0; 4096], vec![0; 4096]);
    let Lent { words, cells, rows, counts, .. } = &lent;
    let mut query = Query { words, cells, rows, live, counts, g, i: 0, j: 0, k: 0, out: &mut out, column: &mut column };
    let (once, at) = (&[(0, 0)][..], &spread(&fields)[..]);
    println!("{} pieces, b {}, {} partials: ns, the Rust's ns, ratio", size[0], size[1], size[2]);
    println!(" that scan in the Rust, too");
    lines! { query rust once;
        distributed_copies aq_distributed_copies |p, i, b| p.distributed_copies();
        get_availability_vec aq_get_availability_vec |p, i, b| p.get_availability_vec(&mut avail);
        piece_priorities aq_piece_priorities |p, i, b| p.piece_priorities();
    }
    lines! { query rust at;
        get_downloaders aq_get_downloaders |p, i, b| p.get_downloaders(i);
    }
    println!(" that the Rust copies or lends");
    lines! { query rust once;
        get_download_queue aq_get_download_queue |p, i, b| p.get_download_queue();
    }
    lines! { query rust at;
        blocks_for_piece aq_blocks_for_piece |p, i, b| p.partial(i).map(|d| p.blocks_for_piece(d).to_vec());
    }
    println!(" others");
    lines! { query rust once;
        num_pieces aq_num_pieces |p, i, b| p.num_pieces();
        block_size aq_block_size |p, i, b| p.block_size();
        blocks_per_piece aq_blocks_per_piece |p, i, b| p.blocks_per_piece();
        cursor aq_cursor |p, i, b| p.cursor();
        reverse_cursor aq_reverse_cursor |p, i, b| p.reverse_cursor();
        num_seeds aq_num_seeds |p, i, b| p.num_seeds();
        get_download_queue_size aq_get_download_queue_size |p, i, b| p.get_download_queue_size();
        get_download_queue_sizes aq_get_download_queue_sizes |p, i, b| p.get_download_queue_sizes();
        num_pad_bytes aq_num_pad_bytes |p, i, b| p.num_pad_bytes();
        num_have aq_num_have |p, i, b| p.num_have();
        num_filtered aq_num_filtered |p, i, b| p.num_filtered();
        num_have_filtered aq_num_have_filtered |p, i, b| p.num_have_filtered();
        is_finished aq_is_finished |p, i, b| p.is_finished();
        is_seeding aq_is_seeding |p, i, b| p.is_seeding();
        num_want_left aq_num_want_left |p, i, b| p.num_want_left();
        want aq_want |p, i, b| p.want();
        have_want aq_have_want |p, i, b| p.have_want();
        have aq_have |p, i, b| p.have();
        all_pieces aq_all_pieces |p, i, b| p.all_pieces();
    }
    lines! { query rust at;
        blocks_in_piece aq_blocks_in_piece |p, i, b| p.blocks_in_piece(i);
        payload_blocks_in_piece aq_payload_blocks_in_piece |p, i, b| p.payload_blocks_in_piece(i);
        piece_size aq_piece_size |p, i, b| p.piece_size(i);
        pad_bytes_in_piece aq_pad_bytes_in_piece |p, i, b| p.pad_bytes_in_piece(i);
        get_availability aq_get_availability |p, i, b| p.get_availability(i);
        have_piece aq_have_piece |p, i, b| p.have_piece(i);
        is_piece_finished aq_is_piece_finished |p, i, b| p.is_piece_finished(i);
        is_downloading aq_is_downloading |p, i, b| p.is_downloading(i);
        is_hashing aq_is_hashing |p, i, b| p.is_hashing(i);
        is_piece_flushed aq_is_piece_flushed |p, i, b| p.is_piece_flushed(i);
        piece_priority aq_piece_priority |p, i, b| p.piece_priority(i);
        piece_stats aq_piece_stats |p, i, b| p.piece_stats(i);
        piece_info aq_piece_info |p, i, b| p.piece_info(i);
        num_peers_block aq_num_peers_block |p, i, b| p.num_peers_block(b);
        is_requested aq_is_requested |p, i, b| p.is_requested(b);
        is_downloaded aq_is_downloaded |p, i, b| p.is_downloaded(b);
        is_finished_block aq_is_finished_block |p, i, b| p.is_finished_block(b);
        get_downloader aq_get_downloader |p, i, b| p.get_downloader(b);
    }
}

fn main() {
    for n in [1024, 4096] {
        for b in [16, 256] {
            for partials in [64, 400] {
                all_of([n, b, partials]);
            }
        }
    }
}
