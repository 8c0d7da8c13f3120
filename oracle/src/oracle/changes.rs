//! The changes on the unchanged picker, with the differences of docs/DIFFERENCES.md that a change can meet. Each is recognised by its
//! own condition before the call.

use bitdaemon_common::{DownloadPriority, PieceBlock, PieceIndex};

use crate::outcome::Answer;
use crate::piece_picker::{BlockState, DownloadQueue, PickerOptions, PiecePicker};
use crate::script::Change;

/// Carries out a change that no refusal stops.
///
/// # Panics
///
/// Where what has to hold afterwards does not.
pub fn carry_out(picker: &mut PiecePicker, change: &Change, differences: &mut Vec<&'static str>) -> Answer {
    let leaves_the_list_short = turns_full_reverse(picker, change);
    let parts_totals = passes_twice(picker, change) || gives_back_passed(picker, change);
    let answer = call(picker, change);
    if leaves_the_list_short {
        picker.make_stale();
        differences.push("reverse-full");
    }
    let (running, counted) = (picker.running_totals(), picker.counted_totals());
    assert_eq!(running != counted, parts_totals, "totals: running {running:?}, counted {counted:?}");
    if parts_totals {
        picker.set_totals(counted);
        differences.push("totals");
    }
    picker.check();
    answer
}

fn call(picker: &mut PiecePicker, change: &Change) -> Answer {
    match *change {
        Change::IncRefcount { piece } => done(picker.inc_refcount(piece_index(piece))),
        Change::DecRefcount { piece } => done(picker.dec_refcount(piece_index(piece))),
        Change::IncRefcountAll => done(picker.inc_refcount_all()),
        Change::DecRefcountAll => done(picker.dec_refcount_all()),
        Change::SetPiecePriority { piece, wish } => {
            truth(picker.set_piece_priority(piece_index(piece), DownloadPriority(wish as u8)))
        }
        Change::MarkAsDownloading { piece, block, peer, options } => {
            truth(picker.mark_as_downloading(piece_block(piece, block), peer, PickerOptions::from_bits(options)))
        }
        Change::MarkAsWriting { piece, block, peer } => truth(picker.mark_as_writing(piece_block(piece, block), peer)),
        Change::MarkAsFinished { piece, block, peer } => done(picker.mark_as_finished(piece_block(piece, block), peer)),
        Change::MarkAsCanceled { piece, block, peer } => done(picker.mark_as_canceled(piece_block(piece, block), peer)),
        Change::AbortDownload { piece, block, peer } => done(picker.abort_download(piece_block(piece, block), peer)),
        Change::LockPiece { piece } => done(picker.lock_piece(piece_index(piece))),
        Change::PiecePassed { piece } => done(picker.piece_passed(piece_index(piece))),
    }
}

fn piece_index(piece: i64) -> PieceIndex {
    PieceIndex(piece as i32)
}

fn piece_block(piece: i64, block: i64) -> PieceBlock {
    PieceBlock { piece_index: piece_index(piece), block_index: block as i32 }
}

fn done((): ()) -> Answer {
    Answer::Done
}

fn truth(answer: bool) -> Answer {
    Answer::Numbers(vec![answer.into()])
}

/// The call turns a partial from Full to FullReverse, which gives its piece a bucket, without adding the piece to a list that is not
/// stale.
fn turns_full_reverse(picker: &PiecePicker, change: &Change) -> bool {
    let Change::MarkAsDownloading { piece, block, options, .. } = *change else {
        return false;
    };
    let block = piece_block(piece, block);
    let Some(partial) = picker.partial(block.piece_index) else {
        return false;
    };
    PickerOptions::from_bits(options).contains(PickerOptions::REVERSE)
        && !picker.is_stale()
        && picker.state(block.piece_index) == DownloadQueue::Full
        && partial.requested == 0
        && picker.block(block).is_some_and(|block| block.state == BlockState::None)
        && picker.bucket_in_state(block.piece_index, DownloadQueue::FullReverse) >= 0
}

/// The call counts a piece as passed that is counted already.
fn passes_twice(picker: &PiecePicker, change: &Change) -> bool {
    let Change::PiecePassed { piece } = *change else {
        return false;
    };
    let partial = picker.partial(piece_index(piece));
    partial.is_some_and(|partial| partial.passed_hash_check && !partial.locked)
}

/// The call gives back the only block in use of a partial that has passed: the partial goes, and stays counted.
fn gives_back_passed(picker: &PiecePicker, change: &Change) -> bool {
    let (Change::MarkAsCanceled { piece, block, .. } | Change::AbortDownload { piece, block, .. }) = *change else {
        return false;
    };
    let block = piece_block(piece, block);
    let (Some(partial), Some(info)) = (picker.partial(block.piece_index), picker.block(block)) else {
        return false;
    };
    let given_back = match change {
        Change::MarkAsCanceled { .. } => info.state == BlockState::Writing,
        _ => info.state == BlockState::Requested && info.num_peers <= 1,
    };
    let in_use = partial.requested + partial.writing + partial.finished + u16::from(partial.hashing);
    partial.passed_hash_check && in_use == 1 && given_back
}
