//! The refusals 1 to 12 of document 01, judged outside the picker and in the table's order.

use bitdaemon_common::{PieceBlock, PieceIndex};

use crate::geometry::{Geometry, HEAD_WORDS, MAX_PARTIALS};
use crate::piece_picker::{BlockState, PickerOptions, PiecePicker};
use crate::questions::{Asked, Question, Room};
use crate::script::{Change, Lent, Pick, DRAWS};

/// The most peers that a piece's count plus the seeds, or a block's requesters, may reach.
const MAX_PEERS: i32 = 1000;

/// A refusal's number in the table.
pub type Refusal = u8;

type Judgement<T = ()> = Result<T, Refusal>;

fn refuse_if(wrong: bool, refusal: Refusal) -> Judgement {
    if wrong {
        Err(refusal)
    } else {
        Ok(())
    }
}

pub fn new(total: i64, piece_size: i64, lent: &Lent) -> Judgement {
    memory(&Geometry::new(total, piece_size).ok_or(1)?, lent)
}

/// 2: one of the lent buffers is shorter than the geometry needs.
pub fn memory(geometry: &Geometry, lent: &Lent) -> Judgement {
    let short = |lent: Option<u64>, need: u64| lent.is_some_and(|length| length < need);
    let memory = &lent.memory;
    refuse_if(short(memory.words, geometry.words_need()), 2)?;
    refuse_if(short(memory.cells, geometry.cells_need()), 2)?;
    refuse_if(short(memory.partials, geometry.partials_need()), 2)
}

/// The picker that stands in the lent memory. 2 for words shorter than a picker's head or a buffer shorter than the geometry in that head
/// needs, 3 where no picker stands.
pub fn standing<'a>(picker: Option<&'a PiecePicker>, lent: &Lent) -> Judgement<&'a PiecePicker> {
    refuse_if(lent.memory.words.is_some_and(|words| words < HEAD_WORDS), 2)?;
    let picker = picker.ok_or(3)?;
    memory(&geometry(picker), lent)?;
    Ok(picker)
}

fn geometry(picker: &PiecePicker) -> Geometry {
    Geometry::new(picker.total_size(), i64::from(picker.full_piece_size())).expect("the picker's geometry is valid")
}

/// 2: the room lent for an answer is shorter than the answer needs.
pub fn room(need: u64, lent: &Lent) -> Judgement {
    refuse_if(lent.room.is_some_and(|places| places < need), 2)
}

/// 4, for a call that may draw.
pub fn draws(lent: &Lent) -> Judgement {
    refuse_if(lent.draws.count < DRAWS, 4)
}

pub fn question(picker: &PiecePicker, question: &Question, first: i64, second: i64, lent: &Lent) -> Judgement {
    if let Some(need) = &question.room {
        room(room_need(picker, need), lent)?;
    }
    match question.asked {
        Asked::Picker(_) | Asked::Place(_) => Ok(()),
        Asked::Piece(_) => piece_in_range(picker, first).map(|_| ()),
        Asked::Block(_) => block_in_range(picker, first, second).map(|_| ()),
        Asked::ListPlace => refuse_if(!picker.is_stale() && !in_range(first, picker.list().len()), 5),
    }
}

fn room_need(picker: &PiecePicker, room: &Room) -> u64 {
    let geometry = geometry(picker);
    match room {
        Room::Pieces => geometry.pieces as u64,
        Room::Partials => geometry.partials_need(),
        Room::BlocksPerPiece => geometry.blocks_per_piece as u64,
    }
}

fn in_range(number: i64, end: usize) -> bool {
    (0..end as i64).contains(&number)
}

fn piece_in_range(picker: &PiecePicker, piece: i64) -> Judgement<PieceIndex> {
    refuse_if(!in_range(piece, geometry(picker).pieces), 5)?;
    Ok(PieceIndex(piece as i32))
}

fn block_in_range(picker: &PiecePicker, piece: i64, block: i64) -> Judgement<PieceBlock> {
    let piece_index = piece_in_range(picker, piece)?;
    refuse_if(!in_range(block, geometry(picker).blocks_in_piece(piece as usize)), 5)?;
    Ok(PieceBlock { piece_index, block_index: block as i32 })
}

/// 5 to 10.
pub fn change(picker: &PiecePicker, change: &Change) -> Judgement {
    match *change {
        Change::IncRefcount { piece } => {
            let piece = piece_in_range(picker, piece)?;
            refuse_if(picker.count(piece) + picker.num_seeds() >= MAX_PEERS, 6)
        }
        Change::DecRefcount { piece } => {
            let piece = piece_in_range(picker, piece)?;
            refuse_if(picker.num_seeds() == 0 && picker.count(piece) == 0, 7)
        }
        Change::IncRefcountAll => refuse_if(picker.counts().any(|count| count + picker.num_seeds() >= MAX_PEERS), 6),
        Change::DecRefcountAll => refuse_if(picker.num_seeds() == 0 && picker.counts().any(|count| count == 0), 7),
        Change::SetPiecePriority { piece, wish } => {
            piece_in_range(picker, piece)?;
            refuse_if(!(0..=7).contains(&wish), 5)
        }
        Change::MarkAsDownloading { piece, block, .. } => mark_as_downloading(picker, block_in_range(picker, piece, block)?),
        Change::MarkAsWriting { piece, block, .. } => {
            let block = block_in_range(picker, piece, block)?;
            one_more_partial(picker, block.piece_index)
        }
        Change::MarkAsFinished { piece, block, .. } => {
            let block = block_in_range(picker, piece, block)?;
            refuse_if(picker.block(block).is_some_and(|block| block.state == BlockState::Requested), 9)?;
            one_more_partial(picker, block.piece_index)
        }
        Change::MarkAsCanceled { piece, block, .. } | Change::AbortDownload { piece, block, .. } => {
            block_in_range(picker, piece, block).map(|_| ())
        }
        Change::LockPiece { piece } | Change::PiecePassed { piece } => piece_in_range(picker, piece).map(|_| ()),
    }
}

fn mark_as_downloading(picker: &PiecePicker, block: PieceBlock) -> Judgement {
    let one_more_requester = picker.block(block).is_some_and(|block| {
        matches!(block.state, BlockState::None | BlockState::Requested) && i32::from(block.num_peers) >= MAX_PEERS
    });
    refuse_if(one_more_requester, 6)?;
    refuse_if(picker.is_piece_flushed(block.piece_index), 8)?;
    one_more_partial(picker, block.piece_index)
}

/// 10, for a mark that opens a partial where none stands and the piece is not had.
fn one_more_partial(picker: &PiecePicker, piece: PieceIndex) -> Judgement {
    let opens = !picker.is_downloading(piece) && !picker.is_piece_flushed(piece);
    refuse_if(opens && picker.get_download_queue_size() >= MAX_PARTIALS, 10)
}

/// 11 and 12.
pub fn pick(picker: &PiecePicker, pick: &Pick, lent: &Lent) -> Judgement {
    let options = PickerOptions::from_bits(pick.options);
    let both_orders = options.contains(PickerOptions::RAREST_FIRST) && options.contains(PickerOptions::SEQUENTIAL);
    let pieces = geometry(picker).pieces;
    let wrong = !(1..=2048).contains(&pick.wanted)
        || !(0..=2048).contains(&pick.run)
        || !(0..=1000).contains(&pick.peers)
        || pick.suggestions.len() > 256
        || both_orders
        || pick.bits != pieces as i64
        || pick.bytes.len() != pieces.div_ceil(8);
    refuse_if(wrong, 11)?;
    refuse_if(lent.free < (pick.wanted + pick.run + 255) as u64, 12)
}
