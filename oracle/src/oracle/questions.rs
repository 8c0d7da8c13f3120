//! The questions, by name: what each takes, the room it needs and what it answers. Where the picker has a getter, the getter answers.

use bitdaemon_common::{PieceBlock, PieceIndex};

use crate::piece_picker::{DownloadingPiece, PieceCount, PiecePicker};

pub struct Question {
    pub name: &'static str,
    pub asked: Asked,
    /// Set where the answer has several records.
    pub room: Option<Room>,
}

/// What a question takes.
pub enum Asked {
    Picker(fn(&PiecePicker) -> Reply),
    Piece(fn(&PiecePicker, PieceIndex) -> Reply),
    Block(fn(&PiecePicker, PieceBlock) -> Reply),
    /// A place that may lie anywhere.
    Place(fn(&PiecePicker, i64) -> Reply),
    /// A place of the bucket list.
    ListPlace,
}

/// How many records an answer needs room for.
pub enum Room {
    Pieces,
    Partials,
    BlocksPerPiece,
}

#[derive(Debug, PartialEq)]
pub enum Reply {
    Numbers(Vec<i128>),
    Nothing,
    Stale,
}

pub static QUESTIONS: &[Question] = &[
    of_picker("num_pieces", |p| one(p.num_pieces())),
    of_picker("block_size", |p| one(p.block_size())),
    of_picker("blocks_per_piece", |p| one(p.blocks_per_piece())),
    of_picker("num_pad_bytes", |p| one(p.num_pad_bytes())),
    of_picker("cursor", |p| one(p.cursor().0)),
    of_picker("reverse_cursor", |p| one(p.reverse_cursor().0)),
    of_picker("num_have", |p| one(p.num_have())),
    of_picker("num_filtered", |p| one(p.num_filtered())),
    of_picker("num_have_filtered", |p| one(p.num_have_filtered())),
    of_picker("num_seeds", |p| one(p.num_seeds())),
    of_picker("is_finished", |p| one(p.is_finished())),
    of_picker("is_seeding", |p| one(p.is_seeding())),
    of_picker("num_want_left", |p| one(p.num_want_left())),
    of_picker("get_download_queue_size", |p| one(p.get_download_queue_size() as u64)),
    of_piece("blocks_in_piece", |p, i| one(p.blocks_in_piece(i))),
    of_piece("payload_blocks_in_piece", |p, i| one(p.payload_blocks_in_piece(i))),
    of_piece("piece_size", |p, i| one(p.piece_size(i))),
    of_piece("pad_bytes_in_piece", |p, i| one(p.pad_bytes_in_piece(i))),
    of_piece("get_availability", |p, i| one(p.get_availability(i))),
    of_piece("have_piece", |p, i| one(p.have_piece(i))),
    of_piece("is_piece_finished", |p, i| one(p.is_piece_finished(i))),
    of_piece("is_downloading", |p, i| one(p.is_downloading(i))),
    of_piece("is_hashing", |p, i| one(p.is_hashing(i))),
    of_piece("is_piece_flushed", |p, i| one(p.is_piece_flushed(i))),
    of_piece("piece_priority", |p, i| one(p.piece_priority(i).0)),
    of_block("num_peers_block", |p, b| one(p.num_peers_block(b))),
    of_block("is_requested", |p, b| one(p.is_requested(b))),
    of_block("is_downloaded", |p, b| one(p.is_downloaded(b))),
    of_block("is_finished_block", |p, b| one(p.is_finished_block(b))),
    of_block("get_downloader", |p, b| numbers(peer(p.get_downloader(b)))),
    of_picker("distributed_copies", |p| {
        let (whole, thousandths) = p.distributed_copies();
        numbers([whole.into(), thousandths.into()])
    }),
    of_picker("want", |p| piece_count(p.want())),
    of_picker("have_want", |p| piece_count(p.have_want())),
    of_picker("have", |p| piece_count(p.have())),
    of_picker("all_pieces", |p| piece_count(p.all_pieces())),
    of_piece("piece_stats", |p, i| {
        let stats = p.piece_stats(i);
        numbers([stats.peer_count.into(), stats.priority.into(), stats.flushed.into(), stats.downloading.into()])
    }),
    of_piece("piece_info", |p, i| numbers(piece_info(&p.piece_info(i)))),
    of_picker("get_download_queue_sizes", |p| {
        let (partial, full, finished, zero_prio) = p.get_download_queue_sizes();
        numbers([partial, full, finished, zero_prio].map(|size| size as i128))
    }),
    with_room(
        Room::Pieces,
        of_picker("get_availability_vec", |p| {
            let mut availability = Vec::new();
            p.get_availability_vec(&mut availability);
            Reply::Numbers(availability.into_iter().map(i128::from).collect())
        }),
    ),
    with_room(
        Room::Pieces,
        of_picker("piece_priorities", |p| Reply::Numbers(p.piece_priorities().into_iter().map(|wish| wish.0.into()).collect())),
    ),
    with_room(
        Room::Partials,
        of_picker("get_download_queue", |p| Reply::Numbers(p.get_download_queue().iter().flat_map(piece_info).collect())),
    ),
    with_room(
        Room::BlocksPerPiece,
        of_piece("get_downloaders", |p, i| Reply::Numbers(p.get_downloaders(i).into_iter().flat_map(peer).collect())),
    ),
    with_room(Room::BlocksPerPiece, of_piece("blocks_for_piece", blocks_for_piece)),
    of_picker("total_size", |p| one(p.total_size())),
    of_picker("full_piece_size", |p| one(p.full_piece_size())),
    of_picker("dirty", |p| one(p.is_stale())),
    of_piece("peer_count", |p, i| one(p.count(i))),
    of_piece("download_state", |p, i| one(p.state(i) as u8)),
    of_place("partial_at", |p, place| maybe(at(p.partial_pieces(), place), |piece| one(piece.0))),
    of_piece("passed_hash_check", |p, i| maybe(p.partial(i), |partial| one(partial.passed_hash_check))),
    of_piece("locked", |p, i| maybe(p.partial(i), |partial| one(partial.locked))),
    of_piece("hashing", |p, i| maybe(p.partial(i), |partial| one(partial.hashing))),
    of_block("block_state", |p, b| maybe(p.block(b), |block| one(block.state as u8))),
    of_block("block_num_peers", |p, b| maybe(p.block(b), |block| one(block.num_peers))),
    of_block("block_peer", |p, b| maybe(p.block(b), |block| numbers(peer(block.peer)))),
    of_place("recent_extent", |p, place| maybe(at(p.extents().iter(), place), |extent| one(*extent))),
    Question { name: "list_place", asked: Asked::ListPlace, room: None },
];

const fn of_picker(name: &'static str, reply: fn(&PiecePicker) -> Reply) -> Question {
    Question { name, asked: Asked::Picker(reply), room: None }
}

const fn of_piece(name: &'static str, reply: fn(&PiecePicker, PieceIndex) -> Reply) -> Question {
    Question { name, asked: Asked::Piece(reply), room: None }
}

const fn of_block(name: &'static str, reply: fn(&PiecePicker, PieceBlock) -> Reply) -> Question {
    Question { name, asked: Asked::Block(reply), room: None }
}

const fn of_place(name: &'static str, reply: fn(&PiecePicker, i64) -> Reply) -> Question {
    Question { name, asked: Asked::Place(reply), room: None }
}

const fn with_room(room: Room, question: Question) -> Question {
    Question { room: Some(room), ..question }
}

/// The reply to a question that no refusal stops.
pub fn reply(picker: &PiecePicker, question: &Question, first: i64, second: i64) -> Reply {
    match question.asked {
        Asked::Picker(reply) => reply(picker),
        Asked::Piece(reply) => reply(picker, PieceIndex(first as i32)),
        Asked::Block(reply) => {
            let block = PieceBlock { piece_index: PieceIndex(first as i32), block_index: second as i32 };
            reply(picker, block)
        }
        Asked::Place(reply) => reply(picker, first),
        Asked::ListPlace if picker.is_stale() => Reply::Stale,
        Asked::ListPlace => one(picker.list()[first as usize].0),
    }
}

fn numbers<const N: usize>(numbers: [i128; N]) -> Reply {
    Reply::Numbers(numbers.to_vec())
}

fn one(number: impl Into<i128>) -> Reply {
    numbers([number.into()])
}

fn maybe<T>(found: Option<T>, reply: impl FnOnce(T) -> Reply) -> Reply {
    found.map_or(Reply::Nothing, reply)
}

/// What stands at `place`, if anything does.
fn at<T>(mut row: impl Iterator<Item = T>, place: i64) -> Option<T> {
    row.nth(usize::try_from(place).ok()?)
}

fn peer(peer: Option<u64>) -> [i128; 2] {
    [peer.is_some().into(), peer.unwrap_or(0).into()]
}

fn piece_count(count: PieceCount) -> Reply {
    numbers([count.num_pieces.into(), count.pad_bytes.into(), count.last_piece.into()])
}

fn piece_info(info: &DownloadingPiece) -> [i128; 7] {
    [
        info.index.0.into(),
        info.finished.into(),
        info.passed_hash_check.into(),
        info.writing.into(),
        info.locked.into(),
        info.requested.into(),
        info.hashing.into(),
    ]
}

fn blocks_for_piece(picker: &PiecePicker, piece: PieceIndex) -> Reply {
    maybe(picker.partial(piece), |partial| {
        let blocks = picker.blocks_for_piece(partial).iter();
        Reply::Numbers(
            blocks
                .flat_map(|block| {
                    let [has_peer, number] = peer(block.peer);
                    [block.state as i128, block.num_peers.into(), has_peer, number]
                })
                .collect(),
        )
    })
}
