//! The exports of `libpiece_picker.a` as `include/piece_picker.h` has them. Each call takes the three lent buffers, every slice as a
//! pointer and a length in elements, then further slices, then at most one plain argument. Pointers have to be valid, aligned and not
//! null, also for a length of 0, and memory that a call may write may be lent to it alone; nothing else is asked of a caller.

use std::mem::{offset_of, size_of};

/// A record of the lent list of partials (docs/MEMORY.md).
#[repr(C)]
#[derive(Clone, Copy, Debug, Default, PartialEq, Eq)]
pub struct Record {
    /// The piece.
    pub index: u32,
    /// The place of its blocks.
    pub info_idx: u32,
    /// 1 passed, 2 locked, 4 hashing.
    pub flags: u32,
}

/// A block by its piece.
#[repr(C)]
#[derive(Clone, Copy, Debug)]
#[allow(missing_docs)]
pub struct PieceBlock {
    pub piece: i32,
    pub block: i32,
}

/// A piece and the priority that it gets.
#[repr(C)]
#[derive(Clone, Copy, Debug)]
#[allow(missing_docs)]
pub struct Priority {
    pub piece: i32,
    pub priority: u8,
}

/// A block and a peer; there is none where `has_peer` is 0.
#[repr(C)]
#[derive(Clone, Copy, Debug)]
#[allow(missing_docs)]
pub struct NamedBlock {
    pub piece: i32,
    pub block: i32,
    pub peer: u64,
    pub has_peer: u32,
}

/// The same with the options of a request.
#[repr(C)]
#[derive(Clone, Copy, Debug)]
#[allow(missing_docs)]
pub struct Request {
    pub piece: i32,
    pub block: i32,
    pub peer: u64,
    pub has_peer: u32,
    pub options: u16,
}

/// What a pick is asked beside its slices: `bits` of the bitfield, and the place `end` from which the output is free.
#[repr(C)]
#[derive(Clone, Copy, Debug)]
#[allow(missing_docs)]
pub struct PickRequest {
    pub num_blocks: i32,
    pub prefer_contiguous_blocks: i32,
    pub num_peers: i32,
    pub options: u16,
    pub peer: u64,
    pub has_peer: u32,
    pub bits: usize,
    pub end: usize,
}

/// `kind` of an answer: nothing (or done), a number, a stale list, no peer.
pub const NOTHING: u32 = 0;
/// See [`NOTHING`].
pub const NUMBER: u32 = 1;
/// See [`NOTHING`].
pub const STALE: u32 = 2;
/// See [`NOTHING`].
pub const NO_PEER: u32 = 3;

/// The answer of a question, or the refusal, which is 0 for none and has a place if it is 13. So in every struct below.
#[repr(C)]
#[derive(Clone, Copy, Debug)]
#[allow(missing_docs)]
pub struct Answer {
    pub refusal: u32,
    pub kind: u32,
    pub place: u64,
    pub value: u64,
}

/// The answer of a change; `draws` are the words used.
#[repr(C)]
#[derive(Clone, Copy, Debug)]
#[allow(missing_docs)]
pub struct Change {
    pub refusal: u32,
    pub kind: u32,
    pub place: u64,
    pub value: u64,
    pub draws: u64,
}

/// Whole copies, and thousandths.
#[repr(C)]
#[derive(Clone, Copy, Debug)]
#[allow(missing_docs)]
pub struct Copies {
    pub refusal: u32,
    pub place: u64,
    pub integer: u64,
    pub fraction: u64,
}

/// So many pieces.
#[repr(C)]
#[derive(Clone, Copy, Debug)]
#[allow(missing_docs)]
pub struct Count {
    pub refusal: u32,
    pub place: u64,
    pub num_pieces: u64,
    pub pad_bytes: u64,
    pub last_piece: bool,
}

/// Partials in each queue.
#[repr(C)]
#[derive(Clone, Copy, Debug)]
#[allow(missing_docs)]
pub struct Sizes {
    pub refusal: u32,
    pub place: u64,
    pub downloading: u64,
    pub full: u64,
    pub finished: u64,
    pub zero_prio: u64,
}

/// Of a piece; `priority` is its bucket where it is `listed`.
#[repr(C)]
#[derive(Clone, Copy, Debug)]
#[allow(missing_docs)]
pub struct Stats {
    pub refusal: u32,
    pub place: u64,
    pub peer_count: u64,
    pub listed: bool,
    pub priority: u16,
    pub flushed: bool,
    pub downloading: bool,
}

/// Of a piece's partial.
#[repr(C)]
#[derive(Clone, Copy, Debug)]
#[allow(missing_docs)]
pub struct Info {
    pub refusal: u32,
    pub place: u64,
    pub index: u64,
    pub finished: u16,
    pub passed_hash_check: bool,
    pub writing: u16,
    pub locked: bool,
    pub requested: u16,
    pub hashing: bool,
}

/// What a pick did; `end` is where the output ends now.
#[repr(C)]
#[derive(Clone, Copy, Debug)]
#[allow(missing_docs)]
pub struct Picked {
    pub refusal: u32,
    pub flags: u32,
    pub place: u64,
    pub end: u64,
    pub draws: u64,
    pub partial_loops: u64,
    pub suggest_loops: u64,
    pub reverse_rare_loops: u64,
    pub rare_loops: u64,
    pub rand_start_loops: u64,
    pub rand_loops: u64,
    pub busy_loops: u64,
}

/// The lengths that the three buffers have to have.
#[repr(C)]
#[derive(Clone, Copy, Debug)]
#[allow(missing_docs)]
pub struct Memory {
    pub words: u64,
    pub cells: u64,
    pub partials: u64,
}

/// A question of the picker.
pub type Ask<R> = unsafe extern "C" fn(*const u64, usize, *const u16, usize, *const Record, usize) -> R;
/// A question with an argument.
pub type AskOf<A, R> = unsafe extern "C" fn(*const u64, usize, *const u16, usize, *const Record, usize, A) -> R;
/// A question that is answered by a list of `T`.
pub type AskList<T> = unsafe extern "C" fn(*const u64, usize, *const u16, usize, *const Record, usize, *mut T, usize) -> Answer;
/// The same of a piece.
pub type AskListOf<T> = unsafe extern "C" fn(*const u64, usize, *const u16, usize, *const Record, usize, *mut T, usize, i32) -> Answer;
/// A change that may draw.
pub type Draw<A> = unsafe extern "C" fn(*mut u64, usize, *mut u16, usize, *mut Record, usize, *const u32, usize, A) -> Change;
/// A change of the whole picker, which draws nothing.
pub type AlterAll = unsafe extern "C" fn(*mut u64, usize, *mut u16, usize, *mut Record, usize) -> Change;
/// A change of a piece, which draws nothing.
pub type Alter = unsafe extern "C" fn(*mut u64, usize, *mut u16, usize, *mut Record, usize, i32) -> Change;

#[link(name = "piece_picker", kind = "static")]
#[allow(missing_docs)]
extern "C" {
    pub fn pp_memory_needed(total_size: i64, piece_size: i32) -> Memory;
    pub fn pp_image_needed(total_size: i64, piece_size: i32) -> u64;
    pub fn pp_new(words: *mut u64, words_len: usize, cells: *mut u16, cells_len: usize, partials: *mut Record, partials_len: usize,
        total_size: i64, piece_size: i32) -> Answer;
    pub fn pp_take_image(words: *const u64, words_len: usize, cells: *const u16, cells_len: usize, partials: *const Record,
        partials_len: usize, bytes: *mut u8, bytes_len: usize) -> Answer;
    pub fn pp_read_image(words: *mut u64, words_len: usize, cells: *mut u16, cells_len: usize, partials: *mut Record,
        partials_len: usize, bytes: *const u8, bytes_len: usize) -> Answer;
    pub fn pp_inc_refcount_all(words: *mut u64, words_len: usize, cells: *mut u16, cells_len: usize, partials: *mut Record,
        partials_len: usize) -> Change;
    pub fn pp_dec_refcount_all(words: *mut u64, words_len: usize, cells: *mut u16, cells_len: usize, partials: *mut Record,
        partials_len: usize) -> Change;
    pub fn pp_pick_pieces(words: *mut u64, words_len: usize, cells: *mut u16, cells_len: usize, partials: *const Record,
        partials_len: usize, bitfield: *const u8, bitfield_len: usize, suggestions: *const i32, suggestions_len: usize,
        out: *mut u64, out_len: usize, draws: *const u32, draws_len: usize, pick: PickRequest) -> Picked;
}

/// Changes, each with its argument, which may draw.
macro_rules! drawing_changes {
    ($($name:ident($argument:ty);)*) => {
        #[allow(missing_docs)]
        extern "C" {
            $(pub fn $name(words: *mut u64, words_len: usize, cells: *mut u16, cells_len: usize, partials: *mut Record,
                partials_len: usize, draws: *const u32, draws_len: usize, argument: $argument) -> Change;)*
        }
    };
}

/// Changes of a piece which draw nothing.
macro_rules! piece_changes {
    ($($name:ident)*) => {
        #[allow(missing_docs)]
        extern "C" {
            $(pub fn $name(words: *mut u64, words_len: usize, cells: *mut u16, cells_len: usize, partials: *mut Record,
                partials_len: usize, piece: i32) -> Change;)*
        }
    };
}

/// Questions with their answer, further arguments in brackets.
macro_rules! questions {
    ($answer:ty, ($($more:ident: $kind:ty),*): $($name:ident)*) => {
        questions!(@ ($answer) ($($more: $kind),*) $($name)*);
    };
    (@ ($answer:ty) $more:tt $($name:ident)*) => {
        $(questions!(# ($answer) $more $name);)*
    };
    (# ($answer:ty) ($($more:ident: $kind:ty),*) $name:ident) => {
        #[allow(missing_docs)]
        extern "C" {
            pub fn $name(words: *const u64, words_len: usize, cells: *const u16, cells_len: usize, partials: *const Record,
                partials_len: usize $(, $more: $kind)*) -> $answer;
        }
    };
}

drawing_changes! {
    pp_inc_refcount(i32);
    pp_dec_refcount(i32);
    pp_set_piece_priority(Priority);
    pp_mark_as_downloading(Request);
    pp_mark_as_writing(NamedBlock);
    pp_mark_as_finished(NamedBlock);
    pp_mark_as_canceled(NamedBlock);
    pp_abort_download(NamedBlock);
}

piece_changes! { pp_lock_piece pp_piece_passed }

questions! { Answer, ():
    pp_num_pieces pp_blocks_per_piece pp_block_size pp_total_size pp_full_piece_size pp_num_seeds pp_cursor pp_reverse_cursor
    pp_dirty pp_get_download_queue_size pp_num_pad_bytes pp_num_have pp_num_filtered pp_num_have_filtered pp_is_finished
    pp_is_seeding pp_num_want_left
}

questions! { Copies, (): pp_distributed_copies }

questions! { Count, (): pp_want pp_have_want pp_have pp_all_pieces }

questions! { Sizes, (): pp_get_download_queue_sizes }

questions! { Answer, (place: i32): pp_partial_at pp_recent_extent pp_list_place }

questions! { Answer, (piece: i32):
    pp_pad_bytes_in_piece pp_peer_count pp_piece_priority pp_download_state pp_is_piece_flushed pp_is_downloading pp_piece_size
    pp_blocks_in_piece pp_payload_blocks_in_piece pp_get_availability pp_is_hashing pp_have_piece pp_is_piece_finished
    pp_passed_hash_check pp_locked pp_hashing
}

questions! { Stats, (piece: i32): pp_piece_stats }

questions! { Info, (piece: i32): pp_piece_info }

questions! { Answer, (block: PieceBlock):
    pp_num_peers_block pp_is_requested pp_is_downloaded pp_is_finished_block pp_block_state pp_block_num_peers pp_get_downloader
    pp_block_peer
}

questions! { Answer, (out: *mut u16, out_len: usize): pp_get_availability_vec pp_piece_priorities }

questions! { Answer, (out: *mut u64, out_len: usize): pp_get_download_queue }

questions! { Answer, (out: *mut u64, out_len: usize, piece: i32): pp_get_downloaders pp_blocks_for_piece }

/// The sizes, and the places of fields that padding could move, as the header's own checks have them.
const _: () = {
    assert!(size_of::<usize>() == 8);
    assert!(size_of::<Record>() == 12 && size_of::<PieceBlock>() == 8 && size_of::<Memory>() == 24);
    assert!(size_of::<Priority>() == 8 && offset_of!(Priority, priority) == 4);
    assert!(size_of::<NamedBlock>() == 24 && offset_of!(NamedBlock, peer) == 8 && offset_of!(NamedBlock, has_peer) == 16);
    assert!(size_of::<Request>() == 24 && offset_of!(Request, has_peer) == 16 && offset_of!(Request, options) == 20);
    assert!(size_of::<PickRequest>() == 48 && offset_of!(PickRequest, options) == 12 && offset_of!(PickRequest, peer) == 16);
    assert!(offset_of!(PickRequest, has_peer) == 24 && offset_of!(PickRequest, bits) == 32 && offset_of!(PickRequest, end) == 40);
    assert!(size_of::<Answer>() == 24 && offset_of!(Answer, place) == 8 && offset_of!(Answer, value) == 16);
    assert!(size_of::<Change>() == 32 && offset_of!(Change, place) == 8 && offset_of!(Change, draws) == 24);
    assert!(size_of::<Copies>() == 32 && offset_of!(Copies, place) == 8 && offset_of!(Copies, integer) == 16);
    assert!(size_of::<Count>() == 40 && offset_of!(Count, place) == 8 && offset_of!(Count, last_piece) == 32);
    assert!(size_of::<Sizes>() == 48 && offset_of!(Sizes, place) == 8 && offset_of!(Sizes, zero_prio) == 40);
    assert!(size_of::<Stats>() == 32 && offset_of!(Stats, peer_count) == 16 && offset_of!(Stats, listed) == 24);
    assert!(offset_of!(Stats, priority) == 26 && offset_of!(Stats, flushed) == 28 && offset_of!(Stats, downloading) == 29);
    assert!(size_of::<Info>() == 40 && offset_of!(Info, index) == 16 && offset_of!(Info, finished) == 24);
    assert!(offset_of!(Info, passed_hash_check) == 26 && offset_of!(Info, writing) == 28 && offset_of!(Info, locked) == 30);
    assert!(offset_of!(Info, requested) == 32 && offset_of!(Info, hashing) == 34);
    assert!(size_of::<Picked>() == 88 && offset_of!(Picked, place) == 8 && offset_of!(Picked, end) == 16);
    assert!(offset_of!(Picked, draws) == 24 && offset_of!(Picked, partial_loops) == 32 && offset_of!(Picked, busy_loops) == 80);
};
