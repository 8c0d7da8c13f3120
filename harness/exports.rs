//! The exported calls of include/piece_picker.h, as a maker links them: declared, and as methods of three lent buffers. `ask` asks a
//! question by its name and gives its answer in the numbers of docs/CALLS.md.

use crate::records::DownloadingPiece;
use oracle::questions::Reply;

/// The picker's buffers, as far as a call is lent them.
pub struct Buffers<'a> {
    pub words: &'a mut [u64],
    pub cells: &'a mut [u16],
    pub partials: &'a mut [DownloadingPiece],
}

// ---- arguments
#[repr(C)]
pub struct PieceBlock {
    pub piece: i32,
    pub block: i32,
}

#[repr(C)]
pub struct Priority {
    pub piece: i32,
    pub priority: u8,
}

#[repr(C)]
pub struct NamedBlock {
    pub piece: i32,
    pub block: i32,
    pub peer: u64,
    pub has_peer: u32,
}

#[repr(C)]
pub struct Request {
    pub piece: i32,
    pub block: i32,
    pub peer: u64,
    pub has_peer: u32,
    pub options: u16,
}

#[repr(C)]
pub struct PickRequest {
    pub num_blocks: i32,
    pub prefer_contiguous_blocks: i32,
    pub num_peers: i32,
    pub options: u16,
    pub peer: u64,
    pub has_peer: u32,
    pub bits: usize,
    pub end: usize,
}

// ---- answers
#[repr(C)]
pub struct Answer {
    pub refusal: u32,
    pub kind: u32,
    pub place: u64,
    pub value: u64,
}

/// Of a question about a peer.
#[repr(transparent)]
pub struct PeerAnswer(Answer);

/// Of one that fills a list with records of so many words.
#[repr(transparent)]
pub struct Listed<const WIDTH: usize>(Answer);

/// Of one that fills a list with a number for each piece.
#[repr(transparent)]
pub struct Column(Answer);

#[repr(C)]
pub struct Change {
    pub refusal: u32,
    pub kind: u32,
    pub place: u64,
    pub value: u64,
    pub draws: u64,
}

#[repr(C)]
pub struct Copies {
    refusal: u32,
    place: u64,
    integer: u64,
    fraction: u64,
}

#[repr(C)]
pub struct PieceCount {
    refusal: u32,
    place: u64,
    num_pieces: u64,
    pad_bytes: u64,
    last_piece: u8,
}

#[repr(C)]
pub struct QueueSizes {
    refusal: u32,
    place: u64,
    downloading: u64,
    full: u64,
    finished: u64,
    zero_prio: u64,
}

#[repr(C)]
pub struct PieceStats {
    refusal: u32,
    place: u64,
    peer_count: u64,
    listed: u8,
    priority: u16,
    flushed: u8,
    downloading: u8,
}

#[repr(C)]
pub struct PieceInfo {
    refusal: u32,
    place: u64,
    index: u64,
    finished: u16,
    passed_hash_check: u8,
    writing: u16,
    locked: u8,
    requested: u16,
    hashing: u8,
}

#[repr(C)]
pub struct Picked {
    pub refusal: u32,
    pub flags: u32,
    pub place: u64,
    pub end: u64,
    pub draws: u64,
    /// Partial, suggest, reverse rare, rare, random start, random and busy.
    pub loops: [u64; 7],
}

#[repr(C)]
#[derive(Debug, PartialEq)]
pub struct Memory {
    pub words: u64,
    pub cells: u64,
    pub partials: u64,
}

/// Kinds of an answer.
const NOTHING: u32 = 0;
const NUMBER: u32 = 1;
const STALE: u32 = 2;
const NO_PEER: u32 = 3;

// ---- what a question tells
/// A reply, or the refusal with its place; and how many places of the lent list were written.
pub struct Told {
    pub refusal: u32,
    pub place: u64,
    pub reply: Reply,
    pub written: usize,
}

/// Lent for an answer of several records.
pub struct Room<'a> {
    pub out: &'a mut [u64],
    pub column: &'a mut [u16],
}

trait Tells {
    fn told(self, room: &Room) -> Told;
}

fn numbers<const N: usize>(refusal: u32, place: u64, numbers: [u64; N]) -> Told {
    Told { refusal, place, reply: Reply::Numbers(numbers.map(i128::from).to_vec()), written: 0 }
}

/// By its kind: numbers where it is one, nothing or stale. Another kind is told as no reply ever is.
fn by_kind(answer: Answer, numbers: impl FnOnce(u64) -> Vec<i128>) -> Told {
    let reply = match answer.kind {
        _ if answer.refusal != 0 => Reply::Nothing,
        NOTHING => Reply::Nothing,
        NUMBER => Reply::Numbers(numbers(answer.value)),
        STALE => Reply::Stale,
        other => Reply::Numbers(vec![-1, other.into()]),
    };
    Told { refusal: answer.refusal, place: answer.place, reply, written: 0 }
}

impl Tells for Answer {
    fn told(self, _: &Room) -> Told {
        by_kind(self, |value| vec![value.into()])
    }
}

impl Tells for PeerAnswer {
    fn told(self, _: &Room) -> Told {
        if self.0.refusal == 0 && self.0.kind == NO_PEER {
            return numbers(0, self.0.place, [0, 0]);
        }
        by_kind(self.0, |value| vec![1, value.into()])
    }
}

/// So many places, as far as they are lent.
fn written(answer: &Answer, width: usize, lent: usize) -> usize {
    let told = answer.refusal == 0 && answer.kind == NUMBER;
    if told { (answer.value as usize).saturating_mul(width).min(lent) } else { 0 }
}

impl<const WIDTH: usize> Tells for Listed<WIDTH> {
    fn told(self, room: &Room) -> Told {
        let written = written(&self.0, WIDTH, room.out.len());
        Told { written, ..by_kind(self.0, |_| room.out[..written].iter().map(|word| i128::from(*word)).collect()) }
    }
}

impl Tells for Column {
    fn told(self, room: &Room) -> Told {
        let written = written(&self.0, 1, room.column.len());
        Told { written, ..by_kind(self.0, |_| room.column[..written].iter().map(|number| i128::from(*number)).collect()) }
    }
}

impl Tells for Copies {
    fn told(self, _: &Room) -> Told {
        numbers(self.refusal, self.place, [self.integer, self.fraction])
    }
}

impl Tells for PieceCount {
    fn told(self, _: &Room) -> Told {
        numbers(self.refusal, self.place, [self.num_pieces, self.pad_bytes, self.last_piece.into()])
    }
}

impl Tells for QueueSizes {
    fn told(self, _: &Room) -> Told {
        numbers(self.refusal, self.place, [self.downloading, self.full, self.finished, self.zero_prio])
    }
}

impl Tells for PieceStats {
    fn told(self, _: &Room) -> Told {
        let bucket = if self.listed == 1 { i128::from(self.priority) } else { -1 - i128::from(self.listed) };
        let reply = Reply::Numbers(vec![self.peer_count.into(), bucket, self.flushed.into(), self.downloading.into()]);
        Told { refusal: self.refusal, place: self.place, reply, written: 0 }
    }
}

impl Tells for PieceInfo {
    fn told(self, _: &Room) -> Told {
        let [passed, locked, hashing] = [self.passed_hash_check, self.locked, self.hashing].map(u64::from);
        let [finished, writing, requested] = [self.finished, self.writing, self.requested].map(u64::from);
        numbers(self.refusal, self.place, [self.index, finished, passed, writing, locked, requested, hashing])
    }
}

// ---- the calls
/// Calls on a picker: declared, and as methods of the buffers.
macro_rules! calls {
    ($($name:ident($($own:ident: $kind:ty),*) -> $answer:ty;)*) => {
        impl Buffers<'_> {
            $(pub fn $name(&mut self $(, $own: $kind)*) -> $answer {
                #[link(name = "piece_picker", kind = "static")]
                extern "C" {
                    fn $name(words: *mut u64, words_len: usize, cells: *mut u16, cells_len: usize, partials: *mut DownloadingPiece,
                        partials_len: usize $(, $own: $kind)*) -> $answer;
                }
                let Buffers { words, cells, partials } = self;
                unsafe {
                    $name(words.as_mut_ptr(), words.len(), cells.as_mut_ptr(), cells.len(), partials.as_mut_ptr(), partials.len()
                        $(, $own)*)
                }
            })*
        }
    };
}

calls! {
    pp_new(total_size: i64, piece_size: i32) -> Answer;
    pp_take_image(bytes: *mut u8, len: usize) -> Answer;
    pp_read_image(bytes: *const u8, len: usize) -> Answer;
    pp_inc_refcount(draws: *const u32, len: usize, piece: i32) -> Change;
    pp_dec_refcount(draws: *const u32, len: usize, piece: i32) -> Change;
    pp_inc_refcount_all() -> Change;
    pp_dec_refcount_all() -> Change;
    pp_set_piece_priority(draws: *const u32, len: usize, to: Priority) -> Change;
    pp_mark_as_downloading(draws: *const u32, len: usize, request: Request) -> Change;
    pp_mark_as_writing(draws: *const u32, len: usize, at: NamedBlock) -> Change;
    pp_mark_as_finished(draws: *const u32, len: usize, at: NamedBlock) -> Change;
    pp_mark_as_canceled(draws: *const u32, len: usize, at: NamedBlock) -> Change;
    pp_abort_download(draws: *const u32, len: usize, at: NamedBlock) -> Change;
    pp_lock_piece(piece: i32) -> Change;
    pp_piece_passed(piece: i32) -> Change;
    pp_pick_pieces(bitfield: *const u8, bytes: usize, suggestions: *const i32, many: usize, out: *mut u64, places: usize,
        draws: *const u32, len: usize, request: PickRequest) -> Picked;
}

#[link(name = "piece_picker", kind = "static")]
extern "C" {
    fn pp_memory_needed(total_size: i64, piece_size: i32) -> Memory;
    fn pp_image_needed(total_size: i64, piece_size: i32) -> u64;
}

/// What a picker of this geometry needs, and the bytes that no image of it passes.
pub fn needs(total_size: i64, piece_size: i32) -> (Memory, u64) {
    unsafe { (pp_memory_needed(total_size, piece_size), pp_image_needed(total_size, piece_size)) }
}

type Ask = fn(&mut Buffers, [i32; 2], &mut Room) -> Told;

/// Questions by what they take: declared, and a list of them all.
macro_rules! questions {
    ($($name:ident: $takes:ident -> $answer:ty;)*) => {
        $(questions!(@declared $takes $name $answer);)*
        static ASKED: &[(&str, Ask)] = &[$((stringify!($name), |lent, at, room| questions!(@asked $takes lent.$name at room))),*];
    };
    (@declared picker $name:ident $answer:ty) => { calls! { $name() -> $answer; } };
    (@declared number $name:ident $answer:ty) => { calls! { $name(number: i32) -> $answer; } };
    (@declared block $name:ident $answer:ty) => { calls! { $name(at: PieceBlock) -> $answer; } };
    (@declared column $name:ident $answer:ty) => { calls! { $name(column: *mut u16, len: usize) -> $answer; } };
    (@declared list $name:ident $answer:ty) => { calls! { $name(out: *mut u64, len: usize) -> $answer; } };
    (@declared list_of $name:ident $answer:ty) => { calls! { $name(out: *mut u64, len: usize, piece: i32) -> $answer; } };
    (@asked picker $lent:ident.$name:ident $at:ident $room:ident) => {{
        let _ = $at;
        $lent.$name().told($room)
    }};
    (@asked number $lent:ident.$name:ident $at:ident $room:ident) => { $lent.$name($at[0]).told($room) };
    (@asked block $lent:ident.$name:ident $at:ident $room:ident) => {
        $lent.$name(PieceBlock { piece: $at[0], block: $at[1] }).told($room)
    };
    (@asked column $lent:ident.$name:ident $at:ident $room:ident) => {{
        let _ = $at;
        $lent.$name($room.column.as_mut_ptr(), $room.column.len()).told($room)
    }};
    (@asked list $lent:ident.$name:ident $at:ident $room:ident) => {{
        let _ = $at;
        $lent.$name($room.out.as_mut_ptr(), $room.out.len()).told($room)
    }};
    (@asked list_of $lent:ident.$name:ident $at:ident $room:ident) => {
        $lent.$name($room.out.as_mut_ptr(), $room.out.len(), $at[0]).told($room)
    };
}

questions! {
    pp_num_pieces: picker -> Answer;
    pp_blocks_per_piece: picker -> Answer;
    pp_block_size: picker -> Answer;
    pp_total_size: picker -> Answer;
    pp_full_piece_size: picker -> Answer;
    pp_num_seeds: picker -> Answer;
    pp_cursor: picker -> Answer;
    pp_reverse_cursor: picker -> Answer;
    pp_dirty: picker -> Answer;
    pp_get_download_queue_size: picker -> Answer;
    pp_num_pad_bytes: picker -> Answer;
    pp_num_have: picker -> Answer;
    pp_num_filtered: picker -> Answer;
    pp_num_have_filtered: picker -> Answer;
    pp_is_finished: picker -> Answer;
    pp_is_seeding: picker -> Answer;
    pp_num_want_left: picker -> Answer;
    pp_distributed_copies: picker -> Copies;
    pp_want: picker -> PieceCount;
    pp_have_want: picker -> PieceCount;
    pp_have: picker -> PieceCount;
    pp_all_pieces: picker -> PieceCount;
    pp_get_download_queue_sizes: picker -> QueueSizes;

    pp_partial_at: number -> Answer;
    pp_recent_extent: number -> Answer;
    pp_list_place: number -> Answer;

    pp_pad_bytes_in_piece: number -> Answer;
    pp_peer_count: number -> Answer;
    pp_piece_priority: number -> Answer;
    pp_download_state: number -> Answer;
    pp_is_piece_flushed: number -> Answer;
    pp_is_downloading: number -> Answer;
    pp_piece_size: number -> Answer;
    pp_blocks_in_piece: number -> Answer;
    pp_payload_blocks_in_piece: number -> Answer;
    pp_get_availability: number -> Answer;
    pp_is_hashing: number -> Answer;
    pp_have_piece: number -> Answer;
    pp_is_piece_finished: number -> Answer;
    pp_passed_hash_check: number -> Answer;
    pp_locked: number -> Answer;
    pp_hashing: number -> Answer;
    pp_piece_stats: number -> PieceStats;
    pp_piece_info: number -> PieceInfo;

    pp_num_peers_block: block -> Answer;
    pp_is_requested: block -> Answer;
    pp_is_downloaded: block -> Answer;
    pp_is_finished_block: block -> Answer;
    pp_block_state: block -> Answer;
    pp_block_num_peers: block -> Answer;
    pp_get_downloader: block -> PeerAnswer;
    pp_block_peer: block -> PeerAnswer;

    pp_get_availability_vec: column -> Column;
    pp_piece_priorities: column -> Column;
    pp_get_download_queue: list -> Listed<7>;
    pp_get_downloaders: list_of -> Listed<2>;
    pp_blocks_for_piece: list_of -> Listed<4>;
}

/// Words of a record of this list, 0 where the question fills none.
pub fn width(name: &str) -> usize {
    match name {
        "get_download_queue" => 7,
        "get_downloaders" => 2,
        "blocks_for_piece" => 4,
        "get_availability_vec" | "piece_priorities" => 1,
        _ => 0,
    }
}

/// Asks the question of this name.
pub fn ask(name: &str, lent: &mut Buffers, at: [i32; 2], room: &mut Room) -> Told {
    let found = ASKED.iter().find(|(export, _)| export[3..] == *name);
    found.unwrap_or_else(|| panic!("no question {name} is exported")).1(lent, at, room)
}
