//! The proved questions of the crates `link_questions` and `link_piece_questions`, asked as a public call asks them: behind the memory
//! test, with the rows and counts that it leaves. Their answers as numbers, in the order of docs/CALLS.md.

use crate::list_operations::Geometry;
use crate::records::ROWS;
use oracle::questions::Reply;

/// What a question is asked of.
pub struct Query<'a> {
    pub words: &'a [u64],
    pub cells: &'a [u16],
    pub rows: &'a [u32; ROWS],
    pub live: usize,
    pub counts: &'a [u16; ROWS],
    pub g: Geometry,
    /// The piece, the block and the place that are asked about, where a question is about one.
    pub i: usize,
    pub j: usize,
    pub k: usize,
    /// Lent for an answer of several records, and for a number for each piece.
    pub out: &'a mut [u64],
    pub column: &'a mut [u16],
}

/// An answer as it is linked.
pub trait Answer {
    fn reply(self, query: &Query) -> Reply;
    /// The places that it has in the lent list.
    fn written(&self, _query: &Query) -> usize {
        0
    }
}

/// A reply, and how many places it has in the lent list.
pub struct Replied {
    pub reply: Reply,
    pub written: usize,
}

/// Kinds of what was told.
const NUMBER: u64 = 0;
const NO_PEER: u64 = 1;
const STALE: u64 = 3;

#[repr(C)]
pub struct Told {
    kind: u64,
    number: u64,
}

/// A peer or none, told.
#[repr(transparent)]
pub struct PeerTold(Told);

/// The number of records of blocks, told.
#[repr(transparent)]
pub struct BlocksTold(Told);

/// The number of records of peers.
#[repr(transparent)]
pub struct Peers(usize);

/// The number of records of partials.
#[repr(transparent)]
pub struct Infos(usize);

#[repr(C)]
pub struct PieceCount {
    num_pieces: u64,
    pad_bytes: u64,
    last_piece: bool,
}

#[repr(C)]
pub struct QueueSizes {
    downloading: usize,
    full: usize,
    finished: usize,
    zero_prio: usize,
}

#[repr(C)]
pub struct DistributedCopies {
    integer: u64,
    fraction: u64,
}

#[repr(C)]
pub struct PieceStats {
    peer_count: u64,
    listed: bool,
    priority: u16,
    flushed: bool,
    downloading: bool,
}

#[repr(C)]
pub struct PieceInfo {
    index: usize,
    finished: u16,
    passed_hash_check: bool,
    writing: u16,
    locked: bool,
    requested: u16,
    hashing: bool,
}

fn numbers<const N: usize>(numbers: [u64; N]) -> Reply {
    Reply::Numbers(numbers.map(i128::from).to_vec())
}

/// Words of a lent list.
fn words(out: &[u64]) -> Reply {
    Reply::Numbers(out.iter().map(|number| i128::from(*number)).collect())
}

macro_rules! one_number {
    ($($number:ty),*) => { $(
        impl Answer for $number {
            fn reply(self, _: &Query) -> Reply {
                Reply::Numbers(vec![self as i128])
            }
        }
    )* };
}
one_number!(usize, u64, u16, bool);

impl Answer for Told {
    fn reply(self, _: &Query) -> Reply {
        match self.kind {
            NUMBER => numbers([self.number]),
            STALE => Reply::Stale,
            _ => Reply::Nothing,
        }
    }
}

impl Answer for PeerTold {
    fn reply(self, _: &Query) -> Reply {
        match self.0.kind {
            NUMBER => numbers([1, self.0.number]),
            NO_PEER => numbers([0, 0]),
            _ => Reply::Nothing,
        }
    }
}

impl Answer for PieceCount {
    fn reply(self, _: &Query) -> Reply {
        numbers([self.num_pieces, self.pad_bytes, self.last_piece.into()])
    }
}

impl Answer for QueueSizes {
    fn reply(self, _: &Query) -> Reply {
        numbers([self.downloading, self.full, self.finished, self.zero_prio].map(|size| size as u64))
    }
}

impl Answer for DistributedCopies {
    fn reply(self, _: &Query) -> Reply {
        numbers([self.integer, self.fraction])
    }
}

impl Answer for PieceStats {
    fn reply(self, _: &Query) -> Reply {
        let bucket = if self.listed { i128::from(self.priority) } else { -1 };
        Reply::Numbers(vec![self.peer_count.into(), bucket, self.flushed.into(), self.downloading.into()])
    }
}

impl Answer for PieceInfo {
    fn reply(self, _: &Query) -> Reply {
        let flags = [self.passed_hash_check, self.locked, self.hashing].map(u64::from);
        let counts = [self.finished, self.writing, self.requested].map(u64::from);
        numbers([self.index as u64, counts[0], flags[0], counts[1], flags[1], counts[2], flags[2]])
    }
}

/// A number for each piece.
impl Answer for () {
    fn reply(self, query: &Query) -> Reply {
        Reply::Numbers(query.column[..query.g.pieces].iter().map(|number| i128::from(*number)).collect())
    }
    fn written(&self, query: &Query) -> usize {
        query.g.pieces
    }
}

impl Answer for Infos {
    fn reply(self, query: &Query) -> Reply {
        words(&query.out[..7 * self.0])
    }
    fn written(&self, _: &Query) -> usize {
        7 * self.0
    }
}

impl Answer for Peers {
    fn reply(self, query: &Query) -> Reply {
        words(&query.out[..2 * self.0])
    }
    fn written(&self, _: &Query) -> usize {
        2 * self.0
    }
}

impl Answer for BlocksTold {
    fn reply(self, query: &Query) -> Reply {
        match self.0.kind {
            NUMBER => words(&query.out[..4 * self.0.number as usize]),
            _ => Reply::Nothing,
        }
    }
    fn written(&self, _: &Query) -> usize {
        4 * self.0.number as usize
    }
}

/// Declares exports by what they take, a function of a query for each, and a list of them all.
macro_rules! exports {
    ($($export:ident($($takes:ident)*) -> $answer:ty;)*) => {
        $(exports!(@ query $export $answer; [$($takes)*] [] []);)*
        static ALL: &[(&str, Linked)] = &[$((stringify!($export), |query| replied($export(query), query))),*];
    };
    (@ $q:ident $export:ident $answer:ty; [] [$($declared:tt)*] [$($given:tt)*]) => {
        pub fn $export($q: &mut Query) -> $answer {
            extern "C" {
                fn $export($($declared)*) -> $answer;
            }
            unsafe { $export($($given)*) }
        }
    };
    (@ $q:ident $export:ident $answer:ty; [words $($rest:tt)*] [$($d:tt)*] [$($v:tt)*]) => {
        exports!(@ $q $export $answer; [$($rest)*] [$($d)* words: *const u64, n: usize,] [$($v)* $q.words.as_ptr(), $q.words.len(),]);
    };
    (@ $q:ident $export:ident $answer:ty; [cells $($rest:tt)*] [$($d:tt)*] [$($v:tt)*]) => {
        exports!(@ $q $export $answer; [$($rest)*] [$($d)* cells: *const u16, m: usize,] [$($v)* $q.cells.as_ptr(), $q.cells.len(),]);
    };
    (@ $q:ident $export:ident $answer:ty; [rows $($rest:tt)*] [$($d:tt)*] [$($v:tt)*]) => {
        exports!(@ $q $export $answer; [$($rest)*] [$($d)* rows: *const u32, rows_len: usize, live: usize,]
            [$($v)* $q.rows.as_ptr(), ROWS, $q.live,]);
    };
    (@ $q:ident $export:ident $answer:ty; [counts $($rest:tt)*] [$($d:tt)*] [$($v:tt)*]) => {
        exports!(@ $q $export $answer; [$($rest)*] [$($d)* counts: *const u16, c: usize,] [$($v)* $q.counts.as_ptr(), ROWS,]);
    };
    (@ $q:ident $export:ident $answer:ty; [g $($rest:tt)*] [$($d:tt)*] [$($v:tt)*]) => {
        exports!(@ $q $export $answer; [$($rest)*] [$($d)* g: Geometry,] [$($v)* $q.g,]);
    };
    (@ $q:ident $export:ident $answer:ty; [out $($rest:tt)*] [$($d:tt)*] [$($v:tt)*]) => {
        exports!(@ $q $export $answer; [$($rest)*] [$($d)* out: *mut u64, o: usize,] [$($v)* $q.out.as_mut_ptr(), $q.out.len(),]);
    };
    (@ $q:ident $export:ident $answer:ty; [column $($rest:tt)*] [$($d:tt)*] [$($v:tt)*]) => {
        exports!(@ $q $export $answer; [$($rest)*] [$($d)* column: *mut u16, o: usize,]
            [$($v)* $q.column.as_mut_ptr(), $q.column.len(),]);
    };
    (@ $q:ident $export:ident $answer:ty; [$at:ident $($rest:tt)*] [$($d:tt)*] [$($v:tt)*]) => {
        exports!(@ $q $export $answer; [$($rest)*] [$($d)* $at: usize,] [$($v)* $q.$at,]);
    };
}

pub type Linked = fn(&mut Query) -> Replied;

fn replied(answer: impl Answer, query: &Query) -> Replied {
    let written = answer.written(query);
    Replied { reply: answer.reply(query), written }
}

/// The question of this name.
pub fn linked(name: &str) -> Linked {
    let found = ALL.iter().find(|(export, _)| export[3..] == *name);
    found.unwrap_or_else(|| panic!("no question {name} is linked")).1
}

#[link(name = "link_questions", kind = "static")]
extern "C" {}

#[link(name = "link_piece_questions", kind = "static")]
extern "C" {}

exports! {
    aq_num_pieces(g) -> usize;
    aq_blocks_per_piece(g) -> usize;
    aq_block_size(words g) -> u64;
    aq_total_size(words g) -> u64;
    aq_full_piece_size(words g) -> u64;
    aq_num_seeds(words g) -> u64;
    aq_cursor(words g) -> u64;
    aq_reverse_cursor(words g) -> u64;
    aq_dirty(words g) -> bool;
    aq_get_download_queue_size(words g) -> usize;
    aq_num_pad_bytes(words cells rows g) -> u64;
    aq_num_have(words cells rows g) -> u64;
    aq_num_filtered(words cells rows g) -> u64;
    aq_num_have_filtered(words cells rows g) -> u64;
    aq_want(words cells rows g) -> PieceCount;
    aq_have_want(words cells rows g) -> PieceCount;
    aq_have(words cells rows g) -> PieceCount;
    aq_all_pieces(words cells rows g) -> PieceCount;
    aq_is_finished(words cells rows g) -> bool;
    aq_is_seeding(words cells rows g) -> bool;
    aq_num_want_left(words cells rows g) -> u64;
    aq_get_download_queue_sizes(words cells rows g) -> QueueSizes;
    aq_distributed_copies(words cells g) -> DistributedCopies;
    aq_get_availability_vec(words cells g column) -> ();
    aq_piece_priorities(words cells g column) -> ();
    aq_get_download_queue(words cells rows counts g out) -> Infos;

    aq_pad_bytes_in_piece(words g i) -> u64;
    aq_peer_count(cells g i) -> u16;
    aq_piece_priority(cells g i) -> u16;
    aq_download_state(cells g i) -> u16;
    aq_is_piece_flushed(cells g i) -> bool;
    aq_is_downloading(cells g i) -> bool;
    aq_piece_size(words g i) -> u64;
    aq_blocks_in_piece(words g i) -> u64;
    aq_payload_blocks_in_piece(words g i) -> u64;
    aq_get_availability(words cells g i) -> u64;
    aq_piece_stats(words cells g i) -> PieceStats;
    aq_passed_hash_check(rows i) -> Told;
    aq_locked(rows i) -> Told;
    aq_hashing(rows i) -> Told;
    aq_is_hashing(rows i) -> bool;
    aq_have_piece(cells rows g i) -> bool;
    aq_piece_info(words cells rows counts g i) -> PieceInfo;
    aq_is_piece_finished(words cells rows counts g i) -> bool;
    aq_num_peers_block(words cells rows g i j) -> u16;
    aq_is_requested(words cells rows g i j) -> bool;
    aq_is_downloaded(words cells rows g i j) -> bool;
    aq_is_finished_block(words cells rows g i j) -> bool;
    aq_block_state(words cells rows g i j) -> Told;
    aq_block_num_peers(words cells rows g i j) -> Told;
    aq_get_downloader(words cells rows g i j) -> PeerTold;
    aq_block_peer(words cells rows g i j) -> PeerTold;
    aq_blocks_for_piece(words cells rows g i out) -> BlocksTold;
    aq_get_downloaders(words cells rows g i out) -> Peers;
    aq_partial_at(rows k) -> Told;
    aq_recent_extent(words g k) -> Told;
    aq_list_place(words g k) -> Told;
}
