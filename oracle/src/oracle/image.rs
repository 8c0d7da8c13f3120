//! Reads images, and finds the place of fault in bytes that are none.
//!
//! The bytes are first cut into records by the table of body lengths. Then each record that is due is judged as a whole, with those
//! before it; the first that is missing, cut short, of unknown kind or against a rule is the fault.

use crate::geometry::{Geometry, MAX_PARTIALS};

/// Body lengths of the kinds 1 to 7.
const BODY_LENGTHS: [usize; 7] = [23, 9, 5, 12, 4, 4, 17];

const HEAD: u8 = 1;
const PIECE: u8 = 2;
const PARTIAL: u8 = 3;
const BLOCK: u8 = 4;
const EXTENT: u8 = 5;
const LIST_PLACE: u8 = 6;

const MAX_COUNT: u64 = 1000;
const MAX_EXTENTS: usize = 5;
/// Blocks of an extent.
const EXTENT_BLOCKS: i64 = 256;

/// `DownloadQueue`, by number.
const DOWNLOADING: u8 = 0;
const FULL: u8 = 1;
const FINISHED: u8 = 2;
const ZERO_PRIO: u8 = 3;
const OPEN: u8 = 4;
const DOWNLOADING_REVERSE: u8 = 5;
const FULL_REVERSE: u8 = 6;

/// `BlockState`, by number.
const REQUESTED: u8 = 1;
const LAST_BLOCK_STATE: u8 = 3;

/// All that an accepted image says.
pub struct Fields {
    pub head: Head,
    pub pieces: Vec<Piece>,
    pub partials: Vec<Partial>,
    pub extents: Vec<i32>,
    pub list: Vec<usize>,
}

pub struct Head {
    pub geometry: Geometry,
    pub seeds: u64,
    pub cursor: u64,
    pub reverse_cursor: u64,
    pub stale: bool,
}

pub struct Piece {
    pub count: u64,
    pub state: u8,
    pub wish: u8,
    pub had: bool,
    pub pad: u64,
}

pub struct Partial {
    pub piece: usize,
    pub passed: bool,
    pub locked: bool,
    pub hashing: bool,
    pub blocks: Vec<Block>,
}

pub struct Block {
    pub state: u8,
    pub requesters: u64,
    pub peer: Option<u64>,
}

struct Record<'a> {
    place: usize,
    kind: u8,
    body: &'a [u8],
}

impl Record<'_> {
    /// The unsigned number in `length` bytes of the body from `start`, high byte first.
    fn number(&self, start: usize, length: usize) -> u64 {
        self.body[start..start + length].iter().fold(0, |n, byte| n << 8 | u64::from(*byte))
    }

    /// A byte of the body that has to be 0 or 1.
    fn flag(&self, at: usize) -> Option<bool> {
        match self.body[at] {
            0 => Some(false),
            1 => Some(true),
            _ => None,
        }
    }
}

/// Bytes cut into whole records of known kind.
struct Cut<'a> {
    records: Vec<Record<'a>>,
    /// Where the records end: the end of the bytes, or the start of a record that is cut short or of unknown kind.
    end: usize,
    length: usize,
}

impl<'a> Cut<'a> {
    fn new(bytes: &'a [u8]) -> Self {
        let mut records = Vec::with_capacity(bytes.len() / 10 + 1);
        let mut place = 0;
        while let Some(record) = record_at(bytes, place) {
            place += 1 + record.body.len();
            records.push(record);
        }
        Self { records, end: place, length: bytes.len() }
    }

    /// Where record number `k` starts, or would start.
    fn place(&self, k: usize) -> usize {
        self.records.get(k).map_or(self.end, |record| record.place)
    }

    /// What `admitted` makes of record number `k`, which has to be of `kind`; else the place of fault.
    fn due<T>(&self, k: usize, kind: u8, admitted: impl FnOnce(&Record) -> Option<T>) -> Result<T, usize> {
        self.records.get(k).filter(|record| record.kind == kind).and_then(admitted).ok_or_else(|| self.place(k))
    }

    /// How many records of `kind` follow each other from number `k` on.
    fn run_of(&self, k: usize, kind: u8) -> usize {
        self.records[k..].iter().take_while(|record| record.kind == kind).count()
    }
}

fn record_at(bytes: &[u8], place: usize) -> Option<Record<'_>> {
    let kind = *bytes.get(place)?;
    let length = *BODY_LENGTHS.get(usize::from(kind).checked_sub(1)?)?;
    let body = bytes.get(place + 1..place + 1 + length)?;
    Some(Record { place, kind, body })
}

/// The fields of a well-formed image, or the place of fault.
pub fn read(bytes: &[u8]) -> Result<Fields, usize> {
    let cut = Cut::new(bytes);
    let head = cut.due(0, HEAD, head)?;
    let pieces = (0..head.geometry.pieces)
        .map(|i| cut.due(1 + i, PIECE, |record| piece(record, &head, i)))
        .collect::<Result<Vec<_>, _>>()?;
    let after_pieces = 1 + pieces.len();
    let partials = read_partials(&cut, after_pieces, &head, &pieces)?;
    let after_partials = after_pieces + partials.iter().map(|partial| 1 + partial.blocks.len()).sum::<usize>();
    let extents = read_extents(&cut, after_partials, &head.geometry)?;
    let after_extents = after_partials + extents.len();
    let list = read_list(&cut, after_extents, &head, &pieces)?;
    let after_list = after_extents + list.len();
    if cut.place(after_list) < cut.length {
        return Err(cut.place(after_list));
    }
    Ok(Fields { head, pieces, partials, extents, list })
}

fn head(record: &Record) -> Option<Head> {
    let total = i64::try_from(record.number(0, 8)).ok()?;
    let geometry = Geometry::new(total, record.number(8, 4) as i64)?;
    let head = Head {
        geometry,
        seeds: record.number(12, 2),
        cursor: record.number(14, 4),
        reverse_cursor: record.number(18, 4),
        stale: record.flag(22)?,
    };
    let end = geometry.pieces as u64;
    (head.seeds <= MAX_COUNT && head.cursor <= end && head.reverse_cursor <= end).then_some(head)
}

fn piece(record: &Record, head: &Head, i: usize) -> Option<Piece> {
    let piece = Piece {
        count: record.number(0, 2),
        state: record.body[2],
        wish: record.body[3],
        had: record.flag(4)?,
        pad: record.number(5, 4),
    };
    (piece.count + head.seeds <= MAX_COUNT
        && piece.state <= FULL_REVERSE
        && piece.wish <= 7
        && (!piece.had || piece.state == OPEN)
        && piece.pad <= head.geometry.piece_length(i) as u64)
        .then_some(piece)
}

/// The partials from record number `first` on: one for each piece that is not Open, in their order.
fn read_partials(cut: &Cut, first: usize, head: &Head, pieces: &[Piece]) -> Result<Vec<Partial>, usize> {
    let mut partials: Vec<Partial> = Vec::new();
    let mut k = first;
    for (i, piece) in pieces.iter().enumerate().filter(|(_, piece)| piece.state != OPEN) {
        let stand = partials.len();
        let mut partial = cut.due(k, PARTIAL, |record| partial(record, i, stand))?;
        let blocks = head.geometry.blocks_in_piece(i);
        partial.blocks = (1..=blocks).map(|j| cut.due(k + j, BLOCK, block)).collect::<Result<_, _>>()?;
        if !state_fits(piece, &partial.blocks) {
            return Err(cut.place(k + blocks));
        }
        partials.push(partial);
        k += 1 + blocks;
    }
    Ok(partials)
}

/// The partial of piece `due`, before which `stand` partials stand; its blocks come later.
fn partial(record: &Record, due: usize, stand: usize) -> Option<Partial> {
    let flags = record.body[4];
    (record.number(0, 4) == due as u64 && flags <= 7 && stand < MAX_PARTIALS).then(|| Partial {
        piece: due,
        passed: flags & 1 != 0,
        locked: flags & 2 != 0,
        hashing: flags & 4 != 0,
        blocks: Vec::new(),
    })
}

fn block(record: &Record) -> Option<Block> {
    let peer = record.number(4, 8);
    let block = Block { state: record.body[0], requesters: record.number(1, 2), peer: record.flag(3)?.then_some(peer) };
    (block.state <= LAST_BLOCK_STATE && block.requesters <= MAX_COUNT && (block.peer.is_some() || peer == 0)).then_some(block)
}

/// A partial's state is what `update_piece_state` gives, which leaves a partial alone that is wanted and has no block in use. (The
/// hashing flag matters to it only there, so that it decides nothing.)
fn state_fits(piece: &Piece, blocks: &[Block]) -> bool {
    let used = blocks.iter().filter(|block| block.state != 0).count();
    if piece.wish == 0 {
        piece.state == ZERO_PRIO
    } else if used == 0 {
        piece.state != OPEN
    } else if used < blocks.len() {
        matches!(piece.state, DOWNLOADING | DOWNLOADING_REVERSE)
    } else if blocks.iter().any(|block| block.state == REQUESTED) {
        matches!(piece.state, FULL | FULL_REVERSE)
    } else {
        piece.state == FINISHED
    }
}

fn read_extents(cut: &Cut, first: usize, geometry: &Geometry) -> Result<Vec<i32>, usize> {
    let mut extents = Vec::new();
    for k in first..first + cut.run_of(first, EXTENT) {
        extents.push(cut.due(k, EXTENT, |record| extent(record, geometry, &extents))?);
    }
    Ok(extents)
}

fn extent(record: &Record, geometry: &Geometry, before: &[i32]) -> Option<i32> {
    let extent = record.number(0, 4);
    let first_piece = extent * (EXTENT_BLOCKS / geometry.blocks_per_piece) as u64;
    let in_range = geometry.blocks_per_piece < EXTENT_BLOCKS && first_piece < geometry.pieces as u64;
    (in_range && before.len() < MAX_EXTENTS && !before.contains(&(extent as i32))).then_some(extent as i32)
}

/// The list places from record number `first` on: one for each piece that has a bucket, or none while stale.
fn read_list(cut: &Cut, first: usize, head: &Head, pieces: &[Piece]) -> Result<Vec<usize>, usize> {
    if head.stale {
        return Ok(Vec::new());
    }
    let buckets: Vec<i64> = pieces.iter().map(|piece| bucket(piece, head.seeds)).collect();
    let due = buckets.iter().filter(|bucket| **bucket >= 0).count();
    let mut listed = vec![false; pieces.len()];
    let mut least = 0;
    (first..first + due)
        .map(|k| {
            let piece = cut.due(k, LIST_PLACE, |record| {
                let piece = record.number(0, 4) as usize;
                (*buckets.get(piece)? >= least && !listed[piece]).then_some(piece)
            })?;
            listed[piece] = true;
            least = buckets[piece];
            Ok(piece)
        })
        .collect()
}

/// Document 01's bucket, −1 for a piece that the list does not hold.
fn bucket(piece: &Piece, seeds: u64) -> i64 {
    if piece.wish == 0 || piece.had || piece.count + seeds == 0 || matches!(piece.state, FULL | FINISHED) {
        return -1;
    }
    let less = match piece.state {
        OPEN => 2,
        DOWNLOADING_REVERSE | FULL_REVERSE => 1,
        _ => 3,
    };
    (piece.count as i64 + 1) * (8 - i64::from(piece.wish)) * 3 - less
}
