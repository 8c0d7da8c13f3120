//! Random pickers, built field by field: any state whose image is accepted, whether or not calls lead there. As compare/states.py.

use crate::picker::rank;
use crate::rng::Rng;
use oracle::geometry::{Geometry, MAX_PARTIALS};
use oracle::image::{Block, Fields, Head, Partial, Piece};

const BLOCK: i64 = 16384;
const MAX_PEERS: u64 = 1000;
const MAX_EXTENTS: u64 = 5;
const OPEN: u8 = 4;
pub const PEERS: [Option<u64>; 6] = [None, Some(0), Some(1), Some(2), Some(3), Some(u64::MAX)];

/// Sizes of torrents.
#[derive(Clone, Copy)]
pub enum Kind {
    /// Up to a dozen pieces of up to six blocks.
    Small,
    /// Dozens to hundreds of pieces of up to four blocks: groups of the list with many pieces.
    Many,
    /// Pieces of up to 256 blocks.
    Wide,
    /// Pieces of a byte, more than there may be partials, and as many partials as may stand or almost.
    Crowded,
    /// 513 to 4,096 pieces.
    Huge,
    /// 4,096 pieces of 256 blocks.
    Full,
    /// For timing: so many pieces, blocks of a piece, and partials.
    Sized([usize; 3]),
}

impl Kind {
    pub fn geometry(self, rng: &mut Rng) -> Geometry {
        let (pieces, size) = match self {
            Kind::Small => {
                let sizes = [1, 2, 7, 100, BLOCK - 1, BLOCK, BLOCK + 1, 2 * BLOCK, 3 * BLOCK, 4 * BLOCK, 4 * BLOCK + 5, 6 * BLOCK];
                (rng.of(&[1, 2, 2, 3, 4, 5, 6, 8, 9, 12]), rng.of(&sizes))
            }
            Kind::Many => (rng.of(&[30, 64, 100, 200, 300]), rng.of(&[1, BLOCK, BLOCK + 1, 2 * BLOCK, 4 * BLOCK])),
            Kind::Wide => {
                let b = rng.of(&[8, 16, 17, 31, 64, 100, 128, 200, 255, 256]);
                (rng.of(&[2, 5, 16, 17, 40, 70]), b * BLOCK - rng.of(&[0, 0, 1, BLOCK - 1]))
            }
            Kind::Crowded => (rng.of(&[600, 1024, 1500]), 1),
            Kind::Huge => (rng.of(&[513, 600, 1024, 4096, 4096]), rng.of(&[1, 1, 2, 16]) * BLOCK),
            Kind::Full => (4096, 256 * BLOCK),
            Kind::Sized([pieces, blocks, _]) => (pieces as i64, blocks as i64 * BLOCK),
        };
        let any = rng.between(1, size as u64) as i64;
        let last = rng.of(&[1, size, any]);
        Geometry::new((pieces - 1) * size + last, size).expect("a valid geometry")
    }

    /// How many partials stand.
    fn partials(self, rng: &mut Rng, pieces: usize) -> usize {
        match self {
            Kind::Small | Kind::Wide => rng.place(pieces + 1),
            Kind::Many => rng.place(pieces / 2),
            Kind::Crowded => rng.of(&[510, 511, 512, 512]),
            Kind::Huge => rng.of(&[0, 8, 64, 400, 512]),
            Kind::Full => rng.of(&[8, 64, 511]),
            Kind::Sized([_, _, partials]) => partials,
        }
    }
}

/// Any picker of this kind.
pub fn a_picker(rng: &mut Rng, kind: Kind) -> Fields {
    let geometry = kind.geometry(rng);
    let n = geometry.pieces;
    let end = n as u64;
    let any = rng.between(0, MAX_PEERS);
    let seeds = rng.of(&[0, 0, 0, 1, 1, 2, any]);
    let (cursor, reverse_cursor) = (rng.between(0, end), rng.between(0, end));
    let head = Head { geometry, seeds, cursor, reverse_cursor, stale: rng.percent(30) };
    let many = kind.partials(rng, n).min(MAX_PARTIALS);
    let mut at = rng.sample(n, many).into_iter().peekable();
    let mut fields = Fields { head, pieces: Vec::new(), partials: Vec::new(), extents: Vec::new(), list: Vec::new() };
    for i in 0..n {
        let opened = at.next_if_eq(&i).is_some();
        add_piece(rng, &mut fields, i, opened);
    }
    fields.extents = some_extents(rng, &geometry);
    fields.list = an_order(rng, &fields);
    fields
}

/// For timing: a picker of so many pieces, blocks of a piece and partials whose list is not stale.
pub fn not_stale(size: [usize; 3]) -> Fields {
    let mut rng = Rng::new(5);
    loop {
        let fields = a_picker(&mut rng, Kind::Sized(size));
        if !fields.head.stale {
            return fields;
        }
    }
}

fn add_piece(rng: &mut Rng, fields: &mut Fields, i: usize, opened: bool) {
    let geometry = fields.head.geometry;
    let wish = rng.of(&[0, 1, 4, 4, 4, 4, 6, 7, 7, 7]);
    let pad = a_pad(rng, geometry.piece_length(i) as u64);
    let mut piece = Piece { count: a_count(rng, fields.head.seeds), state: OPEN, wish, had: false, pad };
    if opened {
        let partial = a_partial(rng, i, geometry.blocks_in_piece(i));
        piece.state = a_state(rng, &partial.blocks, wish);
        fields.partials.push(partial);
    } else {
        piece.had = rng.percent(15);
    }
    fields.pieces.push(piece);
}

fn a_count(rng: &mut Rng, seeds: u64) -> u64 {
    let most = MAX_PEERS - seeds;
    let (few, high) = (rng.between(0, 9), most.saturating_sub(rng.below(2)));
    rng.of(&[0, 0, 1, 1, 2, 3, few, high]).min(most)
}

fn a_pad(rng: &mut Rng, length: u64) -> u64 {
    if rng.percent(75) {
        return 0;
    }
    let block = BLOCK as u64;
    let any = rng.between(0, length);
    rng.of(&[length, 1, block, block + 1, 2 * block, any]).min(length)
}

fn a_partial(rng: &mut Rng, piece: usize, many: usize) -> Partial {
    let [passed, locked, hashing] = [(); 3].map(|()| rng.percent(20));
    Partial { piece, passed, locked, hashing, blocks: some_blocks(rng, many) }
}

/// Free ones, all alike, all at work, or a mixture.
fn some_blocks(rng: &mut Rng, many: usize) -> Vec<Block> {
    let kind = rng.below(20);
    let (state, requesters, peer) = (rng.of(&[1, 1, 2, 3, 3]), rng.below(3), rng.of(&PEERS));
    (0..many)
        .map(|_| match kind {
            0..=4 => a_block(rng, &[0]),
            5..=8 => Block { state, requesters, peer },
            9..=11 => a_block(rng, &[1, 2, 3]),
            _ => a_block(rng, &[0, 0, 1, 1, 2, 3, 3]),
        })
        .collect()
}

fn a_block(rng: &mut Rng, states: &[u8]) -> Block {
    let state = rng.of(states);
    let usual = u64::from(state == 1);
    let requesters = if rng.percent(50) { rng.of(&[0, 1, 1, 2, 3, MAX_PEERS - 1, MAX_PEERS]) } else { usual };
    Block { state, requesters, peer: rng.of(&PEERS) }
}

/// A state that a partial of these blocks may stand in.
fn a_state(rng: &mut Rng, blocks: &[Block], wish: u8) -> u8 {
    let busy = blocks.iter().filter(|block| block.state != 0).count();
    if wish == 0 {
        3
    } else if busy == 0 {
        rng.of(&[0, 1, 2, 3, 5, 6])
    } else if busy < blocks.len() {
        rng.of(&[0, 5])
    } else if blocks.iter().any(|block| block.state == 1) {
        rng.of(&[1, 6])
    } else {
        2
    }
}

fn some_extents(rng: &mut Rng, geometry: &Geometry) -> Vec<i32> {
    let pieces_each = 256 / geometry.blocks_per_piece as usize;
    let many = if pieces_each > 1 { geometry.pieces.div_ceil(pieces_each) } else { 0 };
    let some = rng.between(0, MAX_EXTENTS.min(many as u64)) as usize;
    let mut extents: Vec<i32> = rng.sample(many, some).into_iter().map(|extent| extent as i32).collect();
    rng.shuffle(&mut extents);
    extents
}

/// The list, each group in a random order; none while stale.
fn an_order(rng: &mut Rng, fields: &Fields) -> Vec<usize> {
    if fields.head.stale {
        return Vec::new();
    }
    let mut listed: Vec<usize> = (0..fields.pieces.len()).filter(|i| rank_of(fields, *i) > 0).collect();
    rng.shuffle(&mut listed);
    listed.sort_by_key(|i| rank_of(fields, *i));
    listed
}

/// The rank of piece i, 0 where it has no bucket.
pub fn rank_of(fields: &Fields, i: usize) -> u16 {
    let piece = &fields.pieces[i];
    rank(fields.head.seeds as u16, piece.count as u16, piece.state.into(), piece.wish.into(), piece.had.into())
}
