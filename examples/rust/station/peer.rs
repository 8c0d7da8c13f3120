//! The peers of the swarm: what each has, how it behaves, and what it was asked for.

use crate::part::Fault;
use crate::rng::Rng;
use piece_picker::{Bitfield, PickerOptions, PieceBlock};

#[derive(Clone, Copy, Debug, PartialEq, Eq)]
pub enum Kind {
    /// A seed that stays and brings everything, so that the download ends.
    Steady,
    /// A seed that comes and goes.
    Seed,
    /// Takes long for each block.
    Slow,
    /// Rejects many requests.
    Failing,
    /// Now and then its data is wrong.
    Corrupt,
    Plain,
}

const KINDS: [Kind; 6] = [Kind::Steady, Kind::Seed, Kind::Slow, Kind::Failing, Kind::Corrupt, Kind::Plain];
/// Wrong blocks that a corrupt peer sends before it sends right ones alone.
const WRONG_BLOCKS: u32 = 3;

/// A block that the peer was asked for, and the tick in which its answer comes.
#[derive(Clone, Debug)]
pub struct Request {
    pub block: PieceBlock,
    pub due: u64,
}

#[derive(Clone)]
pub struct Peer {
    pub number: u64,
    pub kind: Kind,
    pub has: Bitfield,
    pub here: bool,
    /// It brought a block of a piece whose hash was wrong.
    pub parole: bool,
    pub wrong_left: u32,
    pub requests: Vec<Request>,
}

/// As many peers of all kinds, away at first. Those that are no seeds have some six pieces of ten.
pub fn peers(rng: &mut Rng, many: usize, pieces: usize) -> Result<Vec<Peer>, Fault> {
    let mut peers = Vec::new();
    for number in 0..many {
        let kind = if number == 0 { Kind::Steady } else { KINDS[1 + (number - 1) % 5] };
        let mut has = Bitfield::with_value(pieces, matches!(kind, Kind::Steady | Kind::Seed))?;
        (0..pieces).filter(|_| rng.percent(60)).for_each(|piece| has.set_bit(piece));
        let number = number as u64 + 1;
        peers.push(Peer { number, kind, has, here: false, parole: false, wrong_left: WRONG_BLOCKS, requests: Vec::new() });
    }
    Ok(peers)
}

impl Peer {
    pub fn is_seed(&self) -> bool {
        matches!(self.kind, Kind::Steady | Kind::Seed)
    }

    /// How many blocks it is asked for at a time.
    pub fn slots(&self) -> usize {
        match self.kind {
            Kind::Slow => 2,
            Kind::Steady => 3,
            _ => 4,
        }
    }

    /// Ticks until a block comes.
    pub fn delay(&self, rng: &mut Rng) -> u64 {
        match self.kind {
            Kind::Slow => rng.between(6, 30),
            _ => rng.between(1, 3),
        }
    }

    /// How its blocks are chosen: each kind in another way.
    pub fn options(&self) -> PickerOptions {
        let mut options = match self.kind {
            Kind::Steady => PickerOptions::RAREST_FIRST | PickerOptions::PIECE_EXTENT_AFFINITY,
            Kind::Seed => PickerOptions::SEQUENTIAL,
            Kind::Slow => PickerOptions::RAREST_FIRST | PickerOptions::REVERSE,
            Kind::Failing => PickerOptions::PRIORITIZE_PARTIALS,
            Kind::Corrupt => PickerOptions::RAREST_FIRST | PickerOptions::PRIORITIZE_PARTIALS,
            Kind::Plain => PickerOptions::ALIGN_EXPANDED_PIECES,
        };
        if self.parole {
            options.set(PickerOptions::ON_PAROLE);
        }
        options
    }

    /// The run of blocks that it is asked for, of a torrent with so many to a piece.
    pub fn run(&self, blocks_per_piece: i32) -> i32 {
        if self.kind == Kind::Plain {
            2 * blocks_per_piece
        } else {
            0
        }
    }

    pub fn was_asked_for(&self, block: PieceBlock) -> bool {
        self.requests.iter().any(|request| request.block == block)
    }

    /// Takes the requests out that are answered in this tick.
    pub fn take_due(&mut self, tick: u64) -> Vec<PieceBlock> {
        let due = self.requests.iter().filter(|request| request.due <= tick).map(|request| request.block).collect();
        self.requests.retain(|request| request.due > tick);
        due
    }
}
