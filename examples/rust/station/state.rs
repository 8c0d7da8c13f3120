//! The station: its picker, what it keeps beside it, and a tick of its time.

use crate::arguments::{Arguments, Spoil};
use crate::ledger::Ledger;
use crate::part::{Fault, Part};
use crate::peer::{peers, Peer};
use crate::rng::Rng;
use piece_picker::{DownloadPriority, Draws, PieceBlock, PieceIndex, PiecePicker};

/// Ticks between two audits.
const AUDITS: u64 = 64;
/// Pieces of a hundred that are left out until all others are had.
const LEFT_OUT: u64 = 10;

/// A piece that is locked since a write failed, and the tick in which it is given back.
#[derive(Clone, Debug)]
pub struct Lock {
    pub piece: PieceIndex,
    pub until: u64,
}

/// What the station keeps itself, and saves beside the image.
#[derive(Clone)]
pub struct Own {
    pub tick: u64,
    pub peers: Vec<Peer>,
    pub ledger: Ledger,
    pub locks: Vec<Lock>,
    pub left_out: Vec<PieceIndex>,
    /// Every request, with its peer.
    pub log: Vec<(u64, PieceBlock)>,
}

pub struct Station {
    pub part: Part,
    pub own: Own,
    pub blocks_per_piece: i32,
    pub seed: u64,
    spoil: Spoil,
}

/// What happens in a tick comes from seed and tick alone.
fn dice(seed: u64, tick: u64) -> Rng {
    Rng::new(Rng::new(seed ^ tick.rotate_left(32)).next())
}

impl Station {
    pub fn new(arguments: &Arguments) -> Result<Station, Fault> {
        let mut rng = Rng::new(arguments.seed);
        let picker = PiecePicker::new(arguments.total_size(), arguments.piece_size)?;
        let blocks_per_piece = picker.blocks_per_piece()?;
        let mut blocks = Vec::new();
        for piece in 0..picker.num_pieces()? {
            blocks.push(picker.blocks_in_piece(PieceIndex(piece))? as usize);
        }
        let own = Own {
            tick: 0,
            peers: peers(&mut rng, arguments.peers, arguments.pieces)?,
            ledger: Ledger::new(&blocks),
            locks: Vec::new(),
            left_out: Vec::new(),
            log: Vec::new(),
        };
        let part = Part { picker, draws: Draws::seeded(arguments.seed), calls: 0 };
        let mut station = Station { part, own, blocks_per_piece, seed: arguments.seed, spoil: arguments.spoil };
        station.leave_out(&mut rng)?;
        Ok(station)
    }

    /// Some pieces are not wanted at first.
    fn leave_out(&mut self, rng: &mut Rng) -> Result<(), Fault> {
        for piece in (0..self.own.ledger.num_pieces()).filter(|_| rng.percent(LEFT_OUT)) {
            let piece = PieceIndex(piece as i32);
            self.own.left_out.push(piece);
            self.part.change(|p, d| p.set_piece_priority(piece, DownloadPriority::DONT_DOWNLOAD, d))?;
        }
        Ok(())
    }

    pub fn tick(&mut self) -> Result<(), Fault> {
        let mut rng = dice(self.seed, self.own.tick);
        self.come_and_go(&mut rng)?;
        self.deliver(&mut rng)?;
        self.fail_a_write(&mut rng)?;
        self.give_locked_back()?;
        self.ask_peers(&mut rng)?;
        self.change_priorities(&mut rng)?;
        self.own.tick += 1;
        if self.own.tick % AUDITS == 0 {
            self.audit()?;
        }
        Ok(())
    }

    /// A priority changes now and then; once all that is wanted is had, the pieces left out are wanted, too.
    fn change_priorities(&mut self, rng: &mut Rng) -> Result<(), Fault> {
        let piece = PieceIndex(rng.place(self.own.ledger.num_pieces()) as i32);
        let priority = DownloadPriority(rng.between(1, 7) as u8);
        if rng.percent(10) && !self.own.left_out.contains(&piece) {
            self.part.change(|p, d| p.set_piece_priority(piece, priority, d))?;
        }
        if self.part.ask(PiecePicker::is_finished)? {
            for piece in std::mem::take(&mut self.own.left_out) {
                self.part.change(|p, d| p.set_piece_priority(piece, DownloadPriority::DEFAULT, d))?;
            }
        }
        Ok(())
    }

    /// Whether this is the kind of mistake to make now; it is made once.
    pub fn spoils(&mut self, kind: Spoil) -> bool {
        let now = self.spoil == kind && self.own.tick > 5;
        if now {
            self.spoil = Spoil::Nothing;
        }
        now
    }
}
