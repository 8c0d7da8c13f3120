//! A whole download, straight on or set back: the image is saved in the middle, the station goes on for a while, loses its power, and
//! starts again from what was saved.

use crate::arguments::{Arguments, Spoil};
use crate::ledger::Totals;
use crate::part::{check, Fault};
use crate::state::{Own, Station};
use piece_picker::{Draws, PieceBlock, PieceIndex, PiecePicker};

/// Ticks that are lost at the set-back.
const LOST: u64 = 12;
/// Bytes of an image's head and of a piece's record, and the head's byte that says whether the list is stale.
const HEAD: usize = 24;
const PIECE: usize = 10;
const STALE: usize = 23;
/// The kind of a list place's record, and the bytes of the records before it in an image, by kind.
const LIST_PLACE: u8 = 6;
const RECORDS: [usize; 6] = [0, HEAD, PIECE, 6, 13, 5];

/// How a download ended.
pub struct End {
    pub log: Vec<(u64, PieceBlock)>,
    pub image: Vec<u8>,
    pub ticks: u64,
    pub totals: Totals,
    pub calls: u64,
    /// The tick that was saved, and the one in which the power failed.
    pub set_back: (u64, u64),
}

/// What outlasts a loss of power.
struct Saved {
    image: Vec<u8>,
    draws_used: u64,
    own: Own,
}

impl Station {
    /// A third is had, and the list stands, so that it is in the image; or two thirds are had.
    fn may_be_saved(&mut self) -> Result<bool, Fault> {
        let (had, pieces) = (self.part.ask(PiecePicker::num_have)? as usize, self.own.ledger.num_pieces());
        Ok(3 * had >= 2 * pieces || 3 * had >= pieces && !self.part.ask(PiecePicker::dirty)?)
    }

    fn save(&mut self) -> Result<Saved, Fault> {
        Ok(Saved { image: self.part.ask(PiecePicker::image)?, draws_used: self.part.draws.used(), own: self.own.clone() })
    }

    fn set_back(&mut self, saved: &Saved) -> Result<(), Fault> {
        let image = self.spoilt(&saved.image);
        if !self.spoils(Spoil::Picker) {
            self.part.calls += 1;
            self.part.picker = PiecePicker::from_image(&image)?;
        }
        let again = self.part.ask(PiecePicker::image)?;
        self.part.draws = Draws::seeded_after(self.seed, saved.draws_used);
        self.own = saved.own.clone();
        self.audit()?;
        // a list that was lost shows in what is picked, and not here
        check(again == image, || "the image read has another image".into())
    }

    /// The image as it is read back.
    fn spoilt(&mut self, image: &[u8]) -> Vec<u8> {
        let mut bytes = image.to_vec();
        if self.spoils(Spoil::Record) {
            bytes.drain(HEAD..HEAD + PIECE);
        }
        if self.spoils(Spoil::List) {
            bytes.truncate(list_start(image));
            bytes[STALE] = 1;
        }
        bytes
    }
}

/// Where the list places of an image start.
fn list_start(image: &[u8]) -> usize {
    let mut place = 0;
    while place < image.len() && image[place] != LIST_PLACE {
        place += RECORDS[usize::from(image[place])];
    }
    place
}

/// Downloads everything; `set_back`: with a loss of power in the middle.
pub fn download(arguments: &Arguments, set_back: bool) -> Result<End, Fault> {
    let mut station = Station::new(arguments)?;
    let limit = 2000 + 8 * station.own.ledger.num_blocks() as u64;
    let (mut saved, mut failed) = (None, 0);
    loop {
        let (over, tick) = (station.part.ask(PiecePicker::is_seeding)?, station.own.tick);
        if saved.is_none() && station.may_be_saved()? {
            saved = Some(station.save()?);
        }
        let due = |saved: &&Saved| set_back && failed == 0 && (over || tick == saved.own.tick + LOST);
        if let Some(saved) = saved.as_ref().filter(due) {
            failed = tick;
            station.set_back(saved)?;
            continue;
        }
        if over {
            break;
        }
        station.tick()?;
        check(tick < limit, || format!("the download is not over after {limit} ticks"))?;
    }
    station.audit_end()?;
    if station.spoils(Spoil::Count) {
        station.part.change(|p, d| p.inc_refcount(PieceIndex(0), d))?;
    }
    check(!set_back || failed > 0, || "the download was over before it was saved".into())?;
    let started = saved.map_or(0, |saved| saved.own.tick);
    let image = station.part.ask(PiecePicker::image)?;
    let Own { log, tick, ledger, .. } = station.own;
    Ok(End { log, image, ticks: tick, totals: ledger.totals, calls: station.part.calls, set_back: (started, failed) })
}
