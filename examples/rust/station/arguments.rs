//! The arguments of the station, and what can be done wrong on purpose.

/// What is done wrong once.
#[derive(Clone, Copy, Debug, PartialEq, Eq)]
pub enum Spoil {
    Nothing,
    /// A block comes, and nobody marks it.
    Drop,
    /// A block comes twice.
    Twice,
    /// A peer leaves with its requests.
    Forget,
    /// A pick gives a block that has come.
    Pick,
    /// A piece has the right hash, and the picker is not told.
    Pass,
    /// A record of the image is lost at the set-back.
    Record,
    /// The list is lost at the set-back: the image is a good one of another picker.
    List,
    /// The station is set back, and its picker is not.
    Picker,
    /// A peer is counted once more at the end.
    Count,
}

const KINDS: [(&str, Spoil); 9] = [
    ("drop", Spoil::Drop),
    ("twice", Spoil::Twice),
    ("forget", Spoil::Forget),
    ("pick", Spoil::Pick),
    ("pass", Spoil::Pass),
    ("record", Spoil::Record),
    ("list", Spoil::List),
    ("picker", Spoil::Picker),
    ("count", Spoil::Count),
];

/// What the station is made from.
pub struct Arguments {
    pub seed: u64,
    pub pieces: usize,
    pub piece_size: i32,
    pub peers: usize,
    pub spoil: Spoil,
}

impl Arguments {
    pub fn read(mut words: impl Iterator<Item = String>) -> Result<Arguments, String> {
        let mut number = |name: &str, least: u64, most: u64| {
            let word = words.next().ok_or(format!("{name} is missing"))?;
            let number = word.parse().ok().filter(|number| (least..=most).contains(number));
            number.ok_or(format!("{name} is a number from {least} to {most}"))
        };
        let seed = number("SEED", 0, u64::MAX)?;
        let pieces = number("PIECES", 8, 4096)? as usize;
        let piece_size = number("PIECE_SIZE", 3, 4_194_304)? as i32;
        let peers = number("PEERS", 6, 500)? as usize;
        let spoil = match (words.next().as_deref(), words.next(), words.next()) {
            (None, ..) => Spoil::Nothing,
            (Some("--spoil"), Some(kind), None) => spoil_of(&kind)?,
            _ => return Err("after PEERS comes nothing or --spoil KIND".into()),
        };
        Ok(Arguments { seed, pieces, piece_size, peers, spoil })
    }

    /// All pieces but the last are whole.
    pub fn total_size(&self) -> i64 {
        let size = i64::from(self.piece_size);
        self.pieces as i64 * size - size / 3
    }
}

fn spoil_of(kind: &str) -> Result<Spoil, String> {
    let names: Vec<&str> = KINDS.iter().map(|(name, _)| *name).collect();
    let found = KINDS.iter().find(|(name, _)| *name == kind);
    found.map(|(_, spoil)| *spoil).ok_or(format!("KIND is one of {}", names.join(", ")))
}
