//! The random words that calls draw from. They are the caller's: the same words give the same picks.

/// The least that a call that may draw has to be lent.
const LEAST: usize = 4352;
/// As many words are made at a time from a seed.
const MADE: usize = 4 * LEAST;

/// From one word of a seed to the next.
const STEP: u64 = 0x9E37_79B9_7F4A_7C15;

/// Words in order, of which each call takes those it needs. A listed one ends: with fewer than 4,352 words left a call is refused with 4.
#[derive(Clone, Debug, PartialEq, Eq)]
pub struct Draws {
    words: Vec<u32>,
    /// The first word that no call took.
    next: usize,
    used: u64,
    seed: Option<Seed>,
}

/// Where the words made from a seed stand.
#[derive(Clone, Debug, PartialEq, Eq)]
struct Seed(u64);

impl Seed {
    fn word(&mut self) -> u32 {
        self.0 = self.0.wrapping_add(STEP);
        let mut z = self.0;
        z = (z ^ (z >> 30)).wrapping_mul(0xBF58_476D_1CE4_E5B9);
        z = (z ^ (z >> 27)).wrapping_mul(0x94D0_49BB_1331_11EB);
        ((z ^ (z >> 31)) >> 32) as u32
    }
}

impl Draws {
    /// Words without end, made from a seed as `docs/CALLS.md` makes those of a script. For tests and where chance need not be secret.
    #[must_use]
    pub fn seeded(seed: u64) -> Self {
        Self::seeded_after(seed, 0)
    }

    /// The same from behind the first `used` words on: what a station goes on with that saved seed and [`Draws::used`] beside an image.
    #[must_use]
    pub fn seeded_after(seed: u64, used: u64) -> Self {
        Self { words: Vec::new(), next: 0, used, seed: Some(Seed(seed.wrapping_add(used.wrapping_mul(STEP)))) }
    }

    /// The words used by all calls so far.
    #[must_use]
    pub fn used(&self) -> u64 {
        self.used
    }

    /// Words put behind those that are left.
    pub fn extend(&mut self, words: &[u32]) {
        self.drop_used();
        self.words.extend_from_slice(words);
    }

    /// The words for a call, first those next to be used.
    pub(crate) fn lend(&mut self) -> &[u32] {
        if self.words.len() - self.next < LEAST {
            self.make();
        }
        &self.words[self.next..]
    }

    /// A call used so many of the words that it was lent.
    pub(crate) fn spend(&mut self, used: u64) {
        self.used = self.used.saturating_add(used);
        self.next = self.words.len().min(self.next.saturating_add(used as usize));
    }

    fn make(&mut self) {
        self.drop_used();
        if let Some(seed) = &mut self.seed {
            let missing = MADE.saturating_sub(self.words.len());
            self.words.extend((0..missing).map(|_| seed.word()));
        }
    }

    fn drop_used(&mut self) {
        self.words.drain(..self.next);
        self.next = 0;
    }
}

impl From<Vec<u32>> for Draws {
    /// These words and no others.
    fn from(words: Vec<u32>) -> Self {
        Self { words, next: 0, used: 0, seed: None }
    }
}

impl From<&[u32]> for Draws {
    /// These words and no others.
    fn from(words: &[u32]) -> Self {
        Self::from(words.to_vec())
    }
}
