//! Draws from lent words: a draw with limit n is the next lent word modulo n + 1.

use std::cell::{Cell, RefCell};
use std::rc::Rc;

/// Words lent to one call. Each word is made when it is drawn, so a long row costs nothing.
#[derive(Clone)]
pub struct Words {
    pub count: u64,
    pub made: Made,
}

/// How the lent words come about.
#[derive(Clone)]
pub enum Made {
    /// The first ones as listed, the others 0.
    Listed(Rc<[u32]>),
    /// From a seed, as docs/CALLS.md says.
    Seeded(u64),
}

impl Words {
    fn word(&self, i: u64) -> u32 {
        match &self.made {
            Made::Listed(words) => usize::try_from(i).ok().and_then(|i| words.get(i).copied()).unwrap_or(0),
            Made::Seeded(seed) => seeded_word(*seed, i),
        }
    }
}

fn seeded_word(seed: u64, i: u64) -> u32 {
    let mut z = seed.wrapping_add(i.wrapping_add(1).wrapping_mul(0x9E37_79B9_7F4A_7C15));
    z = (z ^ (z >> 30)).wrapping_mul(0xBF58_476D_1CE4_E5B9);
    z = (z ^ (z >> 27)).wrapping_mul(0x94D0_49BB_1331_11EB);
    z ^= z >> 31;
    (z >> 32) as u32
}

thread_local! {
    static LENT: RefCell<Words> = RefCell::new(Words { count: 0, made: Made::Seeded(0) });
    static USED: Cell<u64> = const { Cell::new(0) };
}

/// Lends `words` to the call that follows; none is used yet.
pub fn lend(words: &Words) {
    LENT.with(|lent| lent.replace(words.clone()));
    USED.with(|used| used.set(0));
}

/// The number of words used since they were lent.
pub fn used() -> u64 {
    USED.with(Cell::get)
}

/// `random(limit)`: a number from 0 to `limit`.
///
/// # Panics
///
/// Where the lent words have run out.
pub fn random(limit: u32) -> u32 {
    let i = USED.with(|used| used.replace(used.get() + 1));
    let word = LENT.with(|lent| {
        let lent = lent.borrow();
        assert!(i < lent.count, "the {} lent words ran out", lent.count);
        lent.word(i)
    });
    (u64::from(word) % (u64::from(limit) + 1)) as u32
}
