//! Words to draw from, the same for the Rust and for the proved code.

use crate::rng::Rng;
use bitdaemon_common::random::{self, Made, Words};
use std::rc::Rc;

/// The least that a call that may draw has to be lent.
const LEAST: usize = 4352;
const TABLES: u64 = 200;

pub struct Draws(Vec<Rc<[u32]>>);

impl Draws {
    /// Tables of random words, and some of words that are all alike or small.
    pub fn new(rng: &mut Rng) -> Draws {
        let table = |kind| {
            let many = LEAST + rng.place(3);
            (0..many)
                .map(|k| match kind {
                    0 => 0,
                    1 => u32::MAX,
                    2 => k as u32,
                    3..=9 => rng.of(&[0, 1, 2, 3, 5, u32::MAX]),
                    _ => rng.next() as u32,
                })
                .collect()
        };
        Draws((0..TABLES).map(table).collect())
    }

    pub fn some(&self, rng: &mut Rng) -> Rc<[u32]> {
        self.0[rng.place(self.0.len())].clone()
    }
}

/// The words as the Rust's `random` takes them.
pub fn words(draws: &Rc<[u32]>) -> Words {
    Words { count: draws.len() as u64, made: Made::Listed(draws.clone()) }
}

/// The words that a script lends, or as many of them as any call uses.
#[allow(dead_code)]
pub fn listed(words: &Words) -> Rc<[u32]> {
    random::lend(words);
    (0..words.count.min(LEAST as u64)).map(|_| random::random(u32::MAX)).collect()
}
