//! Random requests of a pick, with arguments that tell something: N and runs near multiples of a piece's blocks, few peers and many, dense
//! and thin bitfields, suggestions twice or out of range.

use crate::lent::Lent;
use crate::rng::Rng;
use crate::states::PEERS;
use oracle::script::Pick;

const RAREST_FIRST: u16 = 1;
const SEQUENTIAL: u16 = 16;

/// RAREST_FIRST and SEQUENTIAL together are refused: one of them goes.
fn options(rng: &mut Rng) -> u16 {
    let any = rng.next() as u16 & if rng.percent(90) { 255 } else { u16::MAX };
    match rng.below(4) {
        0 => any & !(RAREST_FIRST | SEQUENTIAL),
        1 => any & !RAREST_FIRST | SEQUENTIAL,
        2 => rng.of(&[0, 1, 16, 17 ^ 16, 8, 9, 129]),
        _ => any & !SEQUENTIAL | RAREST_FIRST,
    }
}

/// Around some pieces of b blocks, few, or any number up to 2,048.
fn near(rng: &mut Rng, b: i64, least: i64) -> i64 {
    let (few, any) = (rng.below(6) as i64, rng.between(0, 2048) as i64);
    let pieces = b * rng.of(&[1, 1, 2, 3, 4]) + rng.of(&[-1, 0, 1]);
    rng.of(&[few, few, few, pieces, pieces, any, 2048]).clamp(least, 2048)
}

fn bytes(rng: &mut Rng, pieces: usize) -> Vec<u8> {
    let kind = rng.below(8);
    (0..pieces.div_ceil(8))
        .map(|_| match kind {
            0..=2 => 255,
            3 => rng.next() as u8 & rng.next() as u8 & rng.next() as u8,
            4 => 0,
            _ => rng.next() as u8 | rng.next() as u8,
        })
        .collect()
}

fn suggestions(rng: &mut Rng, pieces: usize) -> Vec<i64> {
    let many = rng.of(&[0, 0, 0, 1, 2, 3, 20, 256]);
    (0..many)
        .map(|_| match rng.below(12) {
            0 => rng.of(&[-1, i64::from(i32::MIN), i64::from(i32::MAX), pieces as i64]),
            _ => rng.place(pieces) as i64,
        })
        .collect()
}

pub fn a_pick(rng: &mut Rng, lent: &Lent) -> Pick {
    let s = lent.shape();
    let any = rng.between(0, 1000) as i64;
    Pick {
        options: options(rng),
        wanted: near(rng, s.b as i64, 1),
        run: if rng.percent(50) { 0 } else { near(rng, s.b as i64, 0) },
        peers: rng.of(&[0, 1, 2, 3, 10, 300, 1000, any]),
        peer: rng.of(&PEERS),
        bits: s.n as i64,
        bytes: bytes(rng, s.n),
        suggestions: suggestions(rng, s.n),
    }
}
