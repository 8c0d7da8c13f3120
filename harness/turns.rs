//! What several jobs take, in turns.

use std::time::Instant;

/// Microseconds that so many calls take, each.
fn time_of(job: &mut dyn FnMut(), many: u32) -> f64 {
    let start = Instant::now();
    for _ in 0..many {
        job();
    }
    start.elapsed().as_secs_f64() * 1e6 / many as f64
}

/// Each one's best of many, in microseconds. They take turns, so that what slows one down slows the others, too; and a turn is short, so
/// that a busy machine leaves some of them alone.
pub fn times<const K: usize>(mut jobs: [&mut dyn FnMut(); K]) -> [f64; K] {
    let mut best = jobs.each_mut().map(|job| time_of(*job, 10));
    let many = best.map(|time| (20.0 / time).clamp(1.0, 1000.0) as u32);
    for _ in 0..1000 {
        for ((job, low), many) in jobs.iter_mut().zip(&mut best).zip(many) {
            *low = low.min(time_of(*job, many));
        }
    }
    best
}
