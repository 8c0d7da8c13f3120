//! Times whole calls as a maker makes them: through the exports of the archive, memory test included, beside the Rust's own call and the
//! memory test alone. `harness/whole_bench` builds and runs it. A line for each call and size, its numbers and name parted by tabs:
//! pieces, blocks of a piece, partials, the call, and microseconds of the whole call, of the Rust's, of the test alone and of the test as
//! it is linked by itself. Changes are made on both sides alike, and have to end with the same image; picks, images and questions have to
//! answer the same.
//!
//! Each member of the archive has the test once more, and where its loops lie moves its time by some hundredths. So the test alone is a
//! call of the same member that is refused right behind its test; where nothing is refused, the test as it is linked by itself.

mod records;
#[allow(dead_code)]
mod picker;
#[allow(dead_code)]
mod rng;
mod rust_pick;
#[allow(dead_code)]
mod sizes;
#[allow(dead_code)]
mod states;
#[allow(dead_code)]
mod timing;
mod turns;
mod whole_changes;
mod whole_picker;
mod whole_reads;

use sizes::Size;
use timing::least;

/// Everything is timed so many times over, so that a busy machine leaves each call alone at least once.
const PASSES: usize = 3;

/// The times of a call: whole, the Rust's, the test alone, and the test as it is linked by itself.
pub type Times = [f64; 4];

/// The least times so far, by size and call.
struct Best(Vec<(String, Times)>);

impl Best {
    fn note(&mut self, line: String, times: Times) {
        match self.0.iter_mut().find(|(known, _)| *known == line) {
            Some((_, best)) => *best = least(*best, times),
            None => self.0.push((line, times)),
        }
    }
}

/// Takes the times of one size.
pub struct Lines<'a> {
    size: Size,
    best: &'a mut Best,
}

impl Lines<'_> {
    pub fn put(&mut self, name: &str, times: Times) {
        let Size { n, b, partials, .. } = self.size;
        self.best.note(format!("{n}\t{b}\t{partials}\t{name}"), times);
    }
}

fn sizes() -> Vec<Size> {
    let shapes = [64, 1024, 4096].into_iter().flat_map(|n| [(n, 16), (n, 256)]);
    let all = shapes.flat_map(|(n, b)| [8, 64, 400].map(|partials| Size { n, b, partials, most: 23, one_group: false }));
    all.filter(|size| size.partials <= size.n).collect()
}

fn main() {
    let mut best = Best(Vec::new());
    for size in (0..PASSES).flat_map(|_| sizes()) {
        let mut lines = Lines { size, best: &mut best };
        whole_changes::all(size, &mut lines);
        whole_reads::all(size, &mut lines);
    }
    println!("pieces\tblocks\tpartials\tcall\twhole\trust\ttest\tlinked");
    for (line, [whole, rust, test, linked]) in best.0 {
        println!("{line}\t{whole:.4}\t{rust:.4}\t{test:.4}\t{linked:.4}");
    }
}
