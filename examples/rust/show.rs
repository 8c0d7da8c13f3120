//! Calls and answers in the words of a script and its outcome (docs/CALLS.md).

use piece_picker::{DownloadingPiece, Picked, PieceBlock, Refusal};

/// Prints a call and its answer, and hands the answer on.
pub fn call<T>(line: String, answer: Result<T, Refusal>, told: impl FnOnce(&T) -> String) -> Result<T, Refusal> {
    match &answer {
        Ok(value) => println!("{line} -> {}", told(value)),
        Err(Refusal::IllFormedImage { place }) => println!("{line} -> refused 13 {place}"),
        Err(refusal) => println!("{line} -> refused {}", refusal.number()),
    }
    answer
}

/// A call with the seed of the words that it is lent.
pub fn draws(line: String, seed: u64) -> String {
    format!("{line} draws=4352~{seed}")
}

pub fn bit(flag: bool) -> u8 {
    flag.into()
}

pub fn numbers<T: ToString>(list: &[T]) -> String {
    let words: Vec<String> = list.iter().map(|number| format!(" {}", number.to_string())).collect();
    format!("answer{}", words.concat())
}

pub fn hex(bytes: &[u8]) -> String {
    bytes.iter().map(|byte| format!("{byte:02x}")).collect()
}

pub fn partials(queue: &[DownloadingPiece]) -> String {
    let fields = |d: &DownloadingPiece| {
        let flags = [bit(d.passed_hash_check), bit(d.locked), bit(d.hashing)].map(i32::from);
        let [finished, writing, requested] = [d.finished, d.writing, d.requested].map(i32::from);
        [d.index.0, finished, flags[0], writing, flags[1], requested, flags[2]]
    };
    numbers(&queue.iter().flat_map(fields).collect::<Vec<i32>>())
}

pub fn picked(found: &Picked, blocks: &[PieceBlock]) -> String {
    let c = &found.counters;
    let loops = [c.partial_loops, c.suggest_loops, c.reverse_rare_loops, c.rare_loops, c.rand_start_loops, c.rand_loops, c.busy_loops];
    let loops: Vec<String> = loops.iter().map(|count| format!(" {count}")).collect();
    let blocks: Vec<String> = blocks.iter().map(|block| format!(" {}.{}", block.piece_index, block.block_index)).collect();
    format!("picked {} loops{} blocks{} draws {}", found.flags.0, loops.concat(), blocks.concat(), found.draws)
}
