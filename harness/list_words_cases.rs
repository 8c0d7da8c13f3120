//! Runs the proved update and rebuild of list words on the lists of `compare.list_words` (standard input) and compares what they leave,
//! word by word.

use std::io::BufRead;

/// How long the list is, and the number of the next draw.
#[repr(C)]
struct Updated {
    len: usize,
    used: usize,
}

#[link(name = "link_list_words", kind = "static")]
extern "C" {
    fn lw_update(list: *mut u64, places: usize, n: usize, piece: u64, old: u64, new: u64,
        draws: *const u32, draws_len: usize, used: usize) -> Updated;
    fn lw_update_pieces(list: *mut u64, places: usize, ranks: *const u16, ranks_len: usize, n: usize,
        draws: *const u32, draws_len: usize, used: usize) -> Updated;
}

fn numbers(text: &str) -> Vec<u64> {
    if text == "-" { Vec::new() } else { text.split(',').map(|x| x.parse().unwrap()).collect() }
}

/// The words of so many draws.
fn draws(text: &str) -> Vec<u32> {
    numbers(text).into_iter().map(|x| x as u32).collect()
}

/// The list is the one that is named, the next draw too, and the words behind the list are as they were.
fn same(before: &[u64], list: &[u64], done: Updated, after: &str, next: &str) -> bool {
    let after = numbers(after);
    done.len == after.len() && list[..done.len] == after[..] && list[done.len..] == before[done.len..] && done.used.to_string() == next
}

fn update(fields: &[&str]) -> bool {
    let [piece, old, new, used] = [0, 1, 2, 3].map(|k| fields[k].parse::<u64>().unwrap());
    let (draws, words) = (draws(fields[4]), numbers(fields[5]));
    let before: Vec<u64> = words.iter().copied().chain(numbers(fields[6])).collect();
    let mut list = before.clone();
    let done = unsafe {
        lw_update(list.as_mut_ptr(), list.len(), words.len(), piece, old, new, draws.as_ptr(), draws.len(), used as usize)
    };
    same(&before, &list, done, fields[7], fields[8])
}

fn rebuild(fields: &[&str]) -> bool {
    let ranks: Vec<u16> = numbers(fields[0]).into_iter().map(|x| x as u16).collect();
    let (used, draws, before) = (fields[1].parse().unwrap(), draws(fields[2]), numbers(fields[3]));
    let mut list = before.clone();
    let done = unsafe {
        lw_update_pieces(list.as_mut_ptr(), list.len(), ranks.as_ptr(), ranks.len(), ranks.len(), draws.as_ptr(), draws.len(), used)
    };
    same(&before, &list, done, fields[4], fields[5])
}

fn main() {
    let (mut updates, mut rebuilds) = (0, 0);
    for line in std::io::stdin().lock().lines().map(|line| line.unwrap()) {
        let fields: Vec<&str> = line.split(' ').collect();
        let agrees = match (fields[0], fields.len()) {
            ("update", 10) => { updates += 1; update(&fields[1..]) }
            ("rebuild", 7) => { rebuilds += 1; rebuild(&fields[1..]) }
            ("end", 1) => {
                assert!(updates > 0 && rebuilds > 0, "no case of a kind");
                println!("list words: {updates} lists mended and {rebuilds} made anew, no difference");
                return;
            }
            _ => panic!("no such line: {line}"),
        };
        assert!(agrees, "differs: {line}");
    }
    panic!("the cases stop before their end");
}
