//! Bytes of an image, damaged in one way: bytes changed, cut, lengthened, records dropped, doubled, swapped or cut out of order.

use crate::rng::Rng;

/// Body lengths of the kinds 1 to 7.
const BODY: [usize; 7] = [23, 9, 5, 12, 4, 4, 17];

/// The ways, by name.
pub const WAYS: [&str; 9] =
    ["whole", "a bit changed", "a byte changed", "cut", "lengthened", "a record dropped", "a record doubled", "records swapped", "twice"];

/// Where the records of a whole image start, and its end.
pub fn records(image: &[u8]) -> Vec<usize> {
    let mut places = vec![0];
    while let Some(kind) = image.get(places[places.len() - 1]) {
        places.push(places[places.len() - 1] + 1 + BODY[usize::from(*kind) - 1]);
    }
    places
}

/// The image with this damage; it may still be one that is accepted.
pub fn damaged(rng: &mut Rng, image: &[u8], places: &[usize], way: &str) -> Vec<u8> {
    let mut out = image.to_vec();
    match way {
        "whole" => {}
        "a bit changed" => out[rng.place(image.len())] ^= 1 << rng.below(8),
        "a byte changed" => change_byte(rng, &mut out, places),
        "cut" => out.truncate(rng.place(image.len())),
        "lengthened" => lengthen(rng, &mut out, image, places),
        "a record dropped" => {
            out.drain(a_record(rng, places));
        }
        "a record doubled" => {
            let record = a_record(rng, places);
            let copy = image[record.clone()].to_vec();
            out.splice(record.end..record.end, copy);
        }
        "records swapped" => swap(rng, &mut out, image, places),
        _ => {
            change_byte(rng, &mut out, places);
            change_byte(rng, &mut out, places);
        }
    }
    out
}

fn a_record(rng: &mut Rng, places: &[usize]) -> std::ops::Range<usize> {
    let k = rng.place(places.len() - 1);
    places[k]..places[k + 1]
}

/// A byte of a record becomes a number that could stand there; more often one of the head.
fn change_byte(rng: &mut Rng, out: &mut [u8], places: &[usize]) {
    let record = if rng.percent(20) { 0..24 } else { a_record(rng, places) };
    let at = record.start + rng.place(record.end - record.start);
    let any = rng.next() as u8;
    out[at] = rng.of(&[0, 1, 2, 3, 4, 5, 6, 7, 8, 0x80, 255, any, out[at].wrapping_add(1), out[at].wrapping_sub(1)]);
}

/// A byte, a record of any kind, or one of the image's own behind the last.
fn lengthen(rng: &mut Rng, out: &mut Vec<u8>, image: &[u8], places: &[usize]) {
    match rng.below(3) {
        0 => out.push(rng.below(9) as u8),
        1 => {
            let kind = rng.between(1, 7) as u8;
            let body = BODY[usize::from(kind) - 1] - rng.place(2);
            out.push(kind);
            out.resize(out.len() + body, 0);
        }
        _ => out.extend_from_slice(&image[a_record(rng, places)]),
    }
}

/// Two records change their places, neighbours more often than others.
fn swap(rng: &mut Rng, out: &mut Vec<u8>, image: &[u8], places: &[usize]) {
    let many = places.len() - 1;
    let (j, k) = (rng.place(many), rng.place(many));
    let (j, k) = if rng.percent(60) && j + 1 < many { (j, j + 1) } else { (j.min(k), j.max(k)) };
    if j == k {
        return;
    }
    let parts = [0..places[j], places[k]..places[k + 1], places[j + 1]..places[k], places[j]..places[j + 1], places[k + 1]..image.len()];
    *out = parts.into_iter().flat_map(|part| image[part].iter().copied()).collect();
}
