//! Runs the proved judge of images on the bytes of `compare.judged` (standard input) and compares the place of the first fault.

use std::io::BufRead;

#[link(name = "link_judge", kind = "static")]
extern "C" {
    fn im_judge_image(bytes: *const u8, len: usize) -> usize;
    fn im_judge_job(bytes: *const u8, len: usize) -> usize;
}

fn bytes(hex: &str) -> Vec<u8> {
    if hex == "-" { return Vec::new(); }
    (0..hex.len()).step_by(2).map(|k| u8::from_str_radix(&hex[k..k + 2], 16).unwrap()).collect()
}

fn main() {
    let (mut accepted, mut refused) = (0, 0);
    for line in std::io::stdin().lock().lines().map(|line| line.unwrap()) {
        let fields: Vec<&str> = line.split(' ').collect();
        let data = bytes(fields[1]);
        let place = match fields[0] {
            "image" => unsafe { im_judge_image(data.as_ptr(), data.len()) },
            "job" => unsafe { im_judge_job(data.as_ptr(), data.len()) },
            other => panic!("no such case: {other}"),
        };
        let shown = if place == usize::MAX { "-".to_string() } else { place.to_string() };
        if shown != fields[2] {
            eprintln!("image: the reference says {}, the proved code {}: {}", fields[2], shown, line);
            std::process::exit(1);
        }
        if place == usize::MAX { accepted += 1 } else { refused += 1 }
    }
    println!("{accepted} images accepted, {refused} refused at the same place");
}
