//! Runs the exported functions of `link_bitfield` beside the Rust bitfield and compares every answer and every byte.
//! `harness/run` builds it. Prints how many comparisons were made; ends with status 1 at the first difference, 2 after fewer than LEAST.

use bitfield_rs::Bitfield;

#[link(name = "link_bitfield", kind = "static")]
extern "C" {
    fn bf_with_size(buf: *mut u8, len: usize, bits: usize) -> u8;
    fn bf_with_value(buf: *mut u8, len: usize, bits: usize, val: bool) -> u8;
    fn bf_from_bytes(buf: *mut u8, len: usize, src: *const u8, src_len: usize, bits: usize) -> u8;
    fn bf_assign(buf: *mut u8, len: usize, src: *const u8, src_len: usize, bits: usize) -> u8;
    fn bf_get_bit(bytes: *const u8, len: usize, bits: usize, index: usize) -> bool;
    fn bf_set_bit(buf: *mut u8, len: usize, bits: usize, index: usize);
    fn bf_clear_bit(buf: *mut u8, len: usize, bits: usize, index: usize);
    fn bf_all_set(bytes: *const u8, len: usize, bits: usize) -> bool;
    fn bf_none_set(bytes: *const u8, len: usize, bits: usize) -> bool;
    fn bf_size(bits: usize) -> usize;
    fn bf_num_words(bits: usize) -> usize;
    fn bf_num_bytes(bits: usize) -> usize;
    fn bf_is_empty(bits: usize) -> bool;
    fn bf_bytes_len(buf: *const u8, len: usize, bits: usize) -> usize;
    fn bf_count(bytes: *const u8, len: usize, bits: usize) -> usize;
    fn bf_find_first_set(bytes: *const u8, len: usize, bits: usize, at: &mut usize) -> bool;
    fn bf_find_last_clear(bytes: *const u8, len: usize, bits: usize, at: &mut usize) -> bool;
    fn bf_set_all(buf: *mut u8, len: usize, bits: usize);
    fn bf_clear_all(buf: *mut u8, len: usize, bits: usize);
    fn bf_resize(buf: *mut u8, len: usize, old: usize, bits: usize) -> u8;
    fn bf_resize_with(buf: *mut u8, len: usize, old: usize, bits: usize, val: bool) -> u8;
    fn bf_next(bytes: *const u8, len: usize, bits: usize, index: usize, bit: &mut bool, next: &mut usize) -> bool;
}

struct Random(u64);

impl Random {
    fn next(&mut self) -> u64 {
        self.0 ^= self.0 >> 12;
        self.0 ^= self.0 << 25;
        self.0 ^= self.0 >> 27;
        self.0.wrapping_mul(0x2545_f491_4f6c_dd1d)
    }
    fn below(&mut self, n: usize) -> usize {
        (self.next() % n as u64) as usize
    }
    /// Random bytes; one time in four nearly all bits are unset, and one in four nearly all set.
    fn bytes(&mut self, n: usize) -> Vec<u8> {
        let kind = self.next() % 4;
        (0..n)
            .map(|_| {
                let (a, b, c) = (self.next() as u8, self.next() as u8, self.next() as u8);
                match kind {
                    0 => a & b & c & self.next() as u8,
                    1 => a | b | c | self.next() as u8,
                    _ => a,
                }
            })
            .collect()
    }
}

/// Comparisons: no fewer than this.
const LEAST: u64 = 12_000_000;

struct Tally(u64);

impl Tally {
    fn same<T: PartialEq + std::fmt::Debug>(&mut self, what: &str, bits: usize, rust: T, rattle: T) {
        self.0 += 1;
        if rust != rattle {
            eprintln!("{what}, {bits} bits: {rust:?} against {rattle:?}");
            std::process::exit(1);
        }
    }
}

/// The new bytes in front of what stood in the buffer behind them.
fn over(new: &[u8], old: &[u8]) -> Vec<u8> {
    let mut v = old.to_vec();
    v[..new.len()].copy_from_slice(new);
    v
}

fn found(call: unsafe extern "C" fn(*const u8, usize, usize, &mut usize) -> bool, bytes: &[u8], bits: usize) -> Option<usize> {
    let mut at = usize::MAX;
    unsafe { call(bytes.as_ptr(), bytes.len(), bits, &mut at) }.then_some(at)
}

/// Functions that only read. `bytes` may be dirty behind the last bit, longer than needed, or shorter.
fn reading(t: &mut Tally, bf: &Bitfield, bytes: &[u8], bits: usize) {
    let (p, n) = (bytes.as_ptr(), bytes.len());
    unsafe {
        for i in 0..bits + 10 {
            t.same("get_bit", bits, bf.get_bit(i), bf_get_bit(p, n, bits, i));
        }
        t.same("get_bit far", bits, false, bf_get_bit(p, n, bits, usize::MAX));
        t.same("all_set", bits, bf.all_set(), bf_all_set(p, n, bits));
        t.same("none_set", bits, bf.none_set(), bf_none_set(p, n, bits));
        t.same("count", bits, bf.count(), bf_count(p, n, bits));
        let mut rattle = Vec::new();
        let (mut index, mut bit, mut next) = (0, false, 0);
        while bf_next(p, n, bits, index, &mut bit, &mut next) {
            t.same("next index", bits, index + 1, next);
            rattle.push(bit);
            index = next;
        }
        t.same("next", bits, bf.iter().collect::<Vec<bool>>(), rattle);
        t.same("bytes", bits, bf.bytes().len().min(n), bf_bytes_len(p, n, bits));
    }
    t.same("find_first_set", bits, bf.find_first_set(), found(bf_find_first_set, bytes, bits));
    t.same("find_last_clear", bits, bf.find_last_clear(), found(bf_find_last_clear, bytes, bits));
}

/// One bit written: clean bytes become the Rust's, and of dirty ones only that bit changes.
fn one_bit(t: &mut Tally, bf: &Bitfield, dirty: &[u8], bits: usize, i: usize) {
    let mut set = bf.clone();
    set.set_bit(i);
    let mut clear = bf.clone();
    clear.clear_bit(i);
    let mask = if i < bits { 0x80u8 >> (i % 8) } else { 0 };
    let at = if i < bits { i / 8 } else { 0 };
    unsafe {
        let mut b = over(bf.bytes(), dirty);
        bf_set_bit(b.as_mut_ptr(), b.len(), bits, i);
        t.same("set_bit", bits, over(set.bytes(), dirty), b);
        let mut b = over(bf.bytes(), dirty);
        bf_clear_bit(b.as_mut_ptr(), b.len(), bits, i);
        t.same("clear_bit", bits, over(clear.bytes(), dirty), b);
        let (mut b, mut want) = (dirty.to_vec(), dirty.to_vec());
        if !want.is_empty() {
            want[at] |= mask;
        }
        bf_set_bit(b.as_mut_ptr(), b.len(), bits, i);
        t.same("set_bit, dirty", bits, want.clone(), b.clone());
        if !want.is_empty() {
            want[at] &= !mask;
        }
        bf_clear_bit(b.as_mut_ptr(), b.len(), bits, i);
        t.same("clear_bit, dirty", bits, want, b);
    }
}

/// Functions that fill a buffer, which may be longer than needed; and the refusals where it, or the data, is too short.
fn filling(t: &mut Tally, bf: &Bitfield, data: &[u8], bits: usize, junk: &[u8]) {
    unsafe {
        for val in [false, true] {
            let mut b = junk.to_vec();
            let answer = bf_with_value(b.as_mut_ptr(), b.len(), bits, val);
            t.same("with_value", bits, (0, over(Bitfield::with_value(bits, val).bytes(), junk)), (answer, b));
        }
        let mut b = junk.to_vec();
        let answer = bf_with_size(b.as_mut_ptr(), b.len(), bits);
        t.same("with_size", bits, (0, over(Bitfield::with_size(bits).bytes(), junk)), (answer, b));
        let mut b = junk.to_vec();
        let answer = bf_from_bytes(b.as_mut_ptr(), b.len(), data.as_ptr(), data.len(), bits);
        t.same("from_bytes", bits, (0, over(bf.bytes(), junk)), (answer, b));
        let mut assigned = Bitfield::with_value(3, true);
        t.same("assign, Rust", bits, true, assigned.assign(data, bits));
        let mut b = junk.to_vec();
        let answer = bf_assign(b.as_mut_ptr(), b.len(), data.as_ptr(), data.len(), bits);
        t.same("assign", bits, (0, over(assigned.bytes(), junk)), (answer, b));
        let mut all = bf.clone();
        all.set_all();
        let mut b = junk.to_vec();
        bf_set_all(b.as_mut_ptr(), b.len(), bits);
        t.same("set_all", bits, over(all.bytes(), junk), b);
        all.clear_all();
        let mut b = junk.to_vec();
        bf_clear_all(b.as_mut_ptr(), b.len(), bits);
        t.same("clear_all", bits, over(all.bytes(), junk), b);
        let need = bf.num_bytes();
        if need > 0 {
            refused(t, data, bits, &junk[..need - 1]);
        }
        let more = 8 * data.len() + 1;
        let mut b = vec![7; data.len() + 1];
        t.same("from_bytes, Rust, data short", more, None, Bitfield::from_bytes(data, more).map(|_| ()));
        let answer = bf_from_bytes(b.as_mut_ptr(), b.len(), data.as_ptr(), data.len(), more);
        t.same("from_bytes, data short", more, (1, vec![7; data.len() + 1]), (answer, b.clone()));
        let answer = bf_assign(b.as_mut_ptr(), b.len(), data.as_ptr(), data.len(), more);
        t.same("assign, data short", more, (1, vec![7; data.len() + 1]), (answer, b));
    }
}

/// A buffer that is too short is refused and left as it was; set_all and clear_all fill what there is.
fn refused(t: &mut Tally, data: &[u8], bits: usize, short: &[u8]) {
    unsafe {
        let mut b = short.to_vec();
        let (p, n) = (b.as_mut_ptr(), b.len());
        let answers = [
            bf_with_size(p, n, bits),
            bf_with_value(p, n, bits, true),
            bf_from_bytes(p, n, data.as_ptr(), data.len(), bits),
            bf_assign(p, n, data.as_ptr(), data.len(), bits),
            bf_resize(p, n, 3, bits),
            bf_resize_with(p, n, 3, bits, true),
        ];
        t.same("too short", bits, ([2; 6], short.to_vec()), (answers, b));
        let mut b = short.to_vec();
        bf_set_all(b.as_mut_ptr(), b.len(), bits);
        t.same("set_all, short", bits, vec![0xff; short.len()], b.clone());
        bf_set_bit(b.as_mut_ptr(), b.len(), bits, 8 * short.len());
        bf_clear_bit(b.as_mut_ptr(), b.len(), bits, 8 * short.len());
        t.same("set_bit, short", bits, vec![0xff; short.len()], b.clone());
        bf_clear_all(b.as_mut_ptr(), b.len(), bits);
        t.same("clear_all, short", bits, vec![0; short.len()], b);
    }
}

/// From `bits` bits, dirty behind them, to `to`.
fn resizing(t: &mut Tally, bf: &Bitfield, dirty: &[u8], bits: usize, to: usize, r: &mut Random) {
    let mut old = dirty.to_vec();
    while old.len() < to.div_ceil(8) {
        old.push(r.next() as u8);
    }
    for val in [false, true] {
        let mut want = bf.clone();
        want.resize_with(to, val);
        let mut b = old.clone();
        let answer = unsafe { bf_resize_with(b.as_mut_ptr(), b.len(), bits, to, val) };
        t.same("resize_with", bits, (0, over(want.bytes(), &old)), (answer, b));
    }
    let mut want = bf.clone();
    want.resize(to);
    let mut b = old.clone();
    let answer = unsafe { bf_resize(b.as_mut_ptr(), b.len(), bits, to) };
    t.same("resize", bits, (0, over(want.bytes(), &old)), (answer, b));
}

/// Everything on one content. `data` has the bytes that the bits need, dirty behind the last bit.
fn case(t: &mut Tally, r: &mut Random, data: &[u8], bits: usize, bit_places: &[usize], sizes: &[usize]) {
    let bf = Bitfield::from_bytes(data, bits).unwrap();
    let mut dirty = data.to_vec();
    for _ in 0..r.below(4) {
        dirty.push(r.next() as u8);
    }
    reading(t, &bf, &dirty, bits);
    let cut = r.below(data.len() + 1);
    let mut ends = data[..cut].to_vec();
    ends.resize(data.len(), 0);
    reading(t, &Bitfield::from_bytes(&ends, bits).unwrap(), &data[..cut], bits);
    for &i in bit_places {
        one_bit(t, &bf, &dirty, bits, i);
    }
    let junk = r.bytes(dirty.len());
    filling(t, &bf, data, bits, &junk);
    for &to in sizes {
        resizing(t, &bf, &dirty, bits, to, r);
    }
}

/// Numbers of bits that no bitfield in memory has.
fn numbers(t: &mut Tally, bits: usize) {
    unsafe {
        t.same("num_words", bits, bits.div_ceil(32), bf_num_words(bits));
        t.same("num_bytes", bits, bits.div_ceil(8), bf_num_bytes(bits));
        t.same("size", bits, bits, bf_size(bits));
        t.same("is_empty", bits, bits == 0, bf_is_empty(bits));
    }
}

fn main() {
    let (mut t, mut r) = (Tally(0), Random(0x9e37_79b9_7f4a_7c15));
    let all: Vec<usize> = (0..=70).collect();
    for bits in 0..=70usize {
        let n = bits.div_ceil(8);
        let places: Vec<usize> = (0..bits + 10).collect();
        let mut contents = vec![vec![0; n], vec![0xff; n], vec![0x55; n], vec![0xaa; n]];
        contents.extend((0..200).map(|_| r.bytes(n)));
        for data in contents {
            case(&mut t, &mut r, &data, bits, &places, &all);
        }
        let bf = Bitfield::with_size(bits);
        t.same("num_words", bits, bf.num_words(), unsafe { bf_num_words(bits) });
        t.same("is_empty", bits, bf.is_empty(), unsafe { bf_is_empty(bits) });
        t.same("size", bits, bf.size(), unsafe { bf_size(bits) });
        t.same("num_bytes", bits, bf.num_bytes(), unsafe { bf_num_bytes(bits) });
        numbers(&mut t, usize::MAX - bits);
    }
    for _ in 0..400 {
        let bits = 71 + r.below(4930);
        let data = r.bytes(bits.div_ceil(8));
        let places: Vec<usize> = (0..20).map(|_| r.below(bits + 10)).collect();
        let sizes: Vec<usize> = (0..10).map(|_| r.below(5001)).collect();
        case(&mut t, &mut r, &data, bits, &places, &sizes);
    }
    if t.0 < LEAST {
        eprintln!("bitfield: {} comparisons, fewer than {LEAST}", t.0);
        std::process::exit(2);
    }
    println!("{} comparisons, no difference", t.0);
}
