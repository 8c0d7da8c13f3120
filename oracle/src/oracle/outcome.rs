//! The lines of an outcome, as docs/CALLS.md describes them.

use std::io::{self, Write};

use crate::judge::Refusal;
use crate::pick::Picked;
use crate::questions::Reply;

pub enum Answer {
    Done,
    Numbers(Vec<i128>),
    Nothing,
    Stale,
    Bytes(Vec<u8>),
    Picked(Picked),
}

impl From<Reply> for Answer {
    fn from(reply: Reply) -> Self {
        match reply {
            Reply::Numbers(numbers) => Self::Numbers(numbers),
            Reply::Nothing => Self::Nothing,
            Reply::Stale => Self::Stale,
        }
    }
}

/// Why a call was refused.
pub enum Refused {
    ByTable(Refusal),
    /// 13, with the place of fault.
    Image(usize),
}

impl From<Refusal> for Refused {
    fn from(refusal: Refusal) -> Self {
        Self::ByTable(refusal)
    }
}

pub fn write_refused(out: &mut impl Write, refused: &Refused) -> io::Result<()> {
    match refused {
        Refused::ByTable(refusal) => writeln!(out, "refused {refusal}"),
        Refused::Image(place) => writeln!(out, "refused 13 {place}"),
    }
}

/// The answer's line; `draws` for a call that may draw.
pub fn write_answer(out: &mut impl Write, answer: &Answer, draws: Option<u64>) -> io::Result<()> {
    match answer {
        Answer::Done => out.write_all(b"done")?,
        Answer::Nothing => out.write_all(b"nothing")?,
        Answer::Stale => out.write_all(b"stale")?,
        Answer::Numbers(numbers) => {
            out.write_all(b"answer")?;
            numbers.iter().try_for_each(|number| write!(out, " {number}"))?;
        }
        Answer::Bytes(bytes) => {
            out.write_all(b"bytes ")?;
            write_hex(out, bytes)?;
        }
        Answer::Picked(picked) => write_picked(out, picked)?,
    }
    if let Some(draws) = draws {
        write!(out, " draws {draws}")?;
    }
    out.write_all(b"\n")
}

fn write_picked(out: &mut impl Write, picked: &Picked) -> io::Result<()> {
    write!(out, "picked {} loops", picked.flags)?;
    picked.loops().iter().try_for_each(|count| write!(out, " {count}"))?;
    out.write_all(b" blocks")?;
    picked.blocks.iter().try_for_each(|block| write!(out, " {}.{}", block.piece_index, block.block_index))
}

/// The image's line where it is that of the call before.
pub fn write_image_same(out: &mut impl Write) -> io::Result<()> {
    out.write_all(b"image same\n")
}

/// The image's line; None where no picker stands.
pub fn write_image(out: &mut impl Write, image: Option<&[u8]>) -> io::Result<()> {
    match image {
        None => out.write_all(b"image none\n"),
        Some(bytes) => {
            out.write_all(b"image ")?;
            write_hex(out, bytes)?;
            out.write_all(b"\n")
        }
    }
}

fn write_hex(out: &mut impl Write, bytes: &[u8]) -> io::Result<()> {
    const DIGITS: &[u8; 16] = b"0123456789abcdef";
    let pairs: Vec<u8> = bytes.iter().flat_map(|byte| [DIGITS[usize::from(byte >> 4)], DIGITS[usize::from(byte & 15)]]).collect();
    out.write_all(&pairs)
}
