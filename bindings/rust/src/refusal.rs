//! Why a call was refused: the thirteen rows of the table of refusals. A refused call leaves everything as it was.

use std::error::Error;
use std::fmt;

/// A row of the table; checks run in its order, except that reading bytes is judged for 13 before 2.
#[derive(Clone, Copy, Debug, PartialEq, Eq, Hash)]
pub enum Refusal {
    /// 1: total under 1, piece size outside 1 to 4,194,304, or over 4,096 pieces.
    Geometry,
    /// 2: lent memory shorter than the geometry or the image needs.
    ShortMemory,
    /// 3: lent memory isn't a well-formed picker.
    IllFormedMemory,
    /// 4: fewer than 4,352 draws lent to a call that may draw.
    FewDraws,
    /// 5: piece, block, list place or priority out of range.
    OutOfRange,
    /// 6: a piece's count plus seeds would pass 1,000, or a block's requesters would.
    TooManyPeers,
    /// 7: a peer or seed is taken away where the seeds and a piece's count that it would lower are 0.
    NoPeerToTake,
    /// 8: a had piece is marked downloading.
    HavePiece,
    /// 9: a Requested block is finished without Writing.
    NotWriting,
    /// 10: a 513th partial would be opened.
    TooManyPartials,
    /// 11: an argument of a pick is out of range or contradicts another; the text lists the cases.
    PickArguments,
    /// 12: fewer than N + P + 255 free output places, for N blocks wanted and a run P.
    ShortOutput,
    /// 13: bytes aren't a well-formed image; the place of the first record at fault, counted in bytes from 0.
    IllFormedImage {
        /// Where that record starts.
        place: u64,
    },
}

impl Refusal {
    /// The number of the row, 1 to 13.
    #[must_use]
    pub fn number(self) -> u32 {
        match self {
            Self::Geometry => 1,
            Self::ShortMemory => 2,
            Self::IllFormedMemory => 3,
            Self::FewDraws => 4,
            Self::OutOfRange => 5,
            Self::TooManyPeers => 6,
            Self::NoPeerToTake => 7,
            Self::HavePiece => 8,
            Self::NotWriting => 9,
            Self::TooManyPartials => 10,
            Self::PickArguments => 11,
            Self::ShortOutput => 12,
            Self::IllFormedImage { .. } => 13,
        }
    }

    /// What the row says.
    fn reason(self) -> &'static str {
        match self {
            Self::Geometry => "total under 1, piece size outside 1 to 4,194,304, or over 4,096 pieces",
            Self::ShortMemory => "lent memory shorter than the geometry or the image needs",
            Self::IllFormedMemory => "lent memory isn't a well-formed picker",
            Self::FewDraws => "fewer than 4,352 draws lent to a call that may draw",
            Self::OutOfRange => "piece, block, list place or priority out of range",
            Self::TooManyPeers => "a piece's count plus seeds would pass 1,000, or a block's requesters would",
            Self::NoPeerToTake => "a peer or seed is taken away where the seeds and a piece's count that it would lower are 0",
            Self::HavePiece => "a had piece is marked downloading",
            Self::NotWriting => "a Requested block is finished without Writing",
            Self::TooManyPartials => "a 513th partial would be opened",
            Self::PickArguments => {
                "pick: blocks wanted N outside 1 to 2,048, run P outside 0 to 2,048, peers outside 0 to 1,000, over 256 suggestions, \
                 RAREST_FIRST with SEQUENTIAL, or a bitfield whose bits differ from the piece count or whose bytes differ from \
                 bits / 8 rounded up"
            }
            Self::ShortOutput => "pick: fewer than N + P + 255 free output places, for N blocks wanted and a run P",
            Self::IllFormedImage { .. } => "bytes aren't a well-formed image; the record at fault starts at byte",
        }
    }

    /// The refusal of an answer, where it has one. The exports answer 0 to 13, and no other number.
    pub(crate) fn check(number: u32, place: u64) -> Result<(), Self> {
        Err(match number {
            0 => return Ok(()),
            1 => Self::Geometry,
            2 => Self::ShortMemory,
            3 => Self::IllFormedMemory,
            4 => Self::FewDraws,
            5 => Self::OutOfRange,
            6 => Self::TooManyPeers,
            7 => Self::NoPeerToTake,
            8 => Self::HavePiece,
            9 => Self::NotWriting,
            10 => Self::TooManyPartials,
            11 => Self::PickArguments,
            12 => Self::ShortOutput,
            _ => Self::IllFormedImage { place },
        })
    }
}

impl fmt::Display for Refusal {
    fn fmt(&self, f: &mut fmt::Formatter<'_>) -> fmt::Result {
        write!(f, "refused {}: {}", self.number(), self.reason())?;
        match self {
            Self::IllFormedImage { place } => write!(f, " {place}"),
            _ => Ok(()),
        }
    }
}

impl Error for Refusal {}
