//! Reads a script of calls, as docs/CALLS.md describes it.

use std::collections::HashMap;
use std::rc::Rc;

use bitdaemon_common::random::{Made, Words};

use crate::questions::{Asked, Question, QUESTIONS};

/// Words lent for draws where a script says nothing; also the least that a call that may draw has to be lent.
pub const DRAWS: u64 = 4352;

/// Free output places where a script says nothing.
const FREE: u64 = 4351;

/// As much of a word as a message quotes.
const QUOTED: usize = 80;

pub struct Call {
    pub line: usize,
    pub what: What,
    pub lent: Lent,
}

pub enum What {
    Zero,
    New {
        total: i64,
        piece_size: i64,
    },
    Read(Vec<u8>),
    Image,
    Change(Change),
    Pick(Pick),
    /// A question, with its piece or place and its block (0 where it has none).
    Question(&'static Question, i64, i64),
}

#[derive(Debug)]
pub enum Change {
    IncRefcount { piece: i64 },
    DecRefcount { piece: i64 },
    IncRefcountAll,
    DecRefcountAll,
    SetPiecePriority { piece: i64, wish: i64 },
    MarkAsDownloading { piece: i64, block: i64, peer: Option<u64>, options: u16 },
    MarkAsWriting { piece: i64, block: i64, peer: Option<u64> },
    MarkAsFinished { piece: i64, block: i64, peer: Option<u64> },
    MarkAsCanceled { piece: i64, block: i64, peer: Option<u64> },
    AbortDownload { piece: i64, block: i64, peer: Option<u64> },
    LockPiece { piece: i64 },
    PiecePassed { piece: i64 },
}

pub struct Pick {
    pub options: u16,
    pub wanted: i64,
    pub run: i64,
    pub peers: i64,
    pub peer: Option<u64>,
    pub bits: i64,
    pub bytes: Vec<u8>,
    pub suggestions: Vec<i64>,
}

/// The lengths of the buffers that the picker stands in. None: as long as it needs.
#[derive(Default)]
pub struct Memory {
    pub words: Option<u64>,
    pub cells: Option<u64>,
    pub partials: Option<u64>,
}

/// What a call is lent. None: as much as it needs.
pub struct Lent {
    pub memory: Memory,
    pub room: Option<u64>,
    pub draws: Words,
    pub free: u64,
}

impl What {
    pub fn may_draw(&self) -> bool {
        match self {
            Self::Pick(_) => true,
            Self::Change(change) => !matches!(
                change,
                Change::IncRefcountAll | Change::DecRefcountAll | Change::LockPiece { .. } | Change::PiecePassed { .. }
            ),
            _ => false,
        }
    }

    fn takes_room(&self) -> bool {
        match self {
            Self::Image => true,
            Self::Question(question, ..) => question.room.is_some(),
            _ => false,
        }
    }
}

/// The calls of a script, or what is wrong with which line.
pub fn parse(script: &[u8]) -> Result<Vec<Call>, String> {
    let questions: HashMap<&str, &'static Question> = QUESTIONS.iter().map(|question| (question.name, question)).collect();
    let mut calls = Vec::new();
    let mut ended = false;
    let mut lines = 0;
    for (line, bytes) in (1..).zip(script.split(|byte| *byte == b'\n')) {
        lines = line;
        let fault = |what: String| format!("line {line}: {what}");
        let text = std::str::from_utf8(bytes).ok().filter(|text| text.is_ascii());
        let text = text.ok_or_else(|| fault("not ASCII".into()))?;
        if text.is_empty() || text.starts_with('#') {
            continue;
        }
        if ended {
            return Err(fault("stands after `end`".into()));
        }
        if text == "end" {
            ended = true;
            continue;
        }
        let (what, lent) = parse_call(text, &questions).map_err(fault)?;
        calls.push(Call { line, what, lent });
    }
    if ended {
        Ok(calls)
    } else {
        Err(format!("line {lines}: the script ends without `end`"))
    }
}

fn parse_call(text: &str, questions: &HashMap<&str, &'static Question>) -> Result<(What, Lent), String> {
    let mut words = text.split(' ');
    let name = words.next().unwrap_or("");
    let mut arguments = Arguments(&mut words);
    let what = match name {
        "zero" => What::Zero,
        "new" => What::New { total: arguments.number()?, piece_size: arguments.number()? },
        "read" => What::Read(hex(arguments.word()?)?),
        "image" => What::Image,
        "pick_pieces" => What::Pick(parse_pick(&mut arguments)?),
        _ => match (parse_change(name, &mut arguments)?, questions.get(name)) {
            (Some(change), _) => What::Change(change),
            (None, Some(question)) => parse_question(question, &mut arguments)?,
            (None, None) => return Err(format!("no such call: {}", quoted(name))),
        },
    };
    let lent = parse_options(words, &what)?;
    Ok((what, lent))
}

fn parse_change(name: &str, arguments: &mut Arguments) -> Result<Option<Change>, String> {
    Ok(Some(match name {
        "inc_refcount" => Change::IncRefcount { piece: arguments.number()? },
        "dec_refcount" => Change::DecRefcount { piece: arguments.number()? },
        "inc_refcount_all" => Change::IncRefcountAll,
        "dec_refcount_all" => Change::DecRefcountAll,
        "set_piece_priority" => Change::SetPiecePriority { piece: arguments.number()?, wish: arguments.number()? },
        "mark_as_downloading" => {
            let (piece, block, peer) = arguments.block_and_peer()?;
            Change::MarkAsDownloading { piece, block, peer, options: arguments.options()? }
        }
        "mark_as_writing" => {
            let (piece, block, peer) = arguments.block_and_peer()?;
            Change::MarkAsWriting { piece, block, peer }
        }
        "mark_as_finished" => {
            let (piece, block, peer) = arguments.block_and_peer()?;
            Change::MarkAsFinished { piece, block, peer }
        }
        "mark_as_canceled" => {
            let (piece, block, peer) = arguments.block_and_peer()?;
            Change::MarkAsCanceled { piece, block, peer }
        }
        "abort_download" => {
            let (piece, block, peer) = arguments.block_and_peer()?;
            Change::AbortDownload { piece, block, peer }
        }
        "lock_piece" => Change::LockPiece { piece: arguments.number()? },
        "piece_passed" => Change::PiecePassed { piece: arguments.number()? },
        _ => return Ok(None),
    }))
}

fn parse_pick(arguments: &mut Arguments) -> Result<Pick, String> {
    Ok(Pick {
        options: arguments.options()?,
        wanted: arguments.number()?,
        run: arguments.number()?,
        peers: arguments.number()?,
        peer: peer(arguments.word()?)?,
        bits: arguments.number()?,
        bytes: hex(arguments.word()?)?,
        suggestions: list(arguments.word()?)?,
    })
}

fn parse_question(question: &'static Question, arguments: &mut Arguments) -> Result<What, String> {
    let (first, second) = match question.asked {
        Asked::Picker(_) => (0, 0),
        Asked::Piece(_) | Asked::Place(_) | Asked::ListPlace => (arguments.number()?, 0),
        Asked::Block(_) => (arguments.number()?, arguments.number()?),
    };
    Ok(What::Question(question, first, second))
}

fn parse_options<'a>(words: impl Iterator<Item = &'a str>, what: &What) -> Result<Lent, String> {
    let (mut memory, mut room, mut draws, mut free) = (Memory::default(), None, None, None);
    for word in words {
        let (name, value) = word.split_once('=').ok_or_else(|| format!("not an option: {}", quoted(word)))?;
        let before = match name {
            "words" => memory.words.replace(length(value)?).is_some(),
            "cells" => memory.cells.replace(length(value)?).is_some(),
            "partials" => memory.partials.replace(length(value)?).is_some(),
            "draws" if what.may_draw() => draws.replace(parse_draws(value)?).is_some(),
            "room" if what.takes_room() => room.replace(length(value)?).is_some(),
            "free" if matches!(what, What::Pick(_)) => free.replace(length(value)?).is_some(),
            _ => return Err(format!("not an option of this call: {}", quoted(word))),
        };
        if before {
            return Err(format!("the option {name} comes twice"));
        }
    }
    let zeros = || Words { count: DRAWS, made: Made::Listed(Rc::new([])) };
    Ok(Lent { memory, room, draws: draws.unwrap_or_else(zeros), free: free.unwrap_or(FREE) })
}

fn parse_draws(text: &str) -> Result<Words, String> {
    if let Some((count, seed)) = text.split_once('~') {
        return Ok(Words { count: length(count)?, made: Made::Seeded(natural(seed, u64::MAX, "a seed")?) });
    }
    let (count, words) = text.split_once(':').map_or((text, None), |(count, words)| (count, Some(words)));
    let count = length(count)?;
    let word = |text| natural(text, u32::MAX.into(), "a word of 32 bits").map(|word| word as u32);
    let listed: Rc<[u32]> = match words {
        Some(words) => words.split(',').map(word).collect::<Result<_, String>>()?,
        None => Rc::new([]),
    };
    if listed.len() as u64 > count {
        return Err(format!("more than {count} words listed"));
    }
    Ok(Words { count, made: Made::Listed(listed) })
}

/// The words of a call's arguments, taken one after the other.
struct Arguments<'a, 'b>(&'b mut std::str::Split<'a, char>);

impl<'a> Arguments<'a, '_> {
    fn word(&mut self) -> Result<&'a str, String> {
        self.0.next().ok_or_else(|| "an argument is missing".into())
    }

    fn number(&mut self) -> Result<i64, String> {
        number(self.word()?)
    }

    fn options(&mut self) -> Result<u16, String> {
        natural(self.word()?, u16::MAX.into(), "options").map(|options| options as u16)
    }

    fn block_and_peer(&mut self) -> Result<(i64, i64, Option<u64>), String> {
        Ok((self.number()?, self.number()?, peer(self.word()?)?))
    }
}

/// A word of the script (ASCII) for a message, cut where it is long.
fn quoted(word: &str) -> String {
    format!("{:?}", &word[..word.len().min(QUOTED)])
}

/// Digits without a zero in front.
fn is_decimal(text: &str) -> bool {
    text == "0" || !text.is_empty() && !text.starts_with('0') && text.bytes().all(|byte| byte.is_ascii_digit())
}

fn number(text: &str) -> Result<i64, String> {
    let one_way = is_decimal(text) || text != "-0" && text.strip_prefix('-').is_some_and(is_decimal);
    text.parse().ok().filter(|_| one_way).ok_or_else(|| format!("not a number: {}", quoted(text)))
}

/// A number from 0 to `most`, without a sign.
fn natural(text: &str, most: u64, what: &str) -> Result<u64, String> {
    let number = text.parse().ok().filter(|number| is_decimal(text) && *number <= most);
    number.ok_or_else(|| format!("not {what}: {}", quoted(text)))
}

/// A lent length.
fn length(text: &str) -> Result<u64, String> {
    natural(text, i64::MAX as u64, "a length")
}

fn peer(text: &str) -> Result<Option<u64>, String> {
    match text {
        "-" => Ok(None),
        _ => natural(text, u64::MAX, "a peer").map(Some),
    }
}

fn list(text: &str) -> Result<Vec<i64>, String> {
    match text {
        "-" => Ok(Vec::new()),
        _ => text.split(',').map(number).collect(),
    }
}

fn hex(text: &str) -> Result<Vec<u8>, String> {
    let fault = || "not an even number of hexadecimal digits, nor `-`".to_string();
    if text == "-" {
        return Ok(Vec::new());
    }
    if text.is_empty() || text.len() % 2 != 0 {
        return Err(fault());
    }
    let digit = |byte: u8| (byte as char).to_digit(16).map(|digit| digit as u8);
    let byte = |pair: &[u8]| Some(digit(pair[0])? << 4 | digit(pair[1])?);
    text.as_bytes().chunks_exact(2).map(|pair| byte(pair).ok_or_else(fault)).collect()
}
