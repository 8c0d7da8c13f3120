//! Three lent buffers that the exported calls work on, with what they held before: after a call they are compared with what is due. The
//! buffers are longer than they have to be, and what lies beyond is watched.

#[path = "image_of.rs"]
mod image_of;

use self::image_of::image_of;
use crate::exports::Buffers;
use crate::lent_call::{make, Made, Output};
use crate::picker::Shape;
use crate::records::DownloadingPiece;
use crate::rng::Rng;
use oracle::geometry::Geometry;
use oracle::script::Call;

const DIRTY: usize = 5;
const LIVE: usize = 7;

/// One compared value made wrong, to see that the comparison finds it.
#[derive(Clone, Copy, PartialEq)]
pub enum Spoilt {
    Nothing,
    Refusal,
    Place,
    Answer,
    Word,
    Cell,
    Record,
    Beyond,
    Behind,
    /// The picker that a change leaves.
    Image,
    /// A word of the second picker of two.
    Second,
    Needs,
}

impl Spoilt {
    pub fn named(name: &str) -> Spoilt {
        match name {
            "none" => Spoilt::Nothing,
            "refusal" => Spoilt::Refusal,
            "place" => Spoilt::Place,
            "answer" => Spoilt::Answer,
            "word" => Spoilt::Word,
            "cell" => Spoilt::Cell,
            "record" => Spoilt::Record,
            "beyond" => Spoilt::Beyond,
            "behind" => Spoilt::Behind,
            "image" => Spoilt::Image,
            "second" => Spoilt::Second,
            "needs" => Spoilt::Needs,
            _ => panic!("no such value: {name}"),
        }
    }
}

/// What a call has to answer, and the image that it has to leave; none where nothing may move.
pub struct Due<'a> {
    pub line: &'a str,
    pub image: Option<&'a [u8]>,
}

#[derive(Clone, Default)]
pub struct Lent {
    pub words: Vec<u64>,
    pub cells: Vec<u16>,
    pub partials: Vec<DownloadingPiece>,
    before: (Vec<u64>, Vec<u16>, Vec<DownloadingPiece>),
}

impl Lent {
    pub fn new(words: Vec<u64>, cells: Vec<u16>, partials: Vec<DownloadingPiece>) -> Lent {
        let before = (words.clone(), cells.clone(), partials.clone());
        Lent { words, cells, partials, before }
    }

    /// Buffers that hold anything, each somewhat longer than it has to be.
    pub fn anything(rng: &mut Rng, needs: [usize; 3]) -> Lent {
        let [words, cells, partials] = needs.map(|need| need + rng.place(5));
        let record = |rng: &mut Rng| {
            let [index, info_idx, flags] = [(); 3].map(|()| anything(rng) as u32);
            DownloadingPiece { index, info_idx, flags }
        };
        Lent::new(
            (0..words).map(|_| anything(rng)).collect(),
            (0..cells).map(|_| anything(rng) as u16).collect(),
            (0..partials).map(|_| record(rng)).collect(),
        )
    }

    pub fn shape(&self) -> Shape {
        Shape::of(&self.words)
    }

    pub fn live(&self) -> usize {
        self.words[LIVE] as usize
    }

    pub fn is_dirty(&self) -> bool {
        self.words[DIRTY] == 1
    }

    pub fn lengths(&self) -> [usize; 3] {
        [self.words.len(), self.cells.len(), self.partials.len()]
    }

    pub fn image(&self) -> Vec<u8> {
        image_of(&self.words, &self.cells, &self.partials)
    }

    /// Makes a call on the first so many of each, and compares.
    pub fn call(&mut self, rng: &mut Rng, call: &Call, lengths: [usize; 3], output: &mut Output, due: &Due,
        spoilt: Spoilt) -> Result<Made, String> {
        let [words, cells, partials] = lengths;
        let mut buffers =
            Buffers { words: &mut self.words[..words], cells: &mut self.cells[..cells], partials: &mut self.partials[..partials] };
        let mut made = make(&mut buffers, call, output, rng);
        self.spoil(&mut made, output, due, spoilt);
        let line = made.line();
        if line != due.line {
            return Err(format!("{} where {} is due", short(&line), short(due.line)));
        }
        if !output.kept(&made) {
            return Err("output beside the answer moved".into());
        }
        match due.image {
            None if !self.unmoved() => Err("a buffer moved".into()),
            None => Ok(made),
            Some(image) => self.compare(image).map(|()| made),
        }
    }

    /// The image that stands there now, and what lies beyond the needs.
    fn compare(&mut self, due: &[u8]) -> Result<(), String> {
        if !self.beyond_unmoved() {
            return Err("something beyond the needs moved".into());
        }
        let found = self.image();
        if due != found {
            let at = due.iter().zip(&found).take_while(|(x, y)| x == y).count();
            return Err(format!("images of {} bytes and, from the lent memory, {} part at byte {at}", due.len(), found.len()));
        }
        Ok(())
    }

    fn unmoved(&self) -> bool {
        (&self.words, &self.cells, &self.partials) == (&self.before.0, &self.before.1, &self.before.2)
    }

    /// Whether what the picker that stands there does not need is as it was.
    fn beyond_unmoved(&self) -> bool {
        let s = self.shape();
        let [words, cells, partials] = s.needs();
        let before = (self.before.0.get(words..), self.before.1.get(cells..), self.before.2.get(partials..));
        before == (self.words.get(words..), self.cells.get(cells..), self.partials.get(partials..))
    }

    /// What stands there now is what stood there before the next call.
    pub fn keep(&mut self) {
        self.before.0.clone_from(&self.words);
        self.before.1.clone_from(&self.cells);
        self.before.2.clone_from(&self.partials);
    }

    /// Everything as it was before the call.
    pub fn take_back(&mut self) {
        self.words.clone_from(&self.before.0);
        self.cells.clone_from(&self.before.1);
        self.partials.clone_from(&self.before.2);
    }

    fn spoil(&mut self, made: &mut Made, output: &mut Output, due: &Due, spoilt: Spoilt) {
        match spoilt {
            Spoilt::Refusal if made.refusal != 0 => made.refusal = made.refusal % 13 + 1,
            Spoilt::Place if made.refusal == 13 => made.place += 1,
            Spoilt::Answer if made.refusal == 0 => made.answer.push('1'),
            Spoilt::Word if self.words.len() > 3 => self.words[3] ^= 1,
            Spoilt::Image if due.image.is_some() => self.words[3] ^= 1,
            Spoilt::Cell if !self.cells.is_empty() => self.cells[0] ^= 1,
            Spoilt::Record if !self.partials.is_empty() && due.image.is_none() => self.partials[0].flags ^= 1,
            Spoilt::Beyond if due.image.is_some() => {
                let needs = self.shape().needs();
                self.words[needs[0]..].iter_mut().for_each(|word| *word ^= 1);
            }
            Spoilt::Behind => output.spoil(made),
            _ => {}
        }
    }
}

/// What a picker of this geometry needs.
pub fn needs_of(geometry: &Geometry) -> [usize; 3] {
    [geometry.words_need(), geometry.cells_need(), geometry.partials_need()].map(|need| need as usize)
}

/// As much of a line as a message shows.
fn short(line: &str) -> &str {
    &line[..line.len().min(300)]
}

/// A number that means nothing; small ones, which could pass for something, more often than others.
fn anything(rng: &mut Rng) -> u64 {
    let drawn = rng.next();
    match drawn % 16 {
        0..=9 => (drawn >> 8) % 5,
        10 => 1000,
        11 | 12 => u64::MAX,
        _ => drawn,
    }
}
