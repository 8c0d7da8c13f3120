//! Leads one picker through the calls of a script.

use std::io::{self, Write};

use bitdaemon_common::random;

use crate::outcome::{write_answer, write_image, write_image_same, write_refused, Answer, Refused};
use crate::piece_picker::PiecePicker;
use crate::script::{Call, Change, Lent, Pick, What};
use crate::{changes, image, judge, pick, questions};

/// The lent memory: the picker that stands in it, and its image.
#[derive(Default)]
pub struct Memory {
    picker: Option<PiecePicker>,
    image: Option<Vec<u8>>,
}

/// What a call that was not refused gives.
struct Given {
    answer: Answer,
    draws: Option<u64>,
    differences: Vec<&'static str>,
    image: Image,
}

/// The picker's image after a call.
enum Image {
    Same,
    /// The one given, or none where no picker stands; it may be the same.
    Now(Option<Vec<u8>>),
}

impl Given {
    fn without_draws(answer: Answer, image: Image) -> Self {
        Self { answer, draws: None, differences: Vec::new(), image }
    }
}

impl Memory {
    /// Makes a call and writes its outcome.
    pub fn call(&mut self, call: &Call, out: &mut impl Write) -> io::Result<()> {
        match self.give(call) {
            Err(refused) => {
                write_refused(out, &refused)?;
                write_image_same(out)
            }
            Ok(given) => {
                given.differences.iter().try_for_each(|name| writeln!(out, "difference {name}"))?;
                write_answer(out, &given.answer, given.draws)?;
                self.write_image(out, given.image)
            }
        }
    }

    fn write_image(&mut self, out: &mut impl Write, image: Image) -> io::Result<()> {
        match image {
            Image::Now(image) if image != self.image => {
                self.image = image;
                write_image(out, self.image.as_deref())
            }
            _ => write_image_same(out),
        }
    }

    fn give(&mut self, call: &Call) -> Result<Given, Refused> {
        match &call.what {
            What::Zero => Ok(self.zero()),
            What::New { total, piece_size } => self.new_picker(*total, *piece_size, &call.lent),
            What::Read(bytes) => self.read(bytes, &call.lent),
            What::Image => self.take_image(&call.lent),
            What::Change(change) => self.change(change, &call.lent, call.what.may_draw()),
            What::Pick(pick) => self.pick(pick, &call.lent),
            What::Question(question, first, second) => {
                let picker = judge::standing(self.picker.as_ref(), &call.lent)?;
                judge::question(picker, question, *first, *second, &call.lent)?;
                let reply = questions::reply(picker, question, *first, *second);
                Ok(Given::without_draws(reply.into(), Image::Same))
            }
        }
    }

    fn zero(&mut self) -> Given {
        self.picker = None;
        Given::without_draws(Answer::Done, Image::Now(None))
    }

    fn new_picker(&mut self, total: i64, piece_size: i64, lent: &Lent) -> Result<Given, Refused> {
        judge::new(total, piece_size, lent)?;
        let picker = self.picker.insert(PiecePicker::new(total, piece_size as i32));
        Ok(Given::without_draws(Answer::Done, checked_image(picker)))
    }

    fn read(&mut self, bytes: &[u8], lent: &Lent) -> Result<Given, Refused> {
        let fields = image::read(bytes).map_err(Refused::Image)?;
        judge::memory(&fields.head.geometry, lent)?;
        let picker = self.picker.insert(PiecePicker::from_fields(&fields));
        picker.check();
        assert!(picker.image() == bytes, "the picker read from an image has another image");
        Ok(Given::without_draws(Answer::Done, Image::Now(Some(bytes.to_vec()))))
    }

    fn take_image(&mut self, lent: &Lent) -> Result<Given, Refused> {
        let picker = judge::standing(self.picker.as_ref(), lent)?;
        let image = picker.image();
        judge::room(image.len() as u64, lent)?;
        Ok(Given::without_draws(Answer::Bytes(image), Image::Same))
    }

    fn change(&mut self, change: &Change, lent: &Lent, may_draw: bool) -> Result<Given, Refused> {
        let picker = judge::standing(self.picker.as_ref(), lent)?;
        if may_draw {
            judge::draws(lent)?;
        }
        judge::change(picker, change)?;
        let picker = self.picker.as_mut().expect("a picker stands");
        let mut differences = Vec::new();
        random::lend(&lent.draws);
        let answer = changes::carry_out(picker, change, &mut differences);
        let used = random::used();
        assert!(may_draw || used == 0, "a call that may not draw drew");
        let image = checked_image(picker);
        Ok(Given { answer, draws: may_draw.then_some(used), differences, image })
    }

    fn pick(&mut self, pick: &Pick, lent: &Lent) -> Result<Given, Refused> {
        let picker = judge::standing(self.picker.as_ref(), lent)?;
        judge::draws(lent)?;
        judge::pick(picker, pick, lent)?;
        let picker = self.picker.as_mut().expect("a picker stands");
        let mut differences = Vec::new();
        let picked = pick::carry_out(picker, pick, lent, &mut differences);
        let draws = Some(picked.draws);
        let image = checked_image(picker);
        Ok(Given { answer: Answer::Picked(picked), draws, differences, image })
    }
}

/// The picker's image, which the reader has to accept.
fn checked_image(picker: &PiecePicker) -> Image {
    let bytes = picker.image();
    if let Err(place) = image::read(&bytes) {
        panic!("the picker's own image has a fault at {place}");
    }
    Image::Now(Some(bytes))
}
