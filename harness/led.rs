//! The unchanged Rust, by the oracle's own calls, and one or two pickers in lent memory, by the exports: led through the same calls and
//! compared after each. The second picker is read from an image of the first, in other buffers with other contents.

use crate::any_calls::Drawn;
use crate::lent::{Due, Lent, Spoilt};
use crate::lent_call::{plain, Output};
use crate::rng::Rng;
use oracle::run::Memory as Oracle;
use oracle::script::{Call, What};

pub struct Led {
    oracle: Oracle,
    pub pickers: Vec<Lent>,
    /// The Rust's image now.
    pub image: Vec<u8>,
}

/// What the Rust answered a call, and what was compared.
pub struct Outcome {
    pub line: String,
    pub differences: Vec<String>,
    /// Calls of exports.
    pub made: u64,
}

impl Outcome {
    /// The refusal's number, 0 for none.
    pub fn refusal(&self) -> u64 {
        let number = self.line.strip_prefix("refused ").and_then(|rest| rest.split(' ').next());
        number.map_or(0, |number| number.parse().expect("a refusal's number"))
    }
}

impl Led {
    /// Both sides from `new` or from an image, in buffers that hold anything.
    pub fn start(rng: &mut Rng, what: What, needs: [usize; 3], output: &mut Output) -> Result<Led, String> {
        let mut led = Led { oracle: Oracle::default(), pickers: vec![Lent::anything(rng, needs)], image: Vec::new() };
        led.call(rng, &Drawn { call: plain(what, 0), cut: None }, output, Spoilt::Nothing)?;
        Ok(led)
    }

    /// Makes a call on all sides.
    pub fn call(&mut self, rng: &mut Rng, drawn: &Drawn, output: &mut Output, spoilt: Spoilt) -> Result<Outcome, String> {
        let Drawn { call, cut } = drawn;
        let mut outcome = self.ask_oracle(call)?;
        let changing = matches!(call.what, What::New { .. } | What::Read(_) | What::Change(_) | What::Pick(_));
        let image = (changing && outcome.refusal() == 0).then_some(&self.image[..]);
        let due = Due { line: &outcome.line, image };
        for (k, lent) in self.pickers.iter_mut().enumerate() {
            let spoilt = match spoilt {
                Spoilt::Second if k == 1 => Spoilt::Word,
                other => other,
            };
            let mut lengths = lent.lengths();
            cut.iter().for_each(|(which, length)| lengths[*which] = *length);
            lent.call(rng, call, lengths, output, &due, spoilt).map_err(|why| format!("picker {k}: {why}"))?;
            if image.is_some() {
                lent.keep();
            }
        }
        outcome.made = self.pickers.len() as u64;
        Ok(outcome)
    }

    /// The Rust's outcome, as docs/CALLS.md writes it; keeps its image.
    fn ask_oracle(&mut self, call: &Call) -> Result<Outcome, String> {
        let mut out = Vec::new();
        self.oracle.call(call, &mut out).map_err(|why| why.to_string())?;
        let text = String::from_utf8(out).map_err(|why| why.to_string())?;
        let mut lines: Vec<&str> = text.lines().collect();
        let (image, line) = (lines.pop().unwrap_or(""), lines.pop().unwrap_or("").to_string());
        if let Some(hex) = image.strip_prefix("image ").filter(|rest| *rest != "same") {
            self.image = bytes(hex.as_bytes());
        }
        let differences = lines.iter().map(|line| line.to_string()).collect();
        Ok(Outcome { line, differences, made: 0 })
    }

    /// The picker's image taken, and read into other buffers with other contents: from now on both go on.
    pub fn save_and_read(&mut self, rng: &mut Rng, output: &mut Output) -> Result<(), String> {
        let image = self.image.clone();
        self.call(rng, &Drawn { call: plain(What::Image, image.len()), cut: None }, output, Spoilt::Nothing)?;
        let mut other = Lent::anything(rng, self.pickers[0].shape().needs());
        let lengths = other.lengths();
        let due = Due { line: "done", image: Some(&image) };
        other.call(rng, &plain(What::Read(image.clone()), 0), lengths, output, &due, Spoilt::Nothing)?;
        other.keep();
        self.pickers.truncate(1);
        self.pickers.push(other);
        Ok(())
    }

    /// An image from before, read on all sides.
    pub fn set_back(&mut self, rng: &mut Rng, image: &[u8], output: &mut Output) -> Result<(), String> {
        self.call(rng, &Drawn { call: plain(What::Read(image.to_vec()), 0), cut: None }, output, Spoilt::Nothing).map(|_| ())
    }
}

fn bytes(hex: &[u8]) -> Vec<u8> {
    let digit = |byte: u8| (byte as char).to_digit(16).expect("a hexadecimal digit") as u8;
    hex.chunks_exact(2).map(|pair| digit(pair[0]) << 4 | digit(pair[1])).collect()
}
