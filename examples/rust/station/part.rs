//! The picker as the station holds it: with its draws, and with a count of the calls.

use piece_picker::{Draws, PiecePicker, Refusal};
use std::fmt;

/// What a check of the station found.
#[derive(Debug)]
pub struct Fault(pub String);

impl fmt::Display for Fault {
    fn fmt(&self, f: &mut fmt::Formatter<'_>) -> fmt::Result {
        f.write_str(&self.0)
    }
}

/// No call of the station should be refused.
impl From<Refusal> for Fault {
    fn from(refusal: Refusal) -> Self {
        Fault(refusal.to_string())
    }
}

/// A fault where what should hold does not.
pub fn check(holds: bool, fault: impl FnOnce() -> String) -> Result<(), Fault> {
    if holds {
        Ok(())
    } else {
        Err(Fault(fault()))
    }
}

pub struct Part {
    pub picker: PiecePicker,
    pub draws: Draws,
    pub calls: u64,
}

impl Part {
    pub fn change<T>(&mut self, call: impl FnOnce(&mut PiecePicker, &mut Draws) -> Result<T, Refusal>) -> Result<T, Fault> {
        self.calls += 1;
        Ok(call(&mut self.picker, &mut self.draws)?)
    }

    pub fn ask<T>(&mut self, question: impl FnOnce(&PiecePicker) -> Result<T, Refusal>) -> Result<T, Fault> {
        self.calls += 1;
        Ok(question(&self.picker)?)
    }
}
