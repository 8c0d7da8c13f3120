//! The unchanged piece picker with its judges, its images and the differences of docs/DIFFERENCES.md: what the oracle's program leads
//! through a script, and what a harness leads beside other code in one process.

pub mod changes;
pub mod geometry;
pub mod image;
pub mod judge;
pub mod outcome;
pub mod pick;
#[allow(dead_code)]
pub mod piece_picker;
pub mod questions;
pub mod run;
pub mod script;
