//! The crate that the piece picker knows as `bitdaemon_common`: the unchanged bitfield.rs and types.rs, and a `random` that takes its
//! words from a lent row.

#![allow(dead_code)]

mod bitfield;
pub mod random;
mod types;

pub use bitfield::Bitfield;
pub use types::{DownloadPriority, PieceBlock, PieceIndex};
