//! The piece picker of a BitTorrent client, as proved code in `libpiece_picker.a`, for Rust: [`PiecePicker`] owns the memory that the
//! calls work on and lends it to them.
//!
//! Every call ends, touches only what it was lent, and does its work or answers one of thirteen [`Refusal`]s with everything unchanged; no
//! argument makes it panic. Method names and arguments are those of the Rust that was carried over; random words come from the caller's
//! [`Draws`]. Sockets, hashing and files are the caller's.
//!
//! ```
//! use piece_picker::{Bitfield, Draws, PiecePicker, PickerOptions, Refusal};
//!
//! fn main() -> Result<(), Refusal> {
//!     let mut picker = PiecePicker::new(370_000, 65_536)?;
//!     let mut draws = Draws::seeded(1);
//!     picker.inc_refcount_all()?; // a seed, which is peer 7
//!     let has = Bitfield::with_value(6, true)?;
//!     let mut blocks = Vec::new();
//!     picker.pick_pieces(&has, &mut blocks, 4, 0, Some(7), PickerOptions::RAREST_FIRST, &[], 1, &mut draws)?;
//!     for block in blocks {
//!         picker.mark_as_downloading(block, Some(7), PickerOptions::RAREST_FIRST, &mut draws)?;
//!     }
//!     let saved: Vec<u8> = picker.image()?;
//!     assert!(PiecePicker::from_image(&saved)? == picker);
//!     Ok(())
//! }
//! ```

#![deny(missing_docs)]

mod answers;
mod bitfield;
mod block_questions;
mod changes;
mod draws;
mod lists;
mod pick;
mod picker;
mod piece_questions;
mod questions;
mod refusal;
pub mod sys;
mod types;

pub use answers::{BlockInfo, BlockState, DownloadQueue, DownloadingPiece, ListPlace, Picked, PickerCounters, PieceCount, PieceStats};
pub use bitfield::Bitfield;
pub use draws::Draws;
pub use pick::Pick;
pub use picker::PiecePicker;
pub use refusal::Refusal;
pub use types::{DownloadPriority, PickerFlags, PickerOptions, PieceBlock, PieceIndex};
