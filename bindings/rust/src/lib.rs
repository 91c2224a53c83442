//! Tailbow judges what a five-port SJA1105TEL switch does with a frame. This crate is a safe interface to its proved entries.
//!
//! It takes the static configuration that a bench sends to its switch, works out for each frame whether the switch would send it, where
//! and with which tag, and the same for the frame's replicas, and gives each port's share of dropped frames. It keeps nothing and zero
//! apart: a configuration that did not load is not judged, and a port with no frames shows no share.
//!
//! The entries are Rattle, proved against their promises, and linked as the archive `libtailbow_c.a`. `tools/archive` writes
//! it to the repository's `target/staticlib`; the variable `TAILBOW_STATICLIB` names another folder. What is proved ends at the
//! archive: this crate, which only turns numbers into enums, is tested.
//!
//! ```
//! use tailbow::{load_words, Answer, Ledger, Refusal, IMAGE_WORDS};
//!
//! let mut image = vec![0; IMAGE_WORDS];
//! // Word 0 and an end block: the framing is right, and no table has come. None is read as zeros.
//! let stream = [0x9E00_030E, 0, 0, 0x0951_EADC];
//! assert_eq!(load_words(&mut image, &stream), Answer::Refused(Refusal::EntryCounts));
//! // An image that isn't loaded is never judged.
//! assert_eq!(Ledger::fresh(&image), Err(Refusal::Image));
//! ```
#![no_std]

mod frames;
mod list;
mod load;
mod numbers;
pub mod raw;

pub use frames::{Counts, Judged, Ledger, Replicas, Sent, Tile, Verdict};
pub use list::{Record, Records};
pub use load::{load_bytes, load_words, Answer, Load};
pub use numbers::{DropCause, Refusal};

/// Words of an image; a shorter buffer is refused with 31.
pub const IMAGE_WORDS: usize = 11_520;

/// The most words of one write; a longer one is refused with 32.
pub const WRITE_WORDS: usize = 64;

/// The most bytes of a list; a longer one is refused with 54.
pub const LIST_BYTES: usize = 16_384;

/// Ports of the switch.
pub const PORTS: usize = 5;

/// The most replicas of one frame: the most entries of block 12.
pub const REPLICAS: usize = 32;
