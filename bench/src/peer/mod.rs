//! The peer: the same work by hand, in safe Rust without intrinsics and without allocation, as fast as we could make it.

mod crc;
mod image;
mod judge;
mod ledger;
mod load;
mod rules;
mod search;

use crate::flat::Program;

pub const PEER: Program = Program {
    load_words: load::load_words,
    load_bytes: load::load_bytes,
    write: load::write,
    fresh_ledger: ledger::fresh_ledger,
    judge: judge::judge,
    release: judge::release,
    tile: ledger::tile,
};
