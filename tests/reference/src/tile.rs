//! A port's tile: not-loaded, no-frames, or its two shares.
//! Document 01, "One frame, step by step", last paragraph.

use crate::image::{is_loaded, too_short};
use crate::ledger::{out_of_range, Ledger, PORTS};

#[derive(Clone, Copy, PartialEq, Debug)]
pub enum TileAnswer {
    Refused(u32),
    NotLoaded,
    NoFrames,
    Shares { frames: f64, octets: f64 },
}

/// 31, then 33, then not-loaded where 30 would be given, then 39. It changes nothing.
pub fn tile(image: &[u32], ledger: &Ledger, port: u32) -> TileAnswer {
    if too_short(image) {
        return TileAnswer::Refused(31);
    }
    if port as usize >= PORTS {
        return TileAnswer::Refused(33);
    }
    if !is_loaded(image) {
        return TileAnswer::NotLoaded;
    }
    if out_of_range(image, ledger) {
        return TileAnswer::Refused(39);
    }
    let counts = &ledger.ports[port as usize];
    if counts.frames == 0 {
        return TileAnswer::NoFrames;
    }
    TileAnswer::Shares {
        frames: share(counts.drops, counts.frames),
        octets: share(counts.dropped_octets, counts.octets),
    }
}

/// One division; with no drops it is +0.
fn share(part: u64, whole: u64) -> f64 {
    part as f64 / whole as f64
}
