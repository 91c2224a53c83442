//! The ledger: fresh, in range, and a port's tile.

use crate::flat::{FlatLedger, FlatTile};

use super::image::*;

pub const LAST_TIME: u64 = (1 << 48) - 1;
pub const CREDIT_A_BYTE: u64 = 8_000_000;

/// SMAX 57:42 of 06.
#[inline(always)]
pub fn most_credit(high_word: u32) -> u64 {
    u64::from(high_word >> 10 & 0xFFFF) * CREDIT_A_BYTE
}

/// Refusals 31, 30, beside which the ledger is one that 39 refuses; 0 where it is fresh.
#[inline(never)]
pub fn fresh_ledger(image: &[u32], ledger: &mut FlatLedger) -> u32 {
    *ledger = FlatLedger::all(0);
    ledger.last = LAST_TIME + 1;
    let Some(image) = image_of(image) else {
        return 31;
    };
    if !is_loaded(image) {
        return 30;
    }
    ledger.last = 0;
    ledger.units = part_spc(image);
    for (credit, entry) in ledger.credit.iter_mut().zip(entries::<2>(image, POLICING)) {
        *credit = most_credit(entry[1]);
    }
    0
}

/// Refusal 39. The top bit of `(most - value) | value` says "above", where `most` is below 2^63.
#[inline(always)]
pub fn out_of_range(image: &Image, ledger: &FlatLedger) -> bool {
    let mut above = 0;
    for (units, most) in ledger.units.iter().zip(part_spc(image)) {
        above |= most.wrapping_sub(*units) | units;
    }
    let policing: &[[u32; 2]; 45] = image[BASE[POLICING]..].as_chunks().0.first_chunk().unwrap();
    let loaded = count(image, POLICING).min(45);
    let (credits, credits_behind) = ledger.credit.split_at(loaded);
    let (sinces, sinces_behind) = ledger.since.split_at(loaded);
    for ((entry, credit), since) in policing.iter().zip(credits).zip(sinces) {
        above |= most_credit(entry[1]).wrapping_sub(*credit) | credit;
        above |= ledger.last.wrapping_sub(*since) | since;
    }
    for (credit, since) in credits_behind.iter().zip(sinces_behind) {
        above |= 0u64.wrapping_sub(*credit) | credit;
        above |= ledger.last.wrapping_sub(*since) | since;
    }
    let mut bad = above >> 63 != 0 || ledger.last > LAST_TIME;
    for port in 0..5 {
        let (frames, drops) = (ledger.frames[port], ledger.drops[port]);
        let (octets, dropped) = (ledger.octets[port], ledger.dropped[port]);
        bad |=
            (drops > frames) | (dropped > octets) | unfit(octets, frames) | unfit(dropped, drops);
    }
    bad
}

/// Not from 4 x frames to 4,100 x frames.
#[inline(always)]
fn unfit(octets: u64, frames: u64) -> bool {
    (frames > octets / 4) | (octets > frames.saturating_mul(4_100))
}

#[inline(never)]
pub fn tile(image: &[u32], ledger: &FlatLedger, port: usize) -> FlatTile {
    let shown = |kind, number| FlatTile { kind, number, share: 0, octets: 0 };
    let Some(image) = image_of(image) else {
        return shown(0, 31);
    };
    if port > 4 {
        return shown(0, 33);
    }
    if !is_loaded(image) {
        return shown(1, 0);
    }
    if out_of_range(image, ledger) {
        return shown(0, 39);
    }
    if ledger.frames[port] == 0 {
        return shown(2, 0);
    }
    FlatTile {
        kind: 3,
        number: 0,
        share: (ledger.drops[port] as f64 / ledger.frames[port] as f64).to_bits(),
        octets: (ledger.dropped[port] as f64 / ledger.octets[port] as f64).to_bits(),
    }
}
