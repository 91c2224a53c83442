//! The ledger: units left, meters, the last time and each port's counts; fresh, and in range.
//! Document 01, "One frame, step by step": refusal 39 and the fresh ledger.

use crate::image::{count, is_loaded, too_short, value};
use crate::tables::{forwarding_parameters, policing, Table};

pub(crate) const PORTS: usize = 5;
pub(crate) const PARTITIONS: usize = 8;
pub const METERS: usize = 45;

/// The last time that is a time: 2^48 - 1 microseconds.
pub const LAST_TIME: u64 = (1 << 48) - 1;

/// Credit of one byte, in millionths of a bit.
pub(crate) const CREDIT_A_BYTE: u64 = 8_000_000;

/// A rate meter: credit in millionths of a bit, and when it was last brought up to date.
#[derive(Clone, Copy, PartialEq, Eq, Debug)]
pub struct Meter {
    pub credit: u64,
    pub time: u64,
}

/// What a port has seen: its frames and drops, and their sums of L.
#[derive(Clone, Copy, PartialEq, Eq, Debug)]
pub struct PortCounts {
    pub frames: u64,
    pub drops: u64,
    pub octets: u64,
    pub dropped_octets: u64,
}

#[derive(Clone, Copy, PartialEq, Eq, Debug)]
pub struct Ledger {
    /// Units left of each partition.
    pub units: [u64; PARTITIONS],
    pub meters: [Meter; METERS],
    pub last_time: u64,
    pub ports: [PortCounts; PORTS],
}

/// Times and tiles 0, and nothing in partitions and meters.
fn empty() -> Ledger {
    let no_frames = PortCounts { frames: 0, drops: 0, octets: 0, dropped_octets: 0 };
    Ledger {
        units: [0; PARTITIONS],
        meters: [Meter { credit: 0, time: 0 }; METERS],
        last_time: 0,
        ports: [no_frames; PORTS],
    }
}

/// Partitions at PART_SPC, meters full (0 with no entry loaded), times and tiles 0; or 31, 30.
pub fn fresh_ledger(image: &[u32]) -> Result<Ledger, u32> {
    if too_short(image) {
        return Err(31);
    }
    if !is_loaded(image) {
        return Err(30);
    }
    let mut ledger = empty();
    for partition in 0..PARTITIONS {
        ledger.units[partition] = most_units(image, partition);
    }
    for number in 0..METERS {
        ledger.meters[number].credit = most_credit(image, number);
    }
    Ok(ledger)
}

/// The value beside a refused fresh ledger: its last time is one that 39 always refuses.
pub fn no_ledger() -> Ledger {
    Ledger { last_time: LAST_TIME + 1, ..empty() }
}

/// PART_SPC of a partition.
pub fn most_units(image: &[u32], partition: usize) -> u64 {
    value(image, forwarding_parameters::part_spc(partition), 0)
}

/// SMAX x 8,000,000 of a loaded policing entry, 0 of one that is not.
pub fn most_credit(image: &[u32], number: usize) -> u64 {
    if number >= count(image, Table::L2Policing) {
        return 0;
    }
    value(image, policing::SMAX, number) * CREDIT_A_BYTE
}

/// Refusal 39, clause by clause; the whole ledger, whichever port is asked.
pub fn out_of_range(image: &[u32], ledger: &Ledger) -> bool {
    for partition in 0..PARTITIONS {
        if ledger.units[partition] > most_units(image, partition) {
            return true;
        }
    }
    for (number, meter) in ledger.meters.iter().enumerate() {
        if meter.credit > most_credit(image, number) || meter.time > ledger.last_time {
            return true;
        }
    }
    ledger.ports.iter().any(counts_out_of_range) || ledger.last_time > LAST_TIME
}

/// Drops above frames, or octets that these frames and drops cannot have.
fn counts_out_of_range(port: &PortCounts) -> bool {
    port.drops > port.frames
        || !octets_fit(port.octets, port.frames)
        || !octets_fit(port.dropped_octets, port.drops)
        || port.dropped_octets > port.octets
}

/// From 4 x frames to 4,100 x frames, both inclusive.
fn octets_fit(octets: u64, frames: u64) -> bool {
    let octets = u128::from(octets);
    let frames = u128::from(frames);
    4 * frames <= octets && octets <= 4_100 * frames
}
