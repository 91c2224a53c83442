//! Ledgers, and what is asked of them: frames, releases and tiles.

use core::fmt;
use core::ops::Deref;

use crate::numbers::{done, drop_cause, refusal, DropCause, Refusal};
use crate::{raw, REPLICAS};

/// What a night has come to under one image: units left, meters, the last time, and each port's counts.
#[derive(Clone, Copy, PartialEq, Eq, Debug)]
pub struct Ledger {
    flat: raw::FlatLedger,
}

/// What the switch does with a frame, or with a replica of one.
#[derive(Clone, Copy, PartialEq, Eq, Hash, Debug)]
pub enum Verdict {
    /// It drops it.
    Drop(DropCause),
    /// It sends it.
    Sent(Sent),
}

/// A frame's verdict, and those on its replicas.
#[derive(Clone, Copy, PartialEq, Eq, Debug)]
pub struct Judged {
    /// The verdict on the frame itself.
    pub verdict: Verdict,
    /// One for each entry of block 12 whose VLAN_ING is the frame's VLAN and whose ING_PORT has its port, unless it was dropped with 1 to 6.
    pub replicas: Replicas,
}

/// The verdicts on a frame's replicas, in the order of their entries in block 12: a slice of 0 to [`REPLICAS`] of them.
#[derive(Clone, Copy)]
pub struct Replicas {
    /// What stands at `count` and behind it is no verdict on anything.
    places: [Verdict; REPLICAS],
    count: usize,
}

impl Deref for Replicas {
    type Target = [Verdict];

    fn deref(&self) -> &[Verdict] {
        &self.places[..self.count]
    }
}

impl PartialEq for Replicas {
    fn eq(&self, other: &Replicas) -> bool {
        self[..] == other[..]
    }
}

impl Eq for Replicas {}

impl fmt::Debug for Replicas {
    fn fmt(&self, text: &mut fmt::Formatter<'_>) -> fmt::Result {
        self[..].fmt(text)
    }
}

impl<'a> IntoIterator for &'a Replicas {
    type Item = &'a Verdict;
    type IntoIter = core::slice::Iter<'a, Verdict>;

    fn into_iter(self) -> Self::IntoIter {
        self.iter()
    }
}

/// Where a frame is sent, and how.
#[derive(Clone, Copy, PartialEq, Eq, Hash, Debug)]
pub struct Sent {
    /// The ports it goes out of, as a mask: port 0 is the lowest bit.
    pub ports: u8,
    /// Its VLAN.
    pub vlan: u16,
    /// Its new priority.
    pub priority: u8,
    /// Those of the ports that send a tag, as a mask.
    pub tags: u8,
    /// Its queue at each port, 0 where it isn't sent.
    pub queues: [u8; 5],
}

/// What the screen shows of a port. Nothing is not zero: a share stands only where frames came.
#[derive(Clone, Copy, PartialEq, Debug)]
pub enum Tile {
    /// There is no valid configuration. Nothing was judged.
    NotLoaded,
    /// The configuration is loaded, and no frame came in on this port.
    NoFrames,
    /// Frames came in.
    Shares {
        /// Dropped frames over frames: one division.
        frames: f64,
        /// Dropped octets over octets: one division.
        octets: f64,
    },
}

/// What a port has seen.
#[derive(Clone, Copy, PartialEq, Eq, Hash, Debug)]
pub struct Counts {
    /// Frames judged.
    pub frames: u64,
    /// Those of them that were dropped.
    pub drops: u64,
    /// The sum of L over the frames.
    pub octets: u64,
    /// The sum of L over the drops.
    pub dropped_octets: u64,
}

/// Numbers to lend where each of them is filled. Left as they are, 39 would refuse them: the last time is none.
const NOT_YET: raw::FlatLedger = raw::FlatLedger {
    units: [0; 8],
    credit: [0; 45],
    since: [0; 45],
    frames: [0; 5],
    drops: [0; 5],
    octets: [0; 5],
    dropped: [0; 5],
    last: u64::MAX,
};

impl Ledger {
    /// A fresh ledger of an image: partitions at PART_SPC, meters full, times and counts 0.
    ///
    /// Refusals, in this order: 31 for a short buffer, 30 for an image that isn't loaded.
    pub fn fresh(image: &[u32]) -> Result<Ledger, Refusal> {
        let mut flat = NOT_YET;
        done(raw::fresh_ledger(image, &mut flat))?;
        Ok(Ledger { flat })
    }

    /// The verdict on a frame that came in at a port at a time in µs, its bytes without the checksum, and those on its replicas.
    ///
    /// Refusals change nothing. In this order: 31, 30, 39 for a ledger that is out of range under this image, 33 for a port above 4,
    /// 34 for a time before the last one or above 2^48 - 1, 35 for more than 4,096 bytes, 38 where the port's frames are at 2^32 - 1.
    /// The frame's verdict sets the last time and the port's counts. A replica's does neither, so that tiles count originals only. It
    /// spends at the frame's meter and takes a unit of the frame's partition, behind the frame and the replicas before it.
    pub fn judge(
        &mut self,
        image: &[u32],
        port: usize,
        time: u64,
        frame: &[u8],
    ) -> Result<Judged, Refusal> {
        let mut places = [raw::FlatVerdict::default(); REPLICAS];
        let judged = raw::judge(image, &mut self.flat, port, time, frame, &mut places);
        if judged.verdict.kind == 0 {
            return Err(refusal(judged.verdict.number));
        }
        let verdict = verdict_of(&judged.verdict);
        let mut replicas =
            Replicas { places: [verdict; REPLICAS], count: judged.replicas as usize };
        for (place, flat) in replicas.places.iter_mut().zip(&places[..replicas.count]) {
            *place = verdict_of(flat);
        }
        Ok(Judged { verdict, replicas })
    }

    /// One unit of a partition comes back.
    ///
    /// Refusals change nothing. In this order: 31, 30, 39, 36 for a partition above 7, 37 where nothing of it is out.
    pub fn release(&mut self, image: &[u32], partition: usize) -> Result<(), Refusal> {
        done(raw::release(image, &mut self.flat, partition))
    }

    /// What the screen shows of a port.
    ///
    /// In this order: refusal 31, refusal 33, [`Tile::NotLoaded`] where a frame would be refused with 30, refusal 39, and then the
    /// tile of the port's counts.
    pub fn tile(&self, image: &[u32], port: usize) -> Result<Tile, Refusal> {
        let tile = raw::tile(image, &self.flat, port);
        match tile.kind {
            0 => Err(refusal(tile.number)),
            1 => Ok(Tile::NotLoaded),
            2 => Ok(Tile::NoFrames),
            _ => Ok(Tile::Shares {
                frames: f64::from_bits(tile.share),
                octets: f64::from_bits(tile.octets),
            }),
        }
    }

    /// A port's counts; none for a port above 4.
    pub fn counts(&self, port: usize) -> Option<Counts> {
        Some(Counts {
            frames: *self.flat.frames.get(port)?,
            drops: *self.flat.drops.get(port)?,
            octets: *self.flat.octets.get(port)?,
            dropped_octets: *self.flat.dropped.get(port)?,
        })
    }

    /// Units left of a partition; none for a partition above 7.
    pub fn units(&self, partition: usize) -> Option<u64> {
        self.flat.units.get(partition).copied()
    }

    /// The last time, in µs.
    pub fn last_time(&self) -> u64 {
        self.flat.last
    }

    /// The ledger's numbers, to keep them elsewhere.
    pub fn numbers(&self) -> &raw::FlatLedger {
        &self.flat
    }

    /// The ledger of these numbers. Any are taken; a call refuses with 39 those that are out of range under its image.
    pub fn of_numbers(numbers: raw::FlatLedger) -> Ledger {
        Ledger { flat: numbers }
    }
}

/// A verdict that is no refusal, as a replica's never is.
fn verdict_of(flat: &raw::FlatVerdict) -> Verdict {
    match flat.kind {
        1 => Verdict::Drop(drop_cause(flat.number)),
        _ => Verdict::Sent(sent(flat)),
    }
}

/// The values of a sending. Masks have 5 bits, a VLAN 12, priorities and queues 3, so that none is cut.
fn sent(verdict: &raw::FlatVerdict) -> Sent {
    Sent {
        ports: verdict.ports as u8,
        vlan: verdict.vlan as u16,
        priority: verdict.priority as u8,
        tags: verdict.tags as u8,
        queues: verdict.queues.map(|queue| queue as u8),
    }
}
