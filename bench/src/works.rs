//! The works that are measured: what each is given, and how often it is done. A work is made by its name, with both programs' sides.

use std::hint::black_box;

use cases::build::{Frame, A, B, BROADCAST};
use cases::rng::Rng;
use reference::image::{of_lists, IMAGE_WORDS};
use reference::k;
use reference::stream::{bytes_of, plain_stream, Lists};
use reference::tables::Table;
use reference::tables::{address_lookup, forwarding_parameters, policing, retagging, vlan_lookup};

use crate::flat::{FlatLedger, FlatLoad, FlatVerdict, Program, Replicas, MORE};
use crate::marks;
use crate::ours::OURS;
use crate::peer::PEER;

/// Does the work so many times.
pub type Side = Box<dyn FnMut(u64)>;

pub struct Work {
    pub name: String,
    /// Our time over the peer's, at most.
    pub bar: Option<f64>,
    /// Ours first, then the peer's, then the marks.
    pub sides: Vec<(&'static str, Side)>,
}

/// Where the frame's VLAN and addresses stand in their tables.
#[derive(Clone, Copy, PartialEq, Eq)]
pub enum Place {
    First,
    Last,
}

/// How many entries the tables have that can grow.
#[derive(Clone, Copy)]
pub struct Sizes {
    pub vlans: usize,
    pub addresses: usize,
    pub policing: usize,
    pub retagging: usize,
}

pub const FULL: Sizes = Sizes {
    vlans: Table::VlanLookup.most(),
    addresses: Table::L2AddressLookup.most(),
    policing: Table::L2Policing.most(),
    retagging: Table::Retagging.most(),
};
pub const LEAST: Sizes = Sizes { vlans: 1, addresses: 1, retagging: 0, ..FULL };

/// A VLAN for the frame, and one for each replica.
pub const REPLICAS: Sizes =
    Sizes { vlans: 1 + Table::Retagging.most(), retagging: FULL.retagging, ..LEAST };

/// A unit for the frame, and one for each replica.
pub const UNITS: u64 = 1 + Table::Retagging.most() as u64;

/// The VLAN of every port and of the frame.
const VLAN: u64 = 1;

/// K with more entries: any VLANs and any addresses of one maker around those of the frame. Entries of 12 have another VLAN_ING than the
/// frame's VLAN, so that it has no replica.
pub fn lists(sizes: Sizes, place: Place) -> Lists {
    let mut rng = Rng::new(8);
    let mut lists = k::lists();
    lists.of_mut(Table::L2Policing).truncate(sizes.policing);
    for number in 0..sizes.policing {
        lists.put(policing::SHARINDX, number, number as u64);
    }
    lists.push_zero(Table::L2LookupParameters);
    let mut vlans: Vec<u64> = (0..4096).filter(|&vlan| vlan != VLAN).collect();
    rng.shuffle(&mut vlans);
    vlans.truncate(sizes.vlans - 1);
    vlans.insert(if place == Place::First { 0 } else { vlans.len() }, VLAN);
    lists.of_mut(Table::VlanLookup).clear();
    for (number, &vlan) in vlans.iter().enumerate() {
        lists.push_zero(Table::VlanLookup);
        lists.put(vlan_lookup::VLANID, number, vlan);
        lists.put(vlan_lookup::VMEMB_PORT, number, 31);
        lists.put(vlan_lookup::VLAN_BC, number, 31);
        lists.put(vlan_lookup::TAG_PORT, number, 31);
    }
    put_addresses(&mut rng, &mut lists, sizes.addresses, place);
    // The replicas' VLANs are the last ones beside the frame's.
    vlans.retain(|&vlan| vlan != VLAN);
    for (number, &vlan) in vlans.iter().rev().take(sizes.retagging).enumerate() {
        lists.push_zero(Table::Retagging);
        lists.put(retagging::ING_PORT, number, 31);
        lists.put(retagging::VLAN_ING, number, vlans[0]);
        lists.put(retagging::VLAN_EGR, number, vlan);
    }
    lists
}

/// The same, but that the frame has a replica for each entry of 12, and there are units for all of them.
pub fn replicating(sizes: Sizes) -> Lists {
    let mut lists = lists(sizes, Place::Last);
    lists.put(forwarding_parameters::part_spc(0), 0, UNITS);
    for number in 0..sizes.retagging {
        lists.put(retagging::VLAN_ING, number, VLAN);
    }
    lists
}

/// The frame's destination A and source B, B behind A where there is room for both.
fn put_addresses(rng: &mut Rng, lists: &mut Lists, many: usize, place: Place) {
    let mut indexes: Vec<u64> = (0..1024).collect();
    rng.shuffle(&mut indexes);
    let first = if place == Place::First { 0 } else { many.saturating_sub(2) };
    for (number, &index) in indexes[..many].iter().enumerate() {
        let address = match number.wrapping_sub(first) {
            0 => A,
            1 => B,
            _ => 0x0200_0100_0000 | rng.below(1 << 24),
        };
        lists.push_zero(Table::L2AddressLookup);
        lists.put(address_lookup::VLANID, number, VLAN);
        lists.put(address_lookup::MACADDR, number, address);
        lists.put(address_lookup::DESTPORTS, number, 31);
        lists.put(address_lookup::ENFPORT, number, 1);
        lists.put(address_lookup::INDEX, number, index);
    }
}

/// The stream that whole loads and writes are measured on.
pub fn full_stream() -> Vec<u32> {
    plain_stream(&lists(FULL, Place::Last))
}

/// A tagged frame from B to A.
pub fn full_frame() -> Vec<u8> {
    Frame::to(A).from(B).tagged(3, VLAN as u16).length(64).bytes()
}

/// K's frames: port, time and bytes.
pub fn k_frames() -> [(usize, u64, Vec<u8>); 3] {
    let frame = |length| {
        let mut bytes = BROADCAST.to_be_bytes()[2..].to_vec();
        bytes.resize(length, 0);
        bytes
    };
    [(0, 10, frame(60)), (0, 20, frame(60)), (1, 30, frame(59))]
}

/// The words in writes of this length from a fresh state; the last answer.
pub fn in_writes(program: &Program, image: &mut [u32], words: &[u32], length: usize) -> u32 {
    let mut load = FlatLoad::default();
    let mut answer = MORE;
    for part in words.chunks(length) {
        answer = (program.write)(image, &mut load, part);
    }
    answer
}

/// K's three frames from this time on; the unit that the first takes was given back before.
fn judge_k(
    program: &Program,
    image: &[u32],
    ledger: &mut FlatLedger,
    from: u64,
    frames: &[(usize, u64, Vec<u8>); 3],
    replicas: &mut Replicas,
) {
    ledger.units[0] = 1;
    for (port, time, frame) in frames {
        black_box((program.judge)(image, ledger, *port, from + time, frame, replicas));
    }
}

fn both(make: impl Fn(&'static Program) -> Side) -> Vec<(&'static str, Side)> {
    vec![("ours", make(&OURS)), ("peer", make(&PEER))]
}

/// Done on an image buffer of its own.
fn loading(
    program: &'static Program,
    mut once: impl FnMut(&Program, &mut [u32]) -> u32 + 'static,
) -> Side {
    let mut image = vec![0u32; IMAGE_WORDS];
    Box::new(move |times| {
        for _ in 0..times {
            let answer = once(program, black_box(&mut image[..]));
            assert_eq!(answer, 0, "a measured load was refused");
        }
    })
}

fn whole(words: &[u32]) -> Vec<(&'static str, Side)> {
    both(|program| {
        let words = words.to_vec();
        loading(program, move |program, image| (program.load_words)(image, black_box(&words)))
    })
}

fn whole_bytes(words: &[u32]) -> Vec<(&'static str, Side)> {
    both(|program| {
        let bytes = bytes_of(words);
        loading(program, move |program, image| (program.load_bytes)(image, black_box(&bytes)))
    })
}

fn writes(words: &[u32], length: usize) -> Vec<(&'static str, Side)> {
    both(|program| {
        let words = words.to_vec();
        loading(program, move |program, image| in_writes(program, image, black_box(&words), length))
    })
}

fn fresh(program: &Program, image: &[u32]) -> FlatLedger {
    let mut ledger = FlatLedger::all(0);
    let number = (program.fresh_ledger)(image, &mut ledger);
    assert_eq!(number, 0, "a measured image is not loaded");
    ledger
}

/// Done on a ledger that is kept from one time to the next, and so are the places for replicas.
fn judging(
    image: &[u32],
    once: impl Fn(&Program, &[u32], &mut FlatLedger, u64, &mut Replicas) + Clone + 'static,
) -> Vec<(&'static str, Side)> {
    both(|program| {
        let (image, once) = (image.to_vec(), once.clone());
        let mut ledger = fresh(program, &image);
        let mut replicas = [FlatVerdict::default(); 32];
        let mut time = 0;
        Box::new(move |times| {
            for _ in 0..times {
                let replicas = black_box(&mut replicas);
                once(program, black_box(&image), black_box(&mut ledger), time, replicas);
                time += 30;
            }
        })
    })
}

fn k_judging() -> Vec<(&'static str, Side)> {
    let frames = k_frames();
    judging(&of_lists(&k::lists()), move |program, image, ledger, time, replicas| {
        judge_k(program, image, ledger, time, &frames, replicas);
    })
}

fn frame_judging(sizes: Sizes, place: Place) -> Vec<(&'static str, Side)> {
    let frame = full_frame();
    judging(&of_lists(&lists(sizes, place)), move |program, image, ledger, time, replicas| {
        ledger.units[0] = 1;
        black_box((program.judge)(image, ledger, 0, time, &frame, replicas));
    })
}

/// The frame and a replica for each entry of 12; all of them are sent.
fn replica_judging(sizes: Sizes) -> Vec<(&'static str, Side)> {
    let frame = full_frame();
    judging(&of_lists(&replicating(sizes)), move |program, image, ledger, time, replicas| {
        ledger.units[0] = UNITS;
        black_box((program.judge)(image, ledger, 0, time, &frame, replicas));
        assert_eq!(ledger.units[0], 0, "a measured replica was not sent");
    })
}

fn releasing() -> Vec<(&'static str, Side)> {
    judging(&of_lists(&k::lists()), |program, image, ledger, _, _| {
        ledger.units[0] = 0;
        black_box((program.release)(image, ledger, 0));
    })
}

fn fresh_ledgers(sizes: Sizes) -> Vec<(&'static str, Side)> {
    both(|program| {
        let image = of_lists(&lists(sizes, Place::Last));
        let mut ledger = fresh(program, &image);
        Box::new(move |times| {
            for _ in 0..times {
                black_box((program.fresh_ledger)(black_box(&image), black_box(&mut ledger)));
            }
        })
    })
}

fn tiles(sizes: Sizes) -> Vec<(&'static str, Side)> {
    let frame = full_frame();
    both(|program| {
        let image = of_lists(&lists(sizes, Place::Last));
        let mut ledger = fresh(program, &image);
        for time in 0..4 {
            let mut replicas = [FlatVerdict::default(); 32];
            (program.judge)(&image, &mut ledger, 0, time, &frame, &mut replicas);
        }
        Box::new(move |times| {
            for _ in 0..times {
                black_box((program.tile)(black_box(&image), black_box(&ledger), 0));
            }
        })
    })
}

/// The main table, with its bars.
pub const MAIN: [(&str, Option<f64>); 12] = [
    ("whole load, words", Some(1.25)),
    ("whole load, bytes", None),
    ("writes of 64", Some(1.25)),
    ("writes of 1", Some(1.25)),
    ("K's frames", Some(1.25)),
    ("full, last", Some(1.15)),
    ("full, first", None),
    ("32 replicas", Some(1.25)),
    ("32 replicas, full", None),
    ("release", None),
    ("fresh ledger", None),
    ("tile", Some(1.3)),
];

/// A work that grows: its name, the table, the numbers of entries.
const GROWTH: [(&str, &str, &[usize]); 11] = [
    ("whole load", "07", &[1, 16, 256, 1024, 4096]),
    ("whole load", "05", &[1, 16, 256, 1024]),
    ("whole load", "06", &[1, 16, 45]),
    ("writes of 64", "07", &[1, 16, 256, 1024, 4096]),
    ("writes of 64", "05", &[1, 16, 256, 1024]),
    ("writes of 1", "07", &[1, 16, 256, 1024, 4096]),
    ("judge, last", "07", &[1, 16, 256, 1024, 4096]),
    ("judge, last", "05", &[1, 16, 256, 1024]),
    ("judge, last", "06", &[4, 16, 45]),
    ("fresh ledger", "06", &[1, 16, 45]),
    ("tile", "06", &[1, 16, 45]),
];

/// The names of the growing works, in the table's order.
pub fn growth_names() -> Vec<String> {
    let mut names = Vec::new();
    for (work, table, entries) in GROWTH {
        names.extend(entries.iter().map(|many| format!("{work} / {table} / {many}")));
    }
    names
}

/// The work of this name.
pub fn work(name: &str) -> Option<Work> {
    let sides = match name {
        "whole load, words" => {
            let words = full_stream();
            let mut sides = whole(&words);
            sides.extend(marks::sides(&words));
            sides
        }
        "whole load, bytes" => whole_bytes(&full_stream()),
        "writes of 64" => writes(&full_stream(), 64),
        "writes of 1" => writes(&full_stream(), 1),
        "K's frames" => k_judging(),
        "full, last" => frame_judging(FULL, Place::Last),
        "full, first" => frame_judging(FULL, Place::First),
        "32 replicas" => replica_judging(REPLICAS),
        "32 replicas, full" => replica_judging(FULL),
        "release" => releasing(),
        "fresh ledger" => fresh_ledgers(FULL),
        "tile" => tiles(FULL),
        _ => grown(name)?,
    };
    let bar = MAIN.iter().find(|(main, _)| *main == name).and_then(|(_, bar)| *bar);
    Some(Work { name: name.to_string(), bar, sides })
}

/// `WORK / TABLE / ENTRIES`: every other table that can grow has one entry, 06 all, 12 none.
fn grown(name: &str) -> Option<Vec<(&'static str, Side)>> {
    let mut parts = name.split(" / ");
    let (work, table, many) = (parts.next()?, parts.next()?, parts.next()?.parse().ok()?);
    let sizes = match table {
        "05" => Sizes { addresses: many, ..LEAST },
        "06" => Sizes { policing: many, ..LEAST },
        "07" => Sizes { vlans: many, ..LEAST },
        _ => return None,
    };
    let words = || plain_stream(&lists(sizes, Place::Last));
    match work {
        "whole load" => Some(whole(&words())),
        "writes of 64" => Some(writes(&words(), 64)),
        "writes of 1" => Some(writes(&words(), 1)),
        "judge, last" => Some(frame_judging(sizes, Place::Last)),
        "fresh ledger" => Some(fresh_ledgers(sizes)),
        "tile" => Some(tiles(sizes)),
        _ => None,
    }
}
