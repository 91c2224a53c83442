//! K with retagging: replicas by document 02, on streams that are made here from K's blocks.

use std::path::Path;

use tailbow::raw::{self, FlatVerdict};
use tailbow::{
    load_words, Answer, DropCause, Judged, Ledger, Refusal, Sent, Tile, Verdict, IMAGE_WORDS,
    REPLICAS,
};

/// ING_PORT 1, VLAN_ING 1, VLAN_EGR 2: a frame on port 0 and VLAN 1 has a replica on VLAN 2.
const TO_2: [u32; 2] = [0x8000_0000, 0x0040_0400];
/// The same, back to VLAN 1.
const TO_1: [u32; 2] = [0x4000_0000, 0x0040_0400];

/// VLAN 2, all ports in VMEMB_PORT, VLAN_BC and TAG_PORT.
const VLAN_2: [u32; 2] = [0x1000_0000, 0x003F_FF80];

/// Ethernet CRC-32, each word's low byte first.
fn checksum(words: &[u32]) -> u32 {
    let mut register = u32::MAX;
    for byte in words.iter().flat_map(|word| word.to_le_bytes()) {
        register ^= u32::from(byte);
        for _ in 0..8 {
            register = register >> 1 ^ if register & 1 == 1 { 0xEDB8_8320 } else { 0 };
        }
    }
    !register
}

fn push_block(stream: &mut Vec<u32>, id: u32, data: &[u32]) {
    let header = [id << 24, data.len() as u32];
    stream.extend(header);
    stream.push(checksum(&header));
    stream.extend(data);
    stream.push(checksum(data));
}

/// K with three units in partition 0 and VLAN 2 besides, and this data in a block 12; none has no such block.
fn stream_with(data: &[u32]) -> Vec<u32> {
    let file = Path::new(env!("CARGO_MANIFEST_DIR")).join("../../examples/k.stream");
    let bytes = std::fs::read(&file).unwrap_or_else(|error| panic!("{}: {error}", file.display()));
    let k: Vec<u32> =
        bytes.chunks(4).map(|word| u32::from_be_bytes(word.try_into().unwrap())).collect();
    let mut stream = vec![k[0]];
    let mut at = 1;
    while k[at + 1] != 0 {
        let length = k[at + 1] as usize;
        let mut block = k[at + 3..at + 3 + length].to_vec();
        if k[at] == 0x0E << 24 {
            // PART_SPC(0) 22:13, which K has at 1 among zeros.
            assert_eq!(block[0], 1 << 13);
            block[0] = 3 << 13;
        }
        push_block(&mut stream, k[at] >> 24, &block);
        at += length + 4;
    }
    push_block(&mut stream, 0x07, &VLAN_2);
    if !data.is_empty() {
        push_block(&mut stream, 0x12, data);
    }
    stream.extend([0, 0]);
    stream.push(checksum(&stream));
    stream
}

fn load(data: &[u32]) -> (Answer, Vec<u32>) {
    let mut image = vec![0xA5A5_A5A5; IMAGE_WORDS];
    (load_words(&mut image, &stream_with(data)), image)
}

/// The image with these entries in 12.
fn retagging(entries: &[[u32; 2]]) -> Vec<u32> {
    let (answer, image) = load(&entries.concat());
    assert_eq!(answer, Answer::Loaded);
    image
}

/// An untagged broadcast of so many bytes.
fn broadcast(bytes: usize) -> Vec<u8> {
    let mut frame = vec![0; bytes];
    frame[..6].fill(0xFF);
    frame
}

/// `sent 30 vlan 1 prio 0 tags 0 queues 0 0 0 0 0`, and the same on VLAN 2 with tags.
const ON_1: Verdict =
    Verdict::Sent(Sent { ports: 30, vlan: 1, priority: 0, tags: 0, queues: [0; 5] });
const ON_2: Verdict =
    Verdict::Sent(Sent { ports: 30, vlan: 2, priority: 0, tags: 30, queues: [0; 5] });
const NO_UNIT: Verdict = Verdict::Drop(DropCause::Partition);

fn verdicts(judged: &Judged) -> Vec<Verdict> {
    [&[judged.verdict][..], &judged.replicas].concat()
}

/// Broadcasts of 60 bytes on port 0 at 10 and 20, release of 0, the same on port 1 at 30, 59 bytes on port 0 at 40.
#[test]
fn a_replica_right_behind_its_frame() {
    let image = retagging(&[TO_2]);
    let mut ledger = Ledger::fresh(&image).unwrap();
    let frame = broadcast(60);
    let first = ledger.judge(&image, 0, 10, &frame).unwrap();
    assert_eq!(verdicts(&first), [ON_1, ON_2]);
    assert_eq!(ledger.units(0), Some(1));
    let second = ledger.judge(&image, 0, 20, &frame).unwrap();
    assert_eq!(verdicts(&second), [ON_1, NO_UNIT]);
    assert_eq!(ledger.units(0), Some(0));
    assert_eq!(ledger.release(&image, 0), Ok(()));
    // ING_PORT has port 0 alone.
    let third = ledger.judge(&image, 1, 30, &frame).unwrap();
    let on_29 = Sent { ports: 29, vlan: 1, priority: 0, tags: 0, queues: [0; 5] };
    assert_eq!(verdicts(&third), [Verdict::Sent(on_29)]);
    let fourth = ledger.judge(&image, 0, 40, &frame[..59]).unwrap();
    assert_eq!(verdicts(&fourth), [Verdict::Drop(DropCause::Short)]);
    // Tiles count originals only: three frames of which the short one was dropped.
    let shares = |frames, octets| Tile::Shares {
        frames: f64::from_bits(frames),
        octets: f64::from_bits(octets),
    };
    let tile = |port| ledger.tile(&image, port).unwrap();
    assert_eq!(tile(0), shares(0x3FD5_5555_5555_5555, 0x3FD5_1C25_875F_298D));
    assert_eq!(tile(1), shares(0, 0));
    assert_eq!([tile(2), tile(3), tile(4)], [Tile::NoFrames; 3]);
}

/// No entry in 12: the same frames, each alone.
#[test]
fn no_entry_no_replica() {
    let image = retagging(&[]);
    let mut ledger = Ledger::fresh(&image).unwrap();
    for (time, units) in [(10, 2), (20, 1), (30, 0)] {
        assert_eq!(verdicts(&ledger.judge(&image, 0, time, &broadcast(60)).unwrap()), [ON_1]);
        assert_eq!(ledger.units(0), Some(units));
    }
    assert_eq!(verdicts(&ledger.judge(&image, 0, 40, &broadcast(60)).unwrap()), [NO_UNIT]);
}

/// Several matching entries act in table order, two alike give two, and a frame that is dropped with 11 has replicas too.
#[test]
fn replicas_in_table_order() {
    let frame = broadcast(60);
    for (entries, expected) in [
        (&[TO_1, TO_2][..], &[ON_1, ON_1, ON_2][..]),
        (&[TO_2, TO_1], &[ON_1, ON_2, ON_1]),
        (&[TO_2, TO_2], &[ON_1, ON_2, ON_2]),
        (&[TO_1, TO_1], &[ON_1, ON_1, ON_1]),
    ] {
        let image = retagging(entries);
        let mut ledger = Ledger::fresh(&image).unwrap();
        assert_eq!(verdicts(&ledger.judge(&image, 0, 10, &frame).unwrap()), expected);
        assert_eq!(verdicts(&ledger.judge(&image, 0, 10, &frame).unwrap()), [NO_UNIT; 3]);
        // Two frames, one of them dropped; each of the six spent 64 octets at the meter of port 0's broadcasts.
        let counts = ledger.counts(0).unwrap();
        assert_eq!((counts.frames, counts.drops, counts.octets), (2, 1, 128));
        assert_eq!(ledger.numbers().credit[40], (65_535 - 6 * 64) * 8_000_000);
    }
}

/// The most: three units are there, and each verdict takes its own.
#[test]
fn thirty_two_replicas() {
    let image = retagging(&[TO_2; REPLICAS]);
    let mut ledger = Ledger::fresh(&image).unwrap();
    let judged = ledger.judge(&image, 0, 10, &broadcast(60)).unwrap();
    let mut expected = vec![ON_1, ON_2, ON_2];
    expected.resize(1 + 32, NO_UNIT);
    assert_eq!(verdicts(&judged), expected);
    // A slice as any other.
    assert_eq!(judged.replicas.len(), 32);
    assert_eq!(judged.replicas.into_iter().filter(|&&replica| replica == ON_2).count(), 2);
    assert_ne!(judged, ledger.judge(&image, 0, 20, &broadcast(60)).unwrap());
}

/// Places behind the replicas are left as found; beside a refusal all are, and the ledger.
#[test]
fn places_as_found() {
    let found: [FlatVerdict; REPLICAS] =
        std::array::from_fn(|place| FlatVerdict { vlan: 7_000 + place as u64, ..filled() });
    let frame = broadcast(60);
    for many in 0..=REPLICAS {
        let image = retagging(&[TO_2; REPLICAS][..many]);
        let fresh = *Ledger::fresh(&image).unwrap().numbers();
        let (mut ledger, mut places) = (fresh, found);
        let refused = raw::judge(&image, &mut ledger, 5, 10, &frame, &mut places);
        assert_eq!((refused.verdict.kind, refused.verdict.number, refused.replicas), (0, 33, 0));
        assert_eq!((places, ledger), (found, fresh));
        let judged = raw::judge(&image, &mut ledger, 0, 10, &frame, &mut places);
        assert_eq!((judged.verdict.kind, judged.replicas), (2, many as u64));
        for (place, replica) in places.iter().enumerate() {
            if place < many {
                assert_eq!(replica.kind, if place < 2 { 2 } else { 1 }, "place {place}");
            } else {
                assert_eq!(*replica, found[place], "place {place}");
            }
        }
    }
}

/// What no verdict has.
fn filled() -> FlatVerdict {
    let number = u64::MAX;
    let queues = [number; 5];
    FlatVerdict {
        kind: u32::MAX,
        number: u32::MAX,
        ports: number,
        vlan: number,
        priority: number,
        tags: number,
        queues,
    }
}

#[test]
fn block_12_by_its_refusals() {
    let answer = |data: &[u32]| load(data).0;
    let refused = |refusal| Answer::Refused(refusal);
    assert_eq!(answer(&[TO_2; 32].concat()), Answer::Loaded);
    assert_eq!(answer(&[TO_2; 33].concat()), refused(Refusal::TooManyEntries));
    assert_eq!(answer(&[0; 3]), refused(Refusal::NotWholeEntries));
    // VLAN 3 has no entry in 07: as VLAN_EGR, as VLAN_ING, and with no port in ING_PORT.
    assert_eq!(answer(&[0xC000_0000, 0x0040_0400]), refused(Refusal::RetagVlan));
    assert_eq!(answer(&[0x8000_0000, 0x0040_0C00]), refused(Refusal::RetagVlan));
    assert_eq!(answer(&[0xC000_0000, 0x0000_0400]), refused(Refusal::RetagVlan));
    assert_eq!(answer(&[0x8000_0000, 0x0000_0400]), Answer::Loaded);
    // What is not read may be anything: EGR_PORT, and all behind VLAN_EGR.
    assert_eq!(answer(&[0xBFFF_FFFF, 0xF840_0400]), Answer::Loaded);
}
