//! Named cases of replicas that only calls can tell apart: edited images, and the ledger afterwards.
//! Each gives Ok, or says what came out otherwise than its clause has it.

use reference::image::{count_place, start_of, IMAGE_WORDS, MARK};
use reference::judge::{judge, release, Judged, ReleaseAnswer, Sent, Verdict};
use reference::ledger::{fresh_ledger, Ledger};
use reference::load::{load_words, write, LoadAnswer, LoadState};
use reference::stream::{plain_stream, Lists};
use reference::tables::{mac_configuration, policing, retagging, vlan_lookup, Table};
use reference::tile::{tile, TileAnswer};

use crate::build::{open, with_retagging, with_vlan, Frame};
use crate::edit::put_value;
use crate::named_calls::{same, CallCase};

const COUNTS: &str =
    "document 02, request 2: 30 looks at 12's count, entries beyond it are not read";
const EDITED: &str =
    "document 02, request 2, in an edited image: drop 4, and the first entry counts";
const LEDGER: &str = "document 02, request 2: tiles count originals only; refusals are the frame's";

pub const CASES: &[CallCase] = &[
    ("replica_entries_beyond_the_count", COUNTS, entries_beyond_the_count),
    ("12_above_32_is_30", COUNTS, above_32_is_30),
    ("12_above_32_is_30_to_a_write", COUNTS, above_32_is_30_to_a_write),
    ("12_has_no_least", COUNTS, no_entry_is_needed),
    ("replica_drop_4", EDITED, drop_4),
    ("no_replica_of_drop_4", EDITED, no_replica_of_drop_4),
    ("replica_first_of_twin_vlans", EDITED, first_of_twin_vlans),
    ("28_is_not_asked_again", EDITED, rule_28_is_not_asked_again),
    ("replica_other_bits_edited", EDITED, other_bits_edited),
    ("replica_moves_no_tile_and_no_time", LEDGER, no_tile_and_no_time),
    ("replica_is_no_frame_at_38", LEDGER, no_frame_at_38),
    ("refused_frame_has_no_replica", LEDGER, no_replica_of_a_refusal),
    ("replicas_spend_one_meter", LEDGER, one_meter),
];

fn loaded(lists: &Lists) -> Vec<u32> {
    let mut image = vec![0; IMAGE_WORDS];
    load_words(&mut image, &plain_stream(lists));
    image
}

fn fresh(image: &[u32]) -> Result<Ledger, String> {
    fresh_ledger(image).map_err(|number| format!("refused {number}"))
}

/// K with 100 units, VLANs 2 (with tags) and 3, and entries for port 0 from VLAN 1 to 2 and to 3.
fn retagged() -> Vec<u32> {
    let lists = with_vlan(with_vlan(open(), 2, 31, 31, 31), 3, 31, 31, 0);
    loaded(&with_retagging(with_retagging(lists, 1, 1, 2), 1, 1, 3))
}

const RETAGGING_COUNT: usize = count_place(Table::Retagging);

/// A broadcast with priority 0 that goes to all other ports, received on port 0.
const fn flooded(vlan: u32, tags: u32) -> Verdict {
    Verdict::Sent(Sent { ports: 30, vlan, prio: 0, tags, queues: [0; 5] })
}

const ON_1: Verdict = flooded(1, 0);
const ON_2: Verdict = flooded(2, 30);
const ON_3: Verdict = flooded(3, 0);

/// An untagged broadcast on port 0 at time 0, from a fresh ledger.
fn broadcast(image: &[u32]) -> Result<Judged, String> {
    Ok(judge(image, fresh(image)?, 0, 0, &Frame::broadcast().bytes()).0)
}

fn judged(verdict: Verdict, replicas: &[Verdict]) -> Judged {
    Judged { verdict, replicas: replicas.to_vec() }
}

fn entries_beyond_the_count() -> Result<(), String> {
    let mut image = retagged();
    let expected = [
        (0, judged(ON_1, &[])),
        (1, judged(ON_1, &[ON_2])),
        (2, judged(ON_1, &[ON_2, ON_3])),
        // Zero entries behind them name VLAN 0 and no port.
        (32, judged(ON_1, &[ON_2, ON_3])),
    ];
    for (count, expected) in expected {
        image[RETAGGING_COUNT] = count;
        same("count", broadcast(&image)?, expected)?;
    }
    // An entry at place 31 is read with a count of 32 and not with 31.
    let last = start_of(Table::Retagging) + 62;
    image[last..last + 2].copy_from_slice(&[0x4000_0000, 0x0040_0400]);
    for (count, more) in [(31, vec![]), (32, vec![ON_1])] {
        image[RETAGGING_COUNT] = count;
        let replicas = [vec![ON_2, ON_3], more].concat();
        same("the last entry", broadcast(&image)?, judged(ON_1, &replicas))?;
    }
    Ok(())
}

fn above_32_is_30() -> Result<(), String> {
    let mut image = retagged();
    let ledger = fresh(&image)?;
    let frame = Frame::broadcast().bytes();
    for count in [33, 34, 0x0001_0020, u32::MAX] {
        image[RETAGGING_COUNT] = count;
        same("fresh", fresh_ledger(&image), Err(30))?;
        let told = judge(&image, ledger, 0, 0, &frame);
        same("frame", told, (judged(Verdict::Refused(30), &[]), ledger))?;
        let told = release(&image, ledger, 0);
        same("release", told, (ReleaseAnswer::Refused(30), ledger))?;
        same("tile", tile(&image, &ledger, 0), TileAnswer::NotLoaded)?;
    }
    image[RETAGGING_COUNT] = 32;
    same("32", fresh_ledger(&image).is_ok(), true)?;
    same("tile of 32", tile(&image, &ledger, 0), TileAnswer::NoFrames)
}

/// Also inside a block of another table, and before a repeated answer.
fn above_32_is_30_to_a_write() -> Result<(), String> {
    let stream = plain_stream(&with_retagging(open(), 1, 1, 1));
    for words in [1, 2, 10, stream.len()] {
        let mut image = vec![9; IMAGE_WORDS];
        let mut state = LoadState::fresh();
        for chunk in stream[..words].chunks(64) {
            state = write(&mut image, state, chunk).1;
        }
        let next = [*stream.get(words).unwrap_or(&0)];
        let sound = image[RETAGGING_COUNT];
        for count in [33, u32::MAX] {
            image[RETAGGING_COUNT] = count;
            let before = image.clone();
            let told = write(&mut image, state, &next);
            same("30", told, (LoadAnswer::Refused(30), state))?;
            same("30 before 32", write(&mut image, state, &[]).0, LoadAnswer::Refused(30))?;
            same("image", &image, &before)?;
        }
        // At the most a count is believed, and a load goes on.
        image[RETAGGING_COUNT] = 32;
        let told = write(&mut image.clone(), state, &next).0;
        let expected = state.answer.unwrap_or(LoadAnswer::More);
        same("32 entries", told, expected)?;
        image[RETAGGING_COUNT] = sound;
        same("goes on", write(&mut image, state, &next).0, expected)?;
    }
    Ok(())
}

/// 12 may be absent, and what stands in its place is not read then.
fn no_entry_is_needed() -> Result<(), String> {
    let mut image = loaded(&open());
    same("count", image[RETAGGING_COUNT], 0)?;
    let first = start_of(Table::Retagging);
    image[first..first + 2].copy_from_slice(&[0x4000_0000, 0x0040_0400]);
    same("absent", broadcast(&image)?, judged(ON_1, &[]))?;
    image[RETAGGING_COUNT] = 1;
    same("there", broadcast(&image)?, judged(ON_1, &[ON_1]))
}

/// VLAN 2's entry in 07 becomes one of VLAN 9: the replica on VLAN 2 is dropped at 4, spends nothing and
/// takes nothing; the next goes on.
fn drop_4() -> Result<(), String> {
    let mut image = retagged();
    put_value(&mut image, vlan_lookup::VLANID, 1, 9);
    let ledger = fresh(&image)?;
    let (told, after) = judge(&image, ledger, 0, 5, &Frame::broadcast().bytes());
    same("judged", told, judged(ON_1, &[Verdict::Drop(4), ON_3]))?;
    same("units", after.units[0], 98)?;
    same("credit", ledger.meters[40].credit - after.meters[40].credit, 2 * 64 * 8_000_000)?;
    // Also where the frame is dropped at 7, 8 or 9: 4 comes first.
    for (entries, maxlen, smax, drop) in
        [(40, 1518, 65_535, 7), (45, 63, 65_535, 8), (45, 64, 63, 9)]
    {
        image[count_place(Table::L2Policing)] = entries;
        put_value(&mut image, policing::MAXLEN, 40, maxlen);
        put_value(&mut image, policing::SMAX, 40, smax);
        let expected = judged(Verdict::Drop(drop), &[Verdict::Drop(4), Verdict::Drop(drop)]);
        same("dropped", broadcast(&image)?, expected)?;
    }
    Ok(())
}

/// The frame's own VLAN has no entry in 07, and an entry in 12: dropped at 4, it has no replica.
fn no_replica_of_drop_4() -> Result<(), String> {
    let mut image = retagged();
    put_value(&mut image, vlan_lookup::VLANID, 0, 9);
    same("untagged", broadcast(&image)?, judged(Verdict::Drop(4), &[]))?;
    let tagged = Frame::broadcast().tagged(0, 1).bytes();
    let told = judge(&image, fresh(&image)?, 0, 0, &tagged).0;
    same("tagged", told, judged(Verdict::Drop(4), &[]))
}

/// VLAN 3's entry becomes a second one of VLAN 2, behind the first: the first counts. Then it is the
/// first that becomes one of VLAN 3, and counts there.
fn first_of_twin_vlans() -> Result<(), String> {
    let mut image = retagged();
    put_value(&mut image, vlan_lookup::VLANID, 2, 2);
    put_value(&mut image, vlan_lookup::VMEMB_PORT, 2, 0);
    same("VLAN 2", broadcast(&image)?, judged(ON_1, &[ON_2, Verdict::Drop(4)]))?;
    let mut image = retagged();
    put_value(&mut image, vlan_lookup::VLANID, 1, 3);
    let tagging = flooded(3, 30);
    same("VLAN 3", broadcast(&image)?, judged(ON_1, &[Verdict::Drop(4), tagging]))
}

/// VLANs that 28 would refuse: nothing matches VLAN 9, and on VLAN 9 a replica is dropped at 4.
fn rule_28_is_not_asked_again() -> Result<(), String> {
    let mut image = retagged();
    put_value(&mut image, retagging::VLAN_ING, 0, 9);
    same("VLAN_ING", broadcast(&image)?, judged(ON_1, &[ON_3]))?;
    let mut image = retagged();
    put_value(&mut image, retagging::VLAN_EGR, 0, 9);
    same("VLAN_EGR", broadcast(&image)?, judged(ON_1, &[Verdict::Drop(4), ON_3]))
}

/// EGR_PORT, DO_NOT_LEARN, USE_DEST_PORTS, DESTPORTS and the unused bits, each turned over. (RETAG, bit 4
/// of 09, is another thing and not read either.)
fn other_bits_edited() -> Result<(), String> {
    let sound = retagged();
    let expected = judged(ON_1, &[ON_2, ON_3]);
    let first = start_of(Table::Retagging);
    for bit in (0..30).chain(59..64) {
        let mut image = sound.clone();
        image[first + bit / 32] ^= 1 << (bit % 32);
        same(&format!("bit {bit}"), broadcast(&image)?, expected.clone())?;
    }
    // The bits that are read: turned over, each of them changes what comes out.
    for bit in 30..55 {
        let mut image = sound.clone();
        image[first + bit / 32] ^= 1 << (bit % 32);
        same(&format!("bit {bit}"), broadcast(&image)? == expected, false)?;
    }
    let mut image = sound;
    image[start_of(Table::MacConfiguration)] ^= 1 << 4;
    same("RETAG", broadcast(&image)?, expected)
}

/// One replica is sent, one dropped at 10: the tile has one frame and no drop.
fn no_tile_and_no_time() -> Result<(), String> {
    let mut image = retagged();
    put_value(&mut image, vlan_lookup::VLAN_BC, 2, 0);
    let ledger = fresh(&image)?;
    let (told, after) = judge(&image, ledger, 0, 77, &Frame::broadcast().bytes());
    same("judged", told, judged(ON_1, &[ON_2, Verdict::Drop(10)]))?;
    let mut expected = ledger;
    expected.last_time = 77;
    expected.units[0] -= 2;
    expected.ports[0].frames = 1;
    expected.ports[0].octets = 64;
    expected.meters[40].time = 77;
    expected.meters[40].credit -= 3 * 64 * 8_000_000;
    same("ledger", after, expected)?;
    let none = TileAnswer::Shares { frames: 0.0, octets: 0.0 };
    same("tile", tile(&image, &after, 0), none)
}

/// At 2^32 - 2 frames one more is judged with its replicas, and then none.
fn no_frame_at_38() -> Result<(), String> {
    let image = retagged();
    let mut ledger = fresh(&image)?;
    ledger.ports[0].frames = (1 << 32) - 2;
    ledger.ports[0].octets = 64 * ((1 << 32) - 2);
    let frame = Frame::broadcast().bytes();
    let (told, after) = judge(&image, ledger, 0, 0, &frame);
    same("judged", told, judged(ON_1, &[ON_2, ON_3]))?;
    same("frames", after.ports[0].frames, (1 << 32) - 1)?;
    let told = judge(&image, after, 0, 0, &frame);
    same("38", told, (judged(Verdict::Refused(38), &[]), after))
}

/// 31, 30, 39, 33, 34, 35, 38: no replica, and the ledger as found.
fn no_replica_of_a_refusal() -> Result<(), String> {
    let sound = retagged();
    let mut ledger = fresh(&sound)?;
    ledger.last_time = 10;
    let frame = Frame::broadcast().bytes();
    let mut unmarked = sound.clone();
    unmarked[MARK] = 0;
    let mut above = ledger;
    above.units[0] = 101;
    let mut full = ledger;
    full.ports[0].frames = (1 << 32) - 1;
    full.ports[0].octets = 64 * ((1 << 32) - 1);
    let asked: [(u32, &[u32], Ledger, u32, u64, &[u8]); 7] = [
        (31, &sound[..IMAGE_WORDS - 1], ledger, 0, 10, &frame),
        (30, &unmarked, ledger, 0, 10, &frame),
        (39, &sound, above, 0, 10, &frame),
        (33, &sound, ledger, 5, 10, &frame),
        (34, &sound, ledger, 0, 9, &frame),
        (35, &sound, ledger, 0, 10, &[0xFF; 4097]),
        (38, &sound, full, 0, 10, &frame),
    ];
    for (number, image, ledger, port, time, frame) in asked {
        let told = judge(image, ledger, port, time, frame);
        let expected = (judged(Verdict::Refused(number), &[]), ledger);
        same(&format!("{number}"), told, expected)?;
    }
    let told = judge(&sound, ledger, 0, 10, &frame).0;
    same("not refused", told, judged(ON_1, &[ON_2, ON_3]))
}

/// The meter's time is the frame's after each of them, its credit the frame's less what each spent: to
/// a millionth of a bit.
fn one_meter() -> Result<(), String> {
    let mut image = retagged();
    put_value(&mut image, policing::RATE, 40, 0);
    put_value(&mut image, mac_configuration::VLANPRIO, 0, 3);
    let price = 64 * 8_000_000;
    let sent = |vlan, tags| {
        let queues = [0, 3, 3, 3, 3];
        Verdict::Sent(Sent { ports: 30, vlan, prio: 3, tags, queues })
    };
    let short = Verdict::Drop(9);
    let all = [sent(2, 30), sent(3, 0)];
    let asked = [
        (3 * price, judged(sent(1, 0), &all), 0),
        (3 * price - 1, judged(sent(1, 0), &[all[0], short]), price - 1),
        (2 * price, judged(sent(1, 0), &[all[0], short]), 0),
        (2 * price - 1, judged(sent(1, 0), &[short, short]), price - 1),
        (price, judged(sent(1, 0), &[short, short]), 0),
        (price - 1, judged(short, &[short, short]), price - 1),
    ];
    for (credit, expected, left) in asked {
        let mut ledger = fresh(&image)?;
        ledger.meters[40].credit = credit;
        let (told, after) = judge(&image, ledger, 0, 1000, &Frame::broadcast().bytes());
        same("judged", told, expected)?;
        same("credit", after.meters[40].credit, left)?;
        same("time", after.meters[40].time, 1000)?;
    }
    Ok(())
}
