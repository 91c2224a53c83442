//! Named frames with replicas, and images with entries of 12. Verdicts, numbers and places stand here by hand; the second program is asked
//! beside them, as at every call.

use cases::build::{with, with_address, with_vlan, Address, Frame, A, B, BROADCAST};
use cases::rng::Rng;
use reference::image::{of_lists, IMAGE_WORDS};
use reference::k;
use reference::ledger::Ledger;
use reference::stream::{plain_stream, Lists};
use reference::tables::{forwarding_parameters, mac_configuration, policing, retagging};
use reference::tables::{vlan_lookup, Table};
use tailbow::raw::{FlatVerdict, MORE};

use crate::frames::{fresh, judged, release, show};
use crate::pair::{load_words, Pair};
use crate::streams::dirty;
use crate::tally::{same, same_words, Tally};

/// Words of the image, by hand: 12's first entry, its count, and the mark.
const ENTRY: usize = 11_430;
const COUNT: usize = 11_503;
const MARK: usize = 11_504;

type Case = fn(&mut Rng, &mut Tally, &str);

const CASES: [(&str, Case); 10] = [
    ("each_number_of_replicas", each_number_of_replicas),
    ("entries_alike_and_in_table_order", entries_alike_and_in_table_order),
    ("a_refused_frame_has_none", a_refused_frame_has_none),
    ("none_where_drops_1_to_6_apply", none_where_drops_1_to_6_apply),
    ("replicas_of_a_dropped_frame", replicas_of_a_dropped_frame),
    ("what_runs_out_between_replicas", what_runs_out_between_replicas),
    ("each_bit_of_an_entry", each_bit_of_an_entry),
    ("the_count_of_12", the_count_of_12),
    ("vlans_of_an_edited_image", vlans_of_an_edited_image),
    ("a_stream_with_12", a_stream_with_12),
];

pub fn cases(rng: &mut Rng, tally: &mut Tally) {
    for (name, case) in CASES {
        case(rng, tally, name);
    }
}

/// ING_PORT, VLAN_ING, VLAN_EGR.
type Entry = (u64, u64, u64);

/// Frames of port 0 on VLAN 1 to VLAN 2, and back to VLAN 1.
const TO_2: Entry = (1, 1, 2);
const TO_1: Entry = (1, 1, 1);

/// K with three units in partition 0, with VLAN 2, all of whose ports are members and send tags, and with these entries.
fn retags(entries: &[Entry]) -> Lists {
    let changes = [(forwarding_parameters::part_spc(0), 0, 3)];
    let mut lists = with_vlan(with(k::lists(), &changes), 2, 31, 31, 31);
    for &(ing_port, vlan_ing, vlan_egr) in entries {
        let number = lists.push_zero(Table::Retagging);
        lists.put(retagging::ING_PORT, number, ing_port);
        lists.put(retagging::VLAN_ING, number, vlan_ing);
        lists.put(retagging::VLAN_EGR, number, vlan_egr);
    }
    lists
}

/// An untagged broadcast of L 64.
fn broadcast() -> Vec<u8> {
    Frame::to(BROADCAST).bytes()
}

fn dropped(number: u32) -> FlatVerdict {
    FlatVerdict { kind: 1, number, ..FlatVerdict::default() }
}

/// A broadcast of port 0, priority 0, on K: to all other ports.
fn sent(vlan: u64) -> FlatVerdict {
    let tags = if vlan == 2 { 30 } else { 0 };
    FlatVerdict { kind: 2, ports: 30, vlan, tags, ..FlatVerdict::default() }
}

/// A frame that has these verdicts, its own first.
fn held(
    tally: &mut Tally,
    name: &str,
    image: &[u32],
    ledger: Ledger,
    (port, time, frame): (usize, u64, &[u8]),
    expected: &[FlatVerdict],
) -> Ledger {
    let (verdicts, after) = judged(tally, name, image, ledger, (port, time), frame);
    tally.result(same(name, &verdicts[..], expected));
    after
}

/// The same on a fresh ledger.
fn held_fresh(
    rng: &mut Rng,
    tally: &mut Tally,
    name: &str,
    image: &[u32],
    frame: (usize, u64, &[u8]),
    expected: &[FlatVerdict],
) {
    let ledger = fresh(rng, tally, name, image);
    tally.result(same(name, ledger.is_some(), true));
    if let Some(ledger) = ledger {
        held(tally, name, image, ledger, frame, expected);
    }
}

/// 0 to 32 entries that match, alone and each behind one of another port as far as there is room. Units end behind the second replica.
fn each_number_of_replicas(rng: &mut Rng, tally: &mut Tally, name: &str) {
    for many in 0..=32 {
        let mut expected = vec![sent(1), sent(2), sent(2)];
        expected.resize(33, dropped(11));
        expected.truncate(1 + many);
        let alone = vec![TO_2; many];
        let mut among = alone.clone();
        for place in 0..32 - many {
            among.insert((2 * place).min(among.len()), (30, 1, 2));
        }
        for entries in [alone, among] {
            let image = of_lists(&retags(&entries));
            let name = format!("{name}: {many} of {} entries", entries.len());
            held_fresh(rng, tally, &name, &image, (0, 10, &broadcast()), &expected);
        }
    }
}

fn entries_alike_and_in_table_order(rng: &mut Rng, tally: &mut Tally, name: &str) {
    // The last of three is on port 1 alone, or on VLAN 2 alone: a replica is never replicated.
    for other in [(2, 1, 2), (1, 2, 1)] {
        for (entries, expected) in [
            ([TO_1, TO_2, other], [sent(1), sent(1), sent(2)]),
            ([TO_2, TO_1, other], [sent(1), sent(2), sent(1)]),
            ([TO_2, other, TO_2], [sent(1), sent(2), sent(2)]),
            ([other, TO_1, TO_1], [sent(1), sent(1), sent(1)]),
        ] {
            let image = of_lists(&retags(&entries));
            held_fresh(rng, tally, name, &image, (0, 10, &broadcast()), &expected);
        }
    }
}

/// Each refusal, on an image of which the frame would have 32 replicas.
fn a_refused_frame_has_none(rng: &mut Rng, tally: &mut Tally, name: &str) {
    let image = of_lists(&retags(&[TO_2; 32]));
    let Some(ledger) = fresh(rng, tally, name, &image) else {
        return tally.result(Err(format!("{name}: not loaded")));
    };
    let refused = |number| [FlatVerdict { number, ..FlatVerdict::default() }];
    let ledger = Ledger { last_time: 30, ..ledger };
    let (frame, long) = (broadcast(), vec![0xFF; 4097]);
    let mut unmarked = image.clone();
    unmarked[MARK] = 0;
    let (mut bad, mut full) = (ledger, ledger);
    bad.units[0] = 4;
    full.ports[0].frames = (1 << 32) - 1;
    full.ports[0].octets = 64 * full.ports[0].frames;
    let (whole, short) = (&image[..], &image[..IMAGE_WORDS - 1]);
    for (number, image, ledger, frame) in [
        (31, short, ledger, (0, 30, &frame)),
        (30, &unmarked[..], ledger, (0, 30, &frame)),
        (39, whole, bad, (0, 30, &frame)),
        (33, whole, ledger, (5, 30, &frame)),
        (34, whole, ledger, (0, 29, &frame)),
        (35, whole, ledger, (0, 30, &long)),
        (38, whole, full, (0, 30, &frame)),
    ] {
        let (port, time, frame) = frame;
        let after = held(tally, name, image, ledger, (port, time, frame), &refused(number));
        tally.result(same(name, after, ledger));
    }
}

/// The same 32 entries, and a frame that never gets past drop 6.
fn none_where_drops_1_to_6_apply(rng: &mut Rng, tally: &mut Tally, name: &str) {
    let entries: Vec<Entry> = (0..32).map(|number| (31, 1 + number % 2, 2)).collect();
    let lists = retags(&entries);
    let to_a = |priority, vlan| Frame::to(A).tagged(priority, vlan).bytes();
    for (number, changes, frame) in [
        (1, vec![], Frame::to(BROADCAST).length(59).bytes()),
        (2, vec![(mac_configuration::INGRESS, 0, 0)], broadcast()),
        (3, vec![(mac_configuration::DRPUNTAG, 0, 1)], broadcast()),
        (4, vec![], to_a(0, 3)),
        (5, vec![(vlan_lookup::VMEMB_PORT, 1, 30)], to_a(0, 2)),
    ] {
        let image = of_lists(&with(lists.clone(), &changes));
        held_fresh(rng, tally, name, &image, (0, 10, &frame), &[dropped(number)]);
    }
    let enforced = Address { vlan: 1, address: B, ports: 30, enforced: true, index: 0 };
    let image = of_lists(&with_address(lists, enforced));
    held_fresh(rng, tally, name, &image, (0, 10, &broadcast()), &[dropped(6)]);
}

/// Drops 7 to 11 of the frame: it has its replicas all the same. Entry 40 is that of port 0's broadcasts.
fn replicas_of_a_dropped_frame(rng: &mut Rng, tally: &mut Tally, name: &str) {
    let lists = retags(&[TO_2, TO_1]);
    for (number, changes) in [
        (8, vec![(policing::MAXLEN, 40, 63)]),
        (9, vec![(policing::SMAX, 40, 63)]),
        (11, vec![(forwarding_parameters::part_spc(0), 0, 0)]),
    ] {
        let image = of_lists(&with(lists.clone(), &changes));
        held_fresh(rng, tally, name, &image, (0, 10, &broadcast()), &[dropped(number); 3]);
    }
    let mut no_broadcasts = lists.clone();
    no_broadcasts.of_mut(Table::L2Policing).truncate(40);
    let image = of_lists(&no_broadcasts);
    held_fresh(rng, tally, name, &image, (0, 10, &broadcast()), &[dropped(7); 3]);
    // VLAN 1 has no port to send a broadcast to; VLAN 2 has.
    let image = of_lists(&with(lists, &[(vlan_lookup::VLAN_BC, 0, 0)]));
    let expected = [dropped(10), sent(2), dropped(10)];
    held_fresh(rng, tally, name, &image, (0, 10, &broadcast()), &expected);
}

/// Units and credit, behind the frame and behind each replica.
fn what_runs_out_between_replicas(rng: &mut Rng, tally: &mut Tally, name: &str) {
    let lists = retags(&[TO_2; 3]);
    for many in 0..=4 {
        let sent = [sent(1), sent(2), sent(2), sent(2)];
        for (number, changes) in [
            (11, [(forwarding_parameters::part_spc(0), 0, many), (policing::SMAX, 40, 256)]),
            (9, [(forwarding_parameters::part_spc(0), 0, 4), (policing::SMAX, 40, 64 * many)]),
        ] {
            let image = of_lists(&with(lists.clone(), &changes));
            let mut expected = sent[..many as usize].to_vec();
            expected.resize(4, dropped(number));
            held_fresh(rng, tally, name, &image, (0, 10, &broadcast()), &expected);
        }
    }
}

/// One bit of a loaded entry turned over in the image: what is read of it, and nothing else.
fn each_bit_of_an_entry(rng: &mut Rng, tally: &mut Tally, name: &str) {
    let image = of_lists(&retags(&[TO_2]));
    tally.result(same_words(name, &image[ENTRY..ENTRY + 2], &[0x8000_0000, 0x0040_0400]));
    for bit in 0..64 {
        let mut edited = image.clone();
        edited[ENTRY + bit / 32] ^= 1 << (bit % 32);
        let expected = match bit {
            // VLAN_EGR: 07 has no such VLAN.
            30..=41 => vec![sent(1), dropped(4)],
            // VLAN_ING, and port 0 of ING_PORT.
            42..=54 => vec![sent(1)],
            _ => vec![sent(1), sent(2)],
        };
        let name = format!("{name}: bit {bit}");
        held_fresh(rng, tally, &name, &edited, (0, 10, &broadcast()), &expected);
    }
}

/// Up to 32 entries are read, and none at or beyond the count; above 32 the image is not believed.
fn the_count_of_12(rng: &mut Rng, tally: &mut Tally, name: &str) {
    let image = of_lists(&retags(&[TO_2, TO_1]));
    tally.result(same(name, image[COUNT], 2));
    let Some(ledger) = fresh(rng, tally, name, &image) else {
        return tally.result(Err(format!("{name}: not loaded")));
    };
    let with_count = |count: u32| {
        let mut edited = image.clone();
        edited[COUNT] = count;
        edited
    };
    let all = [sent(1), sent(2), sent(1)];
    for (count, expected) in [(0, &all[..1]), (1, &all[..2]), (2, &all), (3, &all), (32, &all)] {
        let edited = with_count(count);
        held(tally, name, &edited, ledger, (0, 10, &broadcast()), expected);
    }
    let refused = [FlatVerdict { number: 30, ..FlatVerdict::default() }];
    for count in [33, 34, 1 << 16, u32::MAX] {
        let edited = with_count(count);
        held(tally, name, &edited, ledger, (0, 10, &broadcast()), &refused);
        let none = fresh(rng, tally, name, &edited);
        tally.result(same(name, none, None));
        release(tally, name, &edited, ledger, 0);
        show(tally, name, &edited, ledger, 0);
        // A load that has begun, between two blocks.
        let mut pair = Pair::fresh(&dirty(rng));
        pair.write(tally, name, &plain_stream(&retags(&[]))[..1]);
        let mut counted = pair.ours.clone();
        counted[COUNT] = count;
        pair.put_buffer(&counted);
        let answer = pair.write(tally, name, &[0]);
        tally.result(same(name, answer, 30));
        counted[COUNT] = 32;
        pair.put_buffer(&counted);
        let answer = pair.write(tally, name, &[0]);
        tally.result(same(name, answer, MORE));
    }
}

/// What no load gives: the replica's VLAN twice in 07, where the first counts, and not at all.
fn vlans_of_an_edited_image(rng: &mut Rng, tally: &mut Tally, name: &str) {
    let lists = with_vlan(retags(&[TO_2]), 3, 31, 2, 0);
    let sent_to_1 = FlatVerdict { ports: 2, tags: 0, ..sent(2) };
    // Entry 1 of 07 is VLAN 2's, entry 2 VLAN 3's.
    for (vlans, replica) in
        [([2, 3], sent(2)), ([2, 2], sent(2)), ([3, 2], sent_to_1), ([3, 3], dropped(4))]
    {
        let changes = [(vlan_lookup::VLANID, 1, vlans[0]), (vlan_lookup::VLANID, 2, vlans[1])];
        let image = of_lists(&with(lists.clone(), &changes));
        held_fresh(rng, tally, name, &image, (0, 10, &broadcast()), &[sent(1), replica]);
    }
}

/// The image's words by hand; 28 by each of the two VLANs, also with no port in ING_PORT.
fn a_stream_with_12(rng: &mut Rng, tally: &mut Tally, name: &str) {
    let most = (31, 4095, 4095);
    let vlans = with_vlan(retags(&[TO_2, most]), 4095, 31, 31, 31);
    let words = [0x8000_0000, 0x0040_0400, 0xC000_0000, 0x07FF_FFFF, 0, 0];
    for (lists, number) in [
        (vlans, 0),
        (retags(&[TO_2, (0, 2, 1)]), 0),
        (retags(&[TO_2, (1, 1, 3)]), 28),
        (retags(&[TO_2, (1, 3, 1)]), 28),
        (retags(&[(0, 1, 3), TO_2]), 28),
        (retags(&[(0, 3, 1), TO_2]), 28),
        (retags(&[TO_2, most]), 28),
    ] {
        let buffer = dirty(rng);
        let (answer, image) = load_words(tally, name, &buffer, &plain_stream(&lists));
        tally.result(same(name, answer, number));
        tally.result(same(
            name,
            (image[COUNT], image[MARK]),
            if number == 0 { (2, 1) } else { (0, 0) },
        ));
        if lists.of(Table::VlanLookup).len() == 3 {
            tally.result(same_words(name, &image[ENTRY..ENTRY + 6], &words));
        }
    }
}
