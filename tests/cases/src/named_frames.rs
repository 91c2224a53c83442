//! Named cases of frames: one for each reading that a frame can tell apart, and the traps.
//! Unless said otherwise: K with 100 units, frames of 60 bytes (L 64) from B on port 0.

use reference::stream::Lists;
use reference::tables::{forwarding, forwarding_parameters, lookup_parameters};
use reference::tables::{mac_configuration, policing, vlan_lookup, Table};

use crate::build::{open, open_with, with, with_address, with_shared_learn, with_vlan};
use crate::build::{Address, Frame, List, A, B, C};
use crate::case::Case;

const LENGTH: &str = "decisions, Frames: below 60 bytes ends at drop 1; zero bytes has L 4";
const TAGS: &str = "decisions, Frames: a frame tagged with VLAN 0 is tagged; DEI, 88 A8";
const UNTAGGED: &str = "document 01, traps: testing membership of untagged frames";
const NUMBERS: &str = "decisions, Frames: VLAN 4095 and VLAN 0 are ordinary numbers";
const ADDRESS: &str = "decisions, Frames: an address is a number, first byte highest";
const ENFORCED: &str = "decisions, Frames: drop 6, any enforcing entry that lacks the port";
const DESTINATION: &str =
    "decisions, Frames: ENFPORT entries, broadcast, DESTPORTS 0, lowest INDEX";
const CUTS: &str = "decisions, Frames: VLAN_BC cuts broadcasts only, the others everything";
const POLICING: &str = "decisions, Frames: MAXLEN and PARTITION are k's, the meter SHARINDX's";
const METERS: &str = "decisions, Frames: elapsed since that meter's own time; reach is >=";
const SPENT: &str = "document 01: spent credit stays spent at drops 10 and 11";
const ORDER: &str = "document 01: the first drop that applies is the verdict";
const TIMES: &str = "decisions, Frames: refusals and releases set neither time nor tile";
const PORTS: &str = "document 01, Ports: queues, tags, the reception port taken out";

pub fn cases() -> Vec<Case> {
    let mut cases = Vec::new();
    cases.extend(lengths());
    cases.extend(tags());
    cases.extend(vlan_numbers());
    cases.extend(enforced());
    cases.extend(destinations());
    cases.extend(shared_learn());
    cases.extend(cuts());
    cases.extend(policing_entries());
    cases.extend(priorities());
    cases.extend(meters());
    cases.extend(spent());
    cases.extend(order());
    cases.extend(times());
    cases.extend(queues_and_tags());
    cases
}

/// One frame on port 0 at time 0.
fn one(name: &str, clause: &'static str, lists: &Lists, frame: &Frame, line: &str) -> Case {
    Case::of_lists(name, clause, lists).list(List::new().frame(0, 0, frame)).lines(&[line])
}

/// Frames on port 0 at these times.
fn several(
    name: &str,
    clause: &'static str,
    lists: &Lists,
    frames: &[(u64, Frame)],
    lines: &[&str],
) -> Case {
    let mut list = List::new();
    for (time, frame) in frames {
        list = list.frame(0, *time, frame);
    }
    Case::of_lists(name, clause, lists).list(list).lines(lines)
}

const FLOODED: &str = "frame 1 sent 30 vlan 1 prio 0 tags 0 queues 0 0 0 0 0";

fn lengths() -> Vec<Case> {
    // 4 of 68 octets are dropped: 1/17 is 0.0F0F0F.. in base 16, so 1.E1E1.. x 2^-5.
    let output = "\
config loaded
frame 1 drop 1
frame 2 sent 30 vlan 1 prio 0 tags 0 queues 0 0 0 0 0
tile 0 frames 2 drops 1 share 3fe0000000000000 octets 3fae1e1e1e1e1e1e
tile 1 no-frames
tile 2 no-frames
tile 3 no-frames
tile 4 no-frames
";
    let zero_bytes = List::new().frame_of(0, 5, &[]).frame(0, 5, &Frame::broadcast());
    let no_drops = "\
config loaded
frame 1 sent 30 vlan 1 prio 0 tags 0 queues 0 0 0 0 0
tile 0 frames 1 drops 0 share 0000000000000000 octets 0000000000000000
tile 1 no-frames
tile 2 no-frames
tile 3 no-frames
tile 4 no-frames
";
    let closed = open_with(&[(mac_configuration::INGRESS, 0, 0)]);
    let tagged_64 = Frame::to(A).tagged(0, 1).length(60);
    vec![
        Case::of_lists("zero_bytes_has_l_4", LENGTH, &open()).list(zero_bytes).output(output),
        Case::of_lists("no_drops_is_plus_zero", LENGTH, &open())
            .list(List::new().frame(0, 5, &Frame::broadcast()))
            .output(no_drops),
        one("59_bytes", LENGTH, &open(), &Frame::to(A).length(59), "frame 1 drop 1"),
        one("59_before_ingress", LENGTH, &closed, &Frame::to(A).length(59), "frame 1 drop 1"),
        one("l_counts_the_tag", LENGTH, &open(), &tagged_64, FLOODED),
    ]
}

fn tags() -> Vec<Case> {
    let drpuntag = open_with(&[(mac_configuration::DRPUNTAG, 0, 1)]);
    let no_member = open_with(&[(vlan_lookup::VMEMB_PORT, 0, 0b11110)]);
    let vlan_0 = Frame::to(A).tagged(5, 0);
    let prio_5 = "frame 1 sent 30 vlan 1 prio 5 tags 0 queues 0 5 5 5 5";
    let dei = Frame::to(A).with_tag(0x8100, 0x1001);
    let outer = Frame::to(A).with_tag(0x88A8, 0xE04D);
    // 81 00 anywhere else than at bytes 12 and 13 is no tag.
    let low_byte = Frame::to(A).with_tag(0x8101, 0x0001);
    let vlan_prio = open_with(&[(mac_configuration::VLANPRIO, 0, 3)]);
    let prio_3 = "frame 1 sent 30 vlan 1 prio 3 tags 0 queues 0 3 3 3 3";
    vec![
        one("drpuntag_drops_untagged", TAGS, &drpuntag, &Frame::to(A), "frame 1 drop 3"),
        one("drpuntag_lets_vlan_0", TAGS, &drpuntag, &vlan_0, prio_5),
        one("vlan_0_asks_membership", TAGS, &no_member, &vlan_0, "frame 1 drop 5"),
        one("untagged_asks_none", UNTAGGED, &no_member, &Frame::to(A), FLOODED),
        one(
            "tagged_asks_membership",
            TAGS,
            &no_member,
            &Frame::to(A).tagged(0, 1),
            "frame 1 drop 5",
        ),
        one("dei_is_not_read", TAGS, &open(), &dei, FLOODED),
        one("88a8_is_untagged", TAGS, &open(), &outer, FLOODED),
        one("88a8_drops_with_drpuntag", TAGS, &drpuntag, &outer, "frame 1 drop 3"),
        one("8101_is_untagged", TAGS, &drpuntag, &low_byte, "frame 1 drop 3"),
        one("untagged_takes_vlanprio", TAGS, &vlan_prio, &Frame::to(A), prio_3),
        one("vlan_0_takes_the_tags_p", TAGS, &vlan_prio, &vlan_0, prio_5),
    ]
}

fn vlan_numbers() -> Vec<Case> {
    let with_4095 = with_vlan(open(), 4095, 31, 31, 0);
    let with_0 = with_vlan(open(), 0, 31, 31, 0);
    let port_0 = with(with_0.clone(), &[(mac_configuration::VLANID, 0, 0)]);
    let port_4095 = with(with_4095.clone(), &[(mac_configuration::VLANID, 0, 4095)]);
    let of_4095 = Frame::to(A).tagged(0, 4095);
    let on_0 = "frame 1 sent 30 vlan 0 prio 0 tags 0 queues 0 0 0 0 0";
    let on_4095 = "frame 1 sent 30 vlan 4095 prio 0 tags 0 queues 0 0 0 0 0";
    vec![
        one("4095_without_entry", NUMBERS, &open(), &of_4095, "frame 1 drop 4"),
        one("4095_with_entry", NUMBERS, &with_4095, &of_4095, on_4095),
        one("port_vlan_4095", NUMBERS, &port_4095, &Frame::to(A), on_4095),
        one("port_vlan_0", NUMBERS, &port_0, &Frame::to(A), on_0),
        one("tag_0_on_port_vlan_0", NUMBERS, &port_0, &Frame::to(A).tagged(0, 0), on_0),
        one("tag_0_is_not_vlan_0", NUMBERS, &with_0, &Frame::to(A).tagged(0, 0), FLOODED),
        one("vlan_2_without_entry", NUMBERS, &open(), &Frame::to(A).tagged(0, 2), "frame 1 drop 4"),
    ]
}

/// An address on VLAN 1.
fn entry(address: u64, ports: u64, enforced: bool, index: u64) -> Address {
    Address { vlan: 1, address, ports, enforced, index }
}

fn enforced() -> Vec<Case> {
    let allows = entry(B, 0b00001, true, 1);
    let lacks = entry(B, 0b00010, true, 2);
    let other_vlan = Address { vlan: 2, ..lacks };
    let only_allows = with_address(open(), allows);
    let only_lacks = with_address(open(), lacks);
    let both = with_address(only_allows.clone(), lacks);
    let both_turned = with_address(only_lacks.clone(), allows);
    let not_enforced = with_address(open(), Address { enforced: false, ..lacks });
    let elsewhere = with_address(open(), other_vlan);
    let shared = with_shared_learn(elsewhere.clone());
    let to_a = Frame::to(A);
    let drop = "frame 1 drop 6";
    vec![
        one("enforced_port_allows", ENFORCED, &only_allows, &to_a, FLOODED),
        one("enforced_port_lacks", ENFORCED, &only_lacks, &to_a, drop),
        one("enforced_allows_then_lacks", ENFORCED, &both, &to_a, drop),
        one("enforced_lacks_then_allows", ENFORCED, &both_turned, &to_a, drop),
        one("enforced_broadcasts_too", ENFORCED, &only_lacks, &Frame::broadcast(), drop),
        one("enforced_needs_enfport", ENFORCED, &not_enforced, &to_a, FLOODED),
        one("enforced_other_vlan", ENFORCED, &elsewhere, &to_a, FLOODED),
        one("enforced_shared_learn", ENFORCED, &shared, &to_a, drop),
        one("enforced_other_source", ENFORCED, &only_lacks, &to_a.from(C), FLOODED),
    ]
}

fn destinations() -> Vec<Case> {
    let bytes_up = entry(0x0102_0304_0506, 0b00100, false, 0);
    let to_port_2 = "frame 1 sent 4 vlan 1 prio 0 tags 0 queues 0 0 0 0 0";
    let turned = Frame::to(0x0605_0403_0201);
    let as_number = with_address(open(), bytes_up);
    let enforced = with_address(open(), entry(A, 0b00100, true, 0));
    let of_broadcast = with_address(open(), entry(0xFFFF_FFFF_FFFF, 0b00100, false, 0));
    let nowhere = with_address(open(), entry(A, 0, false, 0));
    let lowest_last = with_address(
        with_address(open(), entry(A, 0b00010, false, 9)),
        entry(A, 0b00100, false, 4),
    );
    let other_vlan = with_address(open(), Address { vlan: 2, ..entry(A, 0b00100, false, 0) });
    // Multicast addresses are no broadcast: k is 8 x port + p, flooding by FL_DOMAIN.
    let multicast = Frame::to(0x0100_5E00_0001);
    let one_policing_entry = one_policing_entry();
    vec![
        one(
            "address_first_byte_highest",
            ADDRESS,
            &as_number,
            &Frame::to(0x0102_0304_0506),
            to_port_2,
        ),
        one("address_turned_is_another", ADDRESS, &as_number, &turned, FLOODED),
        one("enforced_entry_is_a_destination", DESTINATION, &enforced, &Frame::to(A), to_port_2),
        one("broadcast_entry_is_none", DESTINATION, &of_broadcast, &Frame::broadcast(), FLOODED),
        one("destports_0_is_a_match", DESTINATION, &nowhere, &Frame::to(A), "frame 1 drop 10"),
        one("lowest_index_wins", DESTINATION, &lowest_last, &Frame::to(A), to_port_2),
        one("destination_other_vlan_floods", DESTINATION, &other_vlan, &Frame::to(A), FLOODED),
        one("multicast_is_no_broadcast", DESTINATION, &one_policing_entry, &multicast, FLOODED),
        one(
            "broadcast_has_its_own_k",
            DESTINATION,
            &one_policing_entry,
            &Frame::broadcast(),
            "frame 1 drop 7",
        ),
    ]
}

/// 06 with entry 0 alone.
fn one_policing_entry() -> Lists {
    let mut lists = open();
    lists.of_mut(Table::L2Policing).truncate(1);
    lists
}

fn shared_learn() -> Vec<Case> {
    let clause = "document 01: SHARED_LEARN, its bit as in table 18 (bit 5); absent means clear";
    let other_vlan = with_address(open(), Address { vlan: 2, ..entry(A, 0b00100, false, 0) });
    let set = with_shared_learn(other_vlan.clone());
    let mut all_but_5 = other_vlan.clone();
    let number = all_but_5.push_zero(Table::L2LookupParameters);
    all_but_5.of_mut(Table::L2LookupParameters)[number][0] = 0xFFFF_FFDF;
    let mut only_5 = other_vlan.clone();
    only_5.push_zero(Table::L2LookupParameters);
    only_5.put(lookup_parameters::SHARED_LEARN, 0, 1);
    let to_port_2 = "frame 1 sent 4 vlan 1 prio 0 tags 0 queues 0 0 0 0 0";
    vec![
        one("shared_learn_absent", clause, &other_vlan, &Frame::to(A), FLOODED),
        one("shared_learn_set", clause, &set, &Frame::to(A), to_port_2),
        one("shared_learn_all_other_bits", clause, &all_but_5, &Frame::to(A), FLOODED),
        one("shared_learn_bit_5_alone", clause, &only_5, &Frame::to(A), to_port_2),
    ]
}

fn cuts() -> Vec<Case> {
    let known = with_address(open(), entry(A, 0b11110, false, 0));
    let cut = |name: &str, lists: &Lists, lines: [&str; 3]| {
        several(
            name,
            CUTS,
            lists,
            &[(0, Frame::broadcast()), (0, Frame::to(A)), (0, Frame::to(C))],
            &lines,
        )
    };
    let line = |number: u32, mask: u32| {
        format!("frame {number} sent {mask} vlan 1 prio 0 tags 0 queues 0 0 0 0 0")
    };
    let masks = |a, b, c| [line(1, a), line(2, b), line(3, c)];
    let mut cases = Vec::new();
    let changes = [
        ("vlan_bc_cuts_broadcasts_only", (vlan_lookup::VLAN_BC, 0, 0b00010), [2, 30, 30]),
        ("bc_domain_is_for_broadcasts", (forwarding::BC_DOMAIN, 0, 0b00010), [2, 30, 30]),
        ("fl_domain_is_for_unknown", (forwarding::FL_DOMAIN, 0, 0b00010), [30, 30, 2]),
        ("reach_port_cuts_all", (forwarding::REACH_PORT, 0, 0b00110), [6, 6, 6]),
        ("vmemb_port_cuts_all", (vlan_lookup::VMEMB_PORT, 0, 0b01001), [8, 8, 8]),
        ("egress_cuts_all", (mac_configuration::EGRESS, 4, 0), [14, 14, 14]),
        // Entry 1's masks are not port 0's.
        ("masks_from_entry_port", (forwarding::REACH_PORT, 1, 0), [30, 30, 30]),
    ];
    for (name, change, [a, b, c]) in changes {
        let lines = masks(a, b, c);
        let lists = with(known.clone(), &[change]);
        cases.push(cut(name, &lists, [&lines[0], &lines[1], &lines[2]]));
    }
    cases
}

fn policing_entries() -> Vec<Case> {
    let sent = FLOODED;
    let shared = |changes: &[_]| {
        let lists = open_with(&[(policing::SHARINDX, 0, 1)]);
        with(lists, changes)
    };
    let maxlen_of_k = shared(&[(policing::MAXLEN, 0, 63)]);
    let maxlen_of_shared = shared(&[(policing::MAXLEN, 1, 63)]);
    let partition_of_k = shared(&[(policing::PARTITION, 0, 3)]);
    let partition_of_shared = shared(&[(policing::PARTITION, 1, 3)]);
    let smax_of_k = shared(&[(policing::SMAX, 0, 0)]);
    let smax_of_shared = shared(&[(policing::SMAX, 1, 63)]);
    let followed_once = shared(&[(policing::SHARINDX, 1, 2), (policing::SMAX, 2, 0)]);
    let q_7 = [(forwarding::vlan_pmap(0), 0, 7)];
    let k_by_p = with(open_with(&q_7), &[(policing::MAXLEN, 7, 63)]);
    let k_not_by_q = with(open_with(&q_7), &[(policing::MAXLEN, 0, 63)]);
    let prio_7 = "frame 1 sent 30 vlan 1 prio 7 tags 0 queues 0 7 7 7 7";
    let broadcast_40 = open_with(&[(policing::MAXLEN, 40, 63)]);
    let to_a = Frame::to(A);
    vec![
        one("maxlen_is_k_s", POLICING, &maxlen_of_k, &to_a, "frame 1 drop 8"),
        one("maxlen_is_not_shared", POLICING, &maxlen_of_shared, &to_a, sent),
        one("partition_is_k_s", POLICING, &partition_of_k, &to_a, "frame 1 drop 11"),
        one("partition_is_not_shared", POLICING, &partition_of_shared, &to_a, sent),
        one("smax_is_not_k_s", POLICING, &smax_of_k, &to_a, sent),
        one("smax_is_shared", POLICING, &smax_of_shared, &to_a, "frame 1 drop 9"),
        one("shared_is_followed_once", POLICING, &followed_once, &to_a, sent),
        one("k_uses_p", POLICING, &k_by_p, &to_a, prio_7),
        one("k_uses_not_q", POLICING, &k_not_by_q, &to_a, "frame 1 drop 8"),
        one("k_of_broadcast_is_40", POLICING, &broadcast_40, &Frame::broadcast(), "frame 1 drop 8"),
        one("k_of_unicast_is_not_40", POLICING, &broadcast_40, &to_a, sent),
        one(
            "k_of_broadcast_has_no_p",
            POLICING,
            &broadcast_40,
            &Frame::broadcast().tagged(7, 1),
            "frame 1 drop 8",
        ),
    ]
}

/// k is 8 x port + p: entry 8 x 3 + 6 alone is shut.
fn priorities() -> Vec<Case> {
    let clause = "document 01, drop 7: k is 40 + port for a broadcast, else 8 x port + p";
    let shut = open_with(&[(policing::MAXLEN, 30, 63), (policing::MAXLEN, 43, 63)]);
    let list = List::new()
        .frame(3, 0, &Frame::to(A).tagged(6, 1))
        .frame(3, 0, &Frame::to(A).tagged(5, 1))
        .frame(2, 0, &Frame::to(A).tagged(6, 1))
        .frame(3, 0, &Frame::broadcast().tagged(6, 1))
        .frame(4, 0, &Frame::broadcast().tagged(6, 1));
    vec![Case::of_lists("k_is_8_port_and_p", clause, &shut).list(list).lines(&[
        "frame 1 drop 8",
        "frame 2 sent 23 vlan 1 prio 5 tags 0 queues 5 5 5 0 5",
        "frame 3 sent 27 vlan 1 prio 6 tags 0 queues 6 6 0 6 6",
        "frame 4 drop 8",
        "frame 5 sent 15 vlan 1 prio 6 tags 0 queues 6 6 6 6 0",
    ])]
}

/// SMAX and RATE of the meters of ports 0 and 1 at priority 0.
fn metered(smax: u64, rate: u64) -> Lists {
    open_with(&[
        (policing::SMAX, 0, smax),
        (policing::RATE, 0, rate),
        (policing::SMAX, 8, smax),
        (policing::RATE, 8, rate),
    ])
}

fn sent_line(number: u32) -> String {
    format!("frame {number} sent 30 vlan 1 prio 0 tags 0 queues 0 0 0 0 0")
}

/// Frames to A with L 64 at these times, under one SMAX and RATE.
fn timed(name: &str, (smax, rate): (u64, u64), times: &[u64], lines: &[&str]) -> Case {
    let frames: Vec<(u64, Frame)> = times.iter().map(|&time| (time, Frame::to(A))).collect();
    several(name, METERS, &metered(smax, rate), &frames, lines)
}

fn meters() -> Vec<Case> {
    let [first, second, third, fourth] = [1, 2, 3, 4].map(sent_line);
    let on_port_1 = "frame 2 sent 29 vlan 1 prio 0 tags 0 queues 0 0 0 0 0";
    let to_a = Frame::to(A);
    let own_time = List::new().frame(0, 0, &to_a).frame(1, 511, &to_a).frame(0, 512, &to_a);
    let long = Frame::to(A).length(61);
    let around_drop_8 = [(0, long.clone()), (0, to_a.clone()), (256, long), (512, to_a)];
    let tight = with(metered(64, 64), &[(policing::MAXLEN, 0, 64)]);
    vec![
        timed("meter_511_is_short", (64, 64), &[0, 511], &[&first, "frame 2 drop 9"]),
        timed("meter_512_reaches", (64, 64), &[0, 512], &[&first, &second]),
        timed(
            "meter_63_never",
            (63, 65_535),
            &[0, (1 << 48) - 1],
            &["frame 1 drop 9", "frame 2 drop 9"],
        ),
        // 256 millions of millionths are stored with the time 256 though the frame was short.
        timed(
            "meter_stores_when_short",
            (64, 64),
            &[0, 256, 511, 512],
            &[&first, "frame 2 drop 9", "frame 3 drop 9", &fourth],
        ),
        // The product is 61069 modulo 2^64 and the exact minimum is SMAX.
        timed("meter_passes_64_bits", (64, 65_535), &[0, 80_453_531_366_811], &[&first, &second]),
        timed(
            "meter_without_rate",
            (128, 0),
            &[0, 0, 1 << 40],
            &[&first, &second, "frame 3 drop 9"],
        ),
        Case::of_lists("meter_has_its_own_time", METERS, &metered(64, 64))
            .list(own_time)
            .lines(&[&first, on_port_1, &third]),
        // Drop 8 neither spends nor moves the meter's time.
        several(
            "drop_8_leaves_the_meter",
            METERS,
            &tight,
            &around_drop_8,
            &["frame 1 drop 8", &second, "frame 3 drop 8", &fourth],
        ),
    ]
}

fn spent() -> Vec<Case> {
    // Two frames' credit and one unit.
    let lists = with(metered(128, 0), &[(forwarding_parameters::part_spc(0), 0, 1)]);
    let at_11 = List::new().frame(0, 0, &Frame::to(A)).frame(0, 0, &Frame::to(A)).release(0).frame(
        0,
        0,
        &Frame::to(A),
    );
    let nowhere = with_address(metered(64, 0), entry(C, 0, false, 0));
    vec![
        Case::of_lists("spent_at_11", SPENT, &lists).list(at_11).lines(&[
            FLOODED,
            "frame 2 drop 11",
            "release 3 ok",
            "frame 4 drop 9",
        ]),
        several(
            "spent_at_10",
            SPENT,
            &nowhere,
            &[(0, Frame::to(C)), (0, Frame::to(A))],
            &["frame 1 drop 10", "frame 2 drop 9"],
        ),
    ]
}

/// Two drops apply; the first is the verdict.
fn order() -> Vec<Case> {
    let to_a = || Frame::to(A);
    let closed = [(mac_configuration::INGRESS, 0, 0), (mac_configuration::DRPUNTAG, 0, 1)];
    let lacks = with_address(open(), entry(B, 0b00010, true, 2));
    let lacks_untagged = with(lacks.clone(), &[(mac_configuration::DRPUNTAG, 0, 1)]);
    let lacks_member = with(lacks.clone(), &[(vlan_lookup::VMEMB_PORT, 0, 0b11110)]);
    let mut lacks_policing = lacks.clone();
    lacks_policing.of_mut(Table::L2Policing).truncate(1);
    let lacks_maxlen = with(lacks.clone(), &[(policing::MAXLEN, 0, 63)]);
    let lacks_2 = with_address(open(), Address { vlan: 2, ..entry(B, 0b00010, true, 2) });
    let shared_6 = with_shared_learn(lacks_2);
    let mut shut = one_policing_entry();
    shut.put(forwarding::REACH_PORT, 0, 0);
    let long_and_poor = open_with(&[(policing::MAXLEN, 0, 63), (policing::SMAX, 0, 0)]);
    let poor_and_shut = open_with(&[(policing::SMAX, 0, 0), (forwarding::REACH_PORT, 0, 0)]);
    let no_units = [(forwarding_parameters::part_spc(0), 0, 0)];
    let poor_and_full = with(open_with(&no_units), &[(policing::SMAX, 0, 0)]);
    let shut_and_full = with(open_with(&no_units), &[(forwarding::REACH_PORT, 0, 0)]);
    let (tagged_1, tagged_2) = (to_a().tagged(0, 1), to_a().tagged(0, 2));
    vec![
        one("2_before_3", ORDER, &open_with(&closed), &to_a(), "frame 1 drop 2"),
        one("3_before_6", ORDER, &lacks_untagged, &to_a(), "frame 1 drop 3"),
        one("4_before_6", ORDER, &shared_6, &tagged_2, "frame 1 drop 4"),
        one("5_before_6", ORDER, &lacks_member, &tagged_1, "frame 1 drop 5"),
        one("6_before_7", ORDER, &lacks_policing, &Frame::broadcast(), "frame 1 drop 6"),
        one("6_before_8", ORDER, &lacks_maxlen, &to_a(), "frame 1 drop 6"),
        one("7_before_10", ORDER, &shut, &Frame::broadcast(), "frame 1 drop 7"),
        one("8_before_9", ORDER, &long_and_poor, &to_a(), "frame 1 drop 8"),
        one("9_before_10", ORDER, &poor_and_shut, &to_a(), "frame 1 drop 9"),
        one("9_before_11", ORDER, &poor_and_full, &to_a(), "frame 1 drop 9"),
        one("10_before_11", ORDER, &shut_and_full, &to_a(), "frame 1 drop 10"),
        one("11_last", ORDER, &open_with(&no_units), &to_a(), "frame 1 drop 11"),
    ]
}

fn times() -> Vec<Case> {
    let to_a = Frame::to(A);
    let (first, second, third) = (sent_line(1), sent_line(2), sent_line(3));
    let long = vec![0; 4097];
    vec![
        Case::of_lists("equal_times", TIMES, &open())
            .list(List::new().frame(0, 10, &to_a).frame(0, 10, &to_a))
            .lines(&[&first, &second]),
        Case::of_lists("earlier_is_34", TIMES, &open())
            .list(List::new().frame(0, 10, &to_a).frame(0, 9, &to_a).frame(0, 10, &to_a))
            .lines(&[&first, "refused 34", &third]),
        Case::of_lists("refused_sets_no_time", TIMES, &open())
            .list(List::new().frame(5, 100, &to_a).frame_of(0, 100, &long).frame(0, 50, &to_a))
            .lines(&["refused 33", "refused 35", &third]),
        Case::of_lists("a_drop_sets_the_time", TIMES, &open())
            .list(List::new().frame_of(0, 100, &[]).frame(1, 99, &to_a).frame(0, 100, &to_a))
            .lines(&["frame 1 drop 1", "refused 34", &third]),
        Case::of_lists("a_release_sets_no_time", TIMES, &open())
            .list(List::new().frame(0, 10, &to_a).release(0).frame(0, 10, &to_a))
            .lines(&[&first, "release 2 ok", &third]),
    ]
}

fn queues_and_tags() -> Vec<Case> {
    // Port 0's priority 2 becomes 3, and entry 5 + 3 gives output e the queue 7 - e.
    let mut lists =
        open_with(&[(forwarding::vlan_pmap(2), 0, 3), (vlan_lookup::TAG_PORT, 0, 0b10111)]);
    for output in 0..5 {
        let queue = 7 - output as u64;
        lists.put(forwarding::vlan_pmap(output), 8, queue);
    }
    let wide = open_with(&[
        (forwarding::BC_DOMAIN, 0, 31),
        (forwarding::FL_DOMAIN, 0, 31),
        (forwarding::REACH_PORT, 0, 31),
    ]);
    let narrow = with(lists.clone(), &[(forwarding::FL_DOMAIN, 0, 0b01100)]);
    let frame = Frame::to(A).tagged(2, 1);
    vec![
        one(
            "queues_from_entry_5_and_q",
            PORTS,
            &lists,
            &frame,
            "frame 1 sent 30 vlan 1 prio 3 tags 22 queues 0 6 5 4 3",
        ),
        one(
            "queues_0_where_not_sent",
            PORTS,
            &narrow,
            &frame,
            "frame 1 sent 12 vlan 1 prio 3 tags 4 queues 0 0 5 4 0",
        ),
        one("reception_port_taken_out", PORTS, &wide, &Frame::to(A), FLOODED),
        one("reception_port_of_broadcast", PORTS, &wide, &Frame::broadcast(), FLOODED),
    ]
}
