//! Named cases of replicas: which frames have them, what each does, and in which order.
//! Unless said otherwise: K with 100 units, VLAN 2 for all ports with tags, one retagging entry for
//! port 0 from VLAN 1 to VLAN 2, and an untagged broadcast of 60 bytes (L 64) from B on port 0.

use reference::stream::Lists;
use reference::tables::{forwarding, forwarding_parameters, mac_configuration, policing};
use reference::tables::{vlan_lookup, Field, Table};

use crate::build::{open, with, with_address, with_retagging, with_shared_learn, with_vlan};
use crate::build::{Address, Frame, List, A, B};
use crate::case::{Case, Expect};

const MATCH: &str = "document 02, request 2: on a VLAN and port named by an entry";
const MANY: &str = "document 02, request 2: several act in table order, none is replicated";
const PAST_6: &str = "document 02, request 2: a frame that gets past drop 6";
const STEPS: &str = "document 02, request 2: it runs steps 4 and 7 to 11";
const PORTS: &str = "document 01, Ports, on the replica's VLAN";
const PRIORITY: &str = "document 02, request 2: it keeps the frame's priority";
const LEDGER: &str = "document 02, request 2: its own verdict, right after the original's";
const TILES: &str = "document 02, request 2: tiles count originals only";
const LINES: &str = "document 02, request 2: a line like a frame's that starts with `replica`";

pub fn cases() -> Vec<Case> {
    let mut cases = Vec::new();
    cases.extend(matches());
    cases.extend(vlan_numbers());
    cases.extend(many());
    cases.extend(past_drop_6());
    cases.extend(not_past_drop_6());
    cases.extend(steps_not_run());
    cases.extend(ports());
    cases.extend(priorities());
    cases.extend(units());
    cases.extend(meters());
    cases.extend(tiles());
    cases.extend(records());
    cases
}

/// K with 100 units and VLAN 2 for all ports, with tags.
fn two_vlans() -> Lists {
    with_vlan(open(), 2, 31, 31, 31)
}

/// The configuration of most cases.
fn retagged() -> Lists {
    with_retagging(two_vlans(), 0b00001, 1, 2)
}

/// What is sent to these ports with new priority q: in K that is the queue at each of them.
fn sent(what: &str, number: usize, ports: u64, vlan: u64, q: u64, tags: u64) -> String {
    let mut line = format!("{what} {number} sent {ports} vlan {vlan} prio {q} tags {tags} queues");
    for output in 0..5 {
        line.push_str(&format!(" {}", (ports >> output & 1) * q));
    }
    line
}

fn frame(number: usize) -> String {
    sent("frame", number, 30, 1, 0, 0)
}

fn replica(number: usize) -> String {
    sent("replica", number, 30, 2, 0, 30)
}

fn dropped(what: &str, number: usize, drop: u32) -> String {
    format!("{what} {number} drop {drop}")
}

fn listed(name: &str, clause: &'static str, lists: &Lists, list: List, lines: &[String]) -> Case {
    Case::of_lists(name, clause, lists).list(list).expecting(Expect::Lines(lines.to_vec()))
}

/// One frame on port 0 at time 0.
fn one(name: &str, clause: &'static str, lists: &Lists, of: &Frame, lines: &[String]) -> Case {
    listed(name, clause, lists, List::new().frame(0, 0, of), lines)
}

fn matches() -> Vec<Case> {
    let elsewhere = with_retagging(two_vlans(), 0b11110, 1, 2);
    let nowhere = with_retagging(two_vlans(), 0, 1, 2);
    let everywhere = with_retagging(two_vlans(), 31, 1, 2);
    let port_4 = with_retagging(two_vlans(), 0b10000, 1, 2);
    let back = with_retagging(two_vlans(), 0b00001, 2, 1);
    let broadcast = Frame::broadcast();
    let on_2 = sent("frame", 1, 30, 2, 0, 30);
    let tagged = |priority, vlan| Frame::broadcast().tagged(priority, vlan);
    let of_each_port = (0..5).fold(List::new(), |list, port| list.frame(port, 0, &broadcast));
    let frame_on = |port: usize| sent("frame", port + 1, 31 & !(1 << port), 1, 0, 0);
    let replica_on =
        |port: usize| sent("replica", port + 1, 31 & !(1 << port), 2, 0, 31 & !(1 << port));
    let all: Vec<String> = (0..5).flat_map(|port| [frame_on(port), replica_on(port)]).collect();
    let mut last: Vec<String> = (0..5).map(frame_on).collect();
    last.push(replica_on(4));
    let mut but_first: Vec<String> = all.clone();
    but_first.remove(1);
    vec![
        one("replica_no_entry", MATCH, &two_vlans(), &broadcast, &[frame(1)]),
        one("replica_untagged", MATCH, &retagged(), &broadcast, &[frame(1), replica(1)]),
        one("replica_tag_0", MATCH, &retagged(), &tagged(0, 0), &[frame(1), replica(1)]),
        one("replica_tagged", MATCH, &retagged(), &tagged(0, 1), &[frame(1), replica(1)]),
        // The port's VLANID is 1, the frame's VLAN is 2.
        one(
            "replica_tagged_elsewhere",
            MATCH,
            &retagged(),
            &tagged(0, 2),
            std::slice::from_ref(&on_2),
        ),
        one(
            "replica_tagged_from_elsewhere",
            MATCH,
            &back,
            &tagged(0, 2),
            &[on_2, sent("replica", 1, 30, 1, 0, 0)],
        ),
        one("replica_untagged_from_elsewhere", MATCH, &back, &broadcast, &[frame(1)]),
        one("replica_port_not_named", MATCH, &elsewhere, &broadcast, &[frame(1)]),
        one("replica_no_port_named", MATCH, &nowhere, &broadcast, &[frame(1)]),
        listed("replica_on_each_port", MATCH, &everywhere, of_each_port.clone(), &all),
        listed("replica_on_port_4_alone", MATCH, &port_4, of_each_port.clone(), &last),
        listed("replica_on_all_but_port_0", MATCH, &elsewhere, of_each_port, &but_first),
    ]
}

fn vlan_numbers() -> Vec<Case> {
    let clause = "decisions, Frames: VLAN 4095 and VLAN 0 are ordinary numbers";
    let broadcast = Frame::broadcast();
    let mut cases = Vec::new();
    for vlan in [0, 4095] {
        let known = with_vlan(open(), vlan, 31, 31, 2);
        let to = with_retagging(known.clone(), 1, 1, vlan);
        let from = with_retagging(known, 1, vlan, 1);
        let from = with(from, &[(mac_configuration::VLANID, 0, vlan)]);
        let original = sent("frame", 1, 30, vlan, 0, 2);
        let copy = sent("replica", 1, 30, vlan, 0, 2);
        let copy_on_1 = sent("replica", 1, 30, 1, 0, 0);
        cases.push(one(&format!("replica_to_{vlan}"), clause, &to, &broadcast, &[frame(1), copy]));
        cases.push(one(
            &format!("replica_from_{vlan}"),
            clause,
            &from,
            &broadcast,
            &[original, copy_on_1],
        ));
    }
    cases
}

/// VLANs 100 to 131 with an entry each from VLAN 1, in this order of their last two digits.
fn fan(order: &[u64]) -> Lists {
    let mut lists = open();
    for &digits in order {
        lists = with_vlan(lists, 100 + digits, 31, 31, 0);
        lists = with_retagging(lists, 1, 1, 100 + digits);
    }
    lists
}

fn many() -> Vec<Case> {
    let broadcast = Frame::broadcast();
    let of = |order: &[u64]| {
        let mut lines = vec![frame(1)];
        lines.extend(order.iter().map(|digits| sent("replica", 1, 30, 100 + digits, 0, 0)));
        lines
    };
    // No order of VLANs: a shuffle of 0 to 31.
    let all: Vec<u64> = (0..32).map(|turn| turn * 11 % 32).collect();
    let twins = with_retagging(retagged(), 1, 1, 2);
    let itself = with_retagging(open(), 1, 1, 1);
    let onward = with_retagging(with_retagging(retagged(), 1, 2, 1), 1, 2, 2);
    let between = with_retagging(with_retagging(retagged(), 1, 2, 1), 1, 1, 1);
    let others = (0..31).fold(two_vlans(), |lists, _| with_retagging(lists, 31, 2, 1));
    let last_of_32 = with_retagging(others, 1, 1, 2);
    vec![
        one("replicas_1", MANY, &fan(&[3]), &broadcast, &of(&[3])),
        one("replicas_2", MANY, &fan(&[3, 8]), &broadcast, &of(&[3, 8])),
        one("replicas_2_turned", MANY, &fan(&[8, 3]), &broadcast, &of(&[8, 3])),
        one("replicas_31", MANY, &fan(&all[..31]), &broadcast, &of(&all[..31])),
        one("replicas_32", MANY, &fan(&all), &broadcast, &of(&all)),
        one("replica_of_the_last_entry", MANY, &last_of_32, &broadcast, &[frame(1), replica(1)]),
        one("replicas_alike", MANY, &twins, &broadcast, &[frame(1), replica(1), replica(1)]),
        one(
            "replica_on_its_own_vlan",
            MANY,
            &itself,
            &broadcast,
            &[frame(1), sent("replica", 1, 30, 1, 0, 0)],
        ),
        one("replica_is_not_replicated", MANY, &onward, &broadcast, &[frame(1), replica(1)]),
        one(
            "replica_past_another_entry",
            MANY,
            &between,
            &broadcast,
            &[frame(1), replica(1), sent("replica", 1, 30, 1, 0, 0)],
        ),
    ]
}

/// Dropped at 7 to 11, a frame has its replicas all the same.
fn past_drop_6() -> Vec<Case> {
    let broadcast = Frame::broadcast();
    let changed = |changes: &[_]| with(retagged(), changes);
    let mut one_policing_entry = retagged();
    one_policing_entry.of_mut(Table::L2Policing).truncate(1);
    let both = |drop| [dropped("frame", 1, drop), dropped("replica", 1, drop)];
    let no_bc = changed(&[(vlan_lookup::VLAN_BC, 0, 0)]);
    let no_units = changed(&[(forwarding_parameters::part_spc(0), 0, 0)]);
    let allowed = with_address(retagged(), enforced(1, 0b00001));
    vec![
        one("replica_of_drop_7", PAST_6, &one_policing_entry, &broadcast, &both(7)),
        one(
            "replica_of_drop_8",
            PAST_6,
            &changed(&[(policing::MAXLEN, 40, 63)]),
            &broadcast,
            &both(8),
        ),
        one(
            "replica_of_drop_9",
            PAST_6,
            &changed(&[(policing::SMAX, 40, 63)]),
            &broadcast,
            &both(9),
        ),
        one(
            "replica_of_drop_10",
            PAST_6,
            &no_bc,
            &broadcast,
            &[dropped("frame", 1, 10), replica(1)],
        ),
        one("replica_of_drop_11", PAST_6, &no_units, &broadcast, &both(11)),
        one("replica_of_not_6", PAST_6, &allowed, &broadcast, &[frame(1), replica(1)]),
    ]
}

/// B as a source on a VLAN, from these ports only.
fn enforced(vlan: u64, ports: u64) -> Address {
    Address { vlan, address: B, ports, enforced: true, index: 0 }
}

/// Dropped at 1 to 6 (4 only without an entry, as 28 wants), a frame has none.
fn not_past_drop_6() -> Vec<Case> {
    let broadcast = Frame::broadcast();
    let changed = |changes: &[_]| with(retagged(), changes);
    let alone = |name, lists: &Lists, of: &Frame, drop| {
        one(name, PAST_6, lists, of, &[dropped("frame", 1, drop)])
    };
    let lacking = with_address(retagged(), enforced(1, 0b11110));
    let not_member = changed(&[(vlan_lookup::VMEMB_PORT, 0, 0b11110)]);
    vec![
        alone("no_replica_of_drop_1", &retagged(), &Frame::broadcast().length(59), 1),
        alone(
            "no_replica_of_drop_2",
            &changed(&[(mac_configuration::INGRESS, 0, 0)]),
            &broadcast,
            2,
        ),
        alone(
            "no_replica_of_drop_3",
            &changed(&[(mac_configuration::DRPUNTAG, 0, 1)]),
            &broadcast,
            3,
        ),
        alone("no_replica_of_drop_4", &retagged(), &Frame::broadcast().tagged(0, 3), 4),
        alone("no_replica_of_drop_5", &not_member, &Frame::broadcast().tagged(0, 1), 5),
        alone("no_replica_of_drop_6", &lacking, &broadcast, 6),
    ]
}

/// Steps 1, 2, 3, 5 and 6 are the frame's alone.
fn steps_not_run() -> Vec<Case> {
    let both = [frame(1), replica(1)];
    let tagged = Frame::broadcast().tagged(0, 1);
    let others = with_retagging(with_vlan(open(), 2, 0b11110, 31, 31), 1, 1, 2);
    let drpuntag = with(retagged(), &[(mac_configuration::DRPUNTAG, 0, 1)]);
    let lacking = with_address(retagged(), enforced(2, 0b11110));
    let maxlen_64 = with(retagged(), &[(policing::MAXLEN, 40, 64), (policing::SMAX, 40, 128)]);
    vec![
        one("replica_not_asked_5", STEPS, &others, &tagged, &both),
        one("replica_not_asked_5_untagged", STEPS, &others, &Frame::broadcast(), &both),
        one("replica_not_asked_3", STEPS, &drpuntag, &tagged, &both),
        one("replica_not_asked_6", STEPS, &lacking, &Frame::broadcast(), &both),
        // L is the frame's own, though the replica goes out with a tag: 64 and twice 64, no more.
        one("replica_has_the_frames_l", STEPS, &maxlen_64, &Frame::broadcast(), &both),
    ]
}

fn ports() -> Vec<Case> {
    let broadcast = Frame::broadcast();
    let to_a = Frame::to(A);
    let vlan_2 = |members, broadcast, tags| {
        with_retagging(with_vlan(open(), 2, members, broadcast, tags), 1, 1, 2)
    };
    let at = |vlan, ports| {
        with_address(retagged(), Address { vlan, address: A, ports, enforced: false, index: 0 })
    };
    let copy = |ports, tags| [frame(1), sent("replica", 1, ports, 2, 0, tags)];
    let changed = |changes: &[_]| with(retagged(), changes);
    let both = |ports| [sent("frame", 1, ports, 1, 0, 0), sent("replica", 1, ports, 2, 0, ports)];
    let wide = changed(&[(forwarding::BC_DOMAIN, 0, 31), (forwarding::REACH_PORT, 0, 31)]);
    vec![
        one("replica_by_vlan_bc", PORTS, &vlan_2(31, 0b00110, 31), &broadcast, &copy(6, 6)),
        one("replica_vlan_bc_cuts_no_unicast", PORTS, &vlan_2(31, 0, 31), &to_a, &copy(30, 30)),
        one("replica_by_vmemb_port", PORTS, &vlan_2(0b10011, 31, 31), &broadcast, &copy(18, 18)),
        one(
            "replica_without_members",
            PORTS,
            &vlan_2(0, 31, 31),
            &broadcast,
            &[frame(1), dropped("replica", 1, 10)],
        ),
        one(
            "replica_back_to_its_port_alone",
            PORTS,
            &vlan_2(0b00001, 31, 31),
            &broadcast,
            &[frame(1), dropped("replica", 1, 10)],
        ),
        one("replica_by_tag_port", PORTS, &vlan_2(31, 31, 0b01011), &broadcast, &copy(30, 10)),
        one("replica_without_tags", PORTS, &vlan_2(31, 31, 0), &broadcast, &copy(30, 0)),
        one("replica_match_on_its_vlan", PORTS, &at(2, 0b01000), &to_a, &copy(8, 8)),
        one(
            "replica_match_on_the_frames_vlan",
            PORTS,
            &at(1, 0b01000),
            &to_a,
            &[sent("frame", 1, 8, 1, 0, 0), replica(1)],
        ),
        one("replica_shared_learn", PORTS, &with_shared_learn(at(2, 0b01000)), &to_a, &both(8)),
        one("replica_shared_learn_any", PORTS, &with_shared_learn(at(9, 0b01000)), &to_a, &both(8)),
        one(
            "replica_match_of_no_ports",
            PORTS,
            &at(2, 0),
            &to_a,
            &[frame(1), dropped("replica", 1, 10)],
        ),
        one(
            "replica_floods",
            PORTS,
            &changed(&[(forwarding::FL_DOMAIN, 0, 0b00100)]),
            &to_a,
            &both(4),
        ),
        one(
            "replica_by_bc_domain",
            PORTS,
            &changed(&[(forwarding::BC_DOMAIN, 0, 0b00100)]),
            &broadcast,
            &both(4),
        ),
        one(
            "replica_by_reach_port",
            PORTS,
            &changed(&[(forwarding::REACH_PORT, 0, 0b11000)]),
            &broadcast,
            &both(24),
        ),
        one(
            "replica_by_egress",
            PORTS,
            &changed(&[(mac_configuration::EGRESS, 3, 0)]),
            &broadcast,
            &both(22),
        ),
        one("replica_not_back_to_its_port", PORTS, &wide, &broadcast, &both(30)),
    ]
}

/// Priority p is the frame's; q is VLAN_PMAP(p), not mapped a second time.
fn priorities() -> Vec<Case> {
    let to_a = |priority, vlan| Frame::to(A).tagged(priority, vlan);
    let prio = |q| [sent("frame", 1, 30, 1, q, 0), sent("replica", 1, 30, 2, q, 30)];
    // 2 becomes 5, 5 becomes 7.
    let mapped =
        with(retagged(), &[(forwarding::vlan_pmap(2), 0, 5), (forwarding::vlan_pmap(5), 0, 7)]);
    let only = |number| {
        let others: Vec<usize> = (0..45).filter(|&entry| entry != number).collect();
        let shut: Vec<_> = others.iter().map(|&entry| (policing::MAXLEN, entry, 63)).collect();
        with(mapped.clone(), &shut)
    };
    let vlanprio = with(mapped.clone(), &[(mac_configuration::VLANPRIO, 0, 2)]);
    let shut_at_q = with(mapped.clone(), &[(policing::MAXLEN, 5, 63)]);
    let other_partition = with(mapped.clone(), &[(policing::PARTITION, 5, 3)]);
    vec![
        one("replica_keeps_p", PRIORITY, &mapped, &to_a(2, 1), &prio(5)),
        one("replica_keeps_p_of_tag_0", PRIORITY, &vlanprio, &to_a(5, 0), &prio(7)),
        one("replica_keeps_vlanprio", PRIORITY, &vlanprio, &Frame::to(A), &prio(5)),
        one("replica_policed_by_p", PRIORITY, &only(2), &to_a(2, 1), &prio(5)),
        one("replica_not_policed_by_q", PRIORITY, &shut_at_q, &to_a(2, 1), &prio(5)),
        one("replica_partition_by_p", PRIORITY, &other_partition, &to_a(2, 1), &prio(5)),
        one(
            "replica_broadcast_has_its_own_k",
            PRIORITY,
            &only(40),
            &Frame::broadcast().tagged(2, 1),
            &prio(5),
        ),
    ]
}

/// VLANs 3 and 2, in this order of the retagging entries.
fn three_then_two(changes: &[(Field, usize, u64)]) -> Lists {
    let lists = with_vlan(two_vlans(), 3, 31, 31, 0);
    let lists = with_retagging(with_retagging(lists, 1, 1, 3), 1, 1, 2);
    with(lists, changes)
}

fn on_3(number: usize) -> String {
    sent("replica", number, 30, 3, 0, 0)
}

/// Units run out between a frame and its replicas, and come back one by one.
fn units() -> Vec<Case> {
    let broadcast = Frame::broadcast();
    let of_0 = |units| (forwarding_parameters::part_spc(0), 0, units);
    let no = |number| dropped("replica", number, 11);
    let case = |name, lists: &Lists, lines: &[String]| one(name, LEDGER, lists, &broadcast, lines);
    let no_bc = (vlan_lookup::VLAN_BC, 0, 0);
    let twice = List::new().frame(0, 0, &broadcast).frame(0, 0, &broadcast);
    let released = twice.clone().release(0).release(0).release(0).release(0).release(0);
    let own_partition = with(
        retagged(),
        &[(policing::PARTITION, 40, 6), (forwarding_parameters::part_spc(6), 0, 1), of_0(0)],
    );
    vec![
        case("units_2_for_three", &three_then_two(&[of_0(2)]), &[frame(1), on_3(1), no(1)]),
        case("units_3_for_three", &three_then_two(&[of_0(3)]), &[frame(1), on_3(1), replica(1)]),
        case("units_1_for_three", &three_then_two(&[of_0(1)]), &[frame(1), no(1), no(1)]),
        case("units_1_for_two", &with(retagged(), &[of_0(1)]), &[frame(1), no(1)]),
        case("units_2_for_two", &with(retagged(), &[of_0(2)]), &[frame(1), replica(1)]),
        // The frame takes none at drop 10, nor does a replica.
        case(
            "units_left_by_a_dropped_frame",
            &three_then_two(&[of_0(1), no_bc]),
            &[dropped("frame", 1, 10), on_3(1), no(1)],
        ),
        case(
            "units_left_by_a_dropped_replica",
            &three_then_two(&[of_0(2), (vlan_lookup::VLAN_BC, 2, 0)]),
            &[frame(1), dropped("replica", 1, 10), replica(1)],
        ),
        case("units_of_the_frames_partition", &own_partition, &[frame(1), no(1)]),
        listed(
            "units_of_replicas_come_back",
            LEDGER,
            &with(retagged(), &[of_0(4)]),
            released,
            &[
                frame(1),
                replica(1),
                frame(2),
                replica(2),
                "release 3 ok".to_string(),
                "release 4 ok".to_string(),
                "release 5 ok".to_string(),
                "release 6 ok".to_string(),
                "refused 37".to_string(),
            ],
        ),
        listed(
            "units_of_the_next_frame",
            LEDGER,
            &with(retagged(), &[of_0(3)]),
            twice,
            &[frame(1), replica(1), frame(2), no(2)],
        ),
    ]
}

/// Credit runs out between a frame and its replicas: no time passes between them.
fn meters() -> Vec<Case> {
    let broadcast = Frame::broadcast();
    let meter = |smax, rate| [(policing::SMAX, 40, smax), (policing::RATE, 40, rate)];
    let short = |number| dropped("replica", number, 9);
    let of_two = |smax, rate| with(retagged(), &meter(smax, rate));
    let of_three = |smax, rate| three_then_two(&meter(smax, rate));
    let case = |name, lists: &Lists, lines: &[String]| one(name, LEDGER, lists, &broadcast, lines);
    let at = |times: &[u64]| {
        times.iter().fold(List::new(), |list, &time| list.frame(0, time, &broadcast))
    };
    let no_bc_3 = with(of_three(128, 0), &[(vlan_lookup::VLAN_BC, 2, 0)]);
    let no_units = with(of_three(192, 0), &[(forwarding_parameters::part_spc(0), 0, 1)]);
    let shared = with(of_two(65_535, 0), &[(policing::SHARINDX, 40, 9), (policing::SMAX, 9, 127)]);
    vec![
        case("credit_for_one_of_two", &of_two(127, 65_535), &[frame(1), short(1)]),
        case("credit_for_two_of_two", &of_two(128, 0), &[frame(1), replica(1)]),
        case("credit_for_two_of_three", &of_three(191, 65_535), &[frame(1), on_3(1), short(1)]),
        case("credit_for_three_of_three", &of_three(192, 0), &[frame(1), on_3(1), replica(1)]),
        case("credit_of_the_shared_meter", &shared, &[frame(1), short(1)]),
        // Spent credit stays spent at a replica's 10 and 11.
        case(
            "credit_spent_at_a_replicas_10",
            &no_bc_3,
            &[frame(1), dropped("replica", 1, 10), short(1)],
        ),
        listed(
            "credit_spent_at_a_replicas_11",
            LEDGER,
            &no_units,
            at(&[0, 0]),
            &[
                frame(1),
                dropped("replica", 1, 11),
                dropped("replica", 1, 11),
                dropped("frame", 2, 9),
                short(2),
                short(2),
            ],
        ),
        // A replica's spending is stored: the next frame finds what it left. RATE 64 pays 64 bytes in
        // 512 microseconds.
        listed(
            "credit_left_by_a_replica",
            LEDGER,
            &of_two(128, 64),
            at(&[0, 511, 512, 1536]),
            &[
                frame(1),
                replica(1),
                dropped("frame", 2, 9),
                short(2),
                frame(3),
                short(3),
                frame(4),
                replica(4),
            ],
        ),
        // A short replica leaves its credit: 63 bytes' and, 8 microseconds later, one more.
        listed(
            "credit_left_by_a_short_replica",
            LEDGER,
            &of_two(127, 64),
            at(&[0, 8]),
            &[frame(1), short(1), frame(2), short(2)],
        ),
    ]
}

/// A tile has the frames: here one of two is dropped, and both replicas are otherwise.
fn tiles() -> Vec<Case> {
    let broadcast = Frame::broadcast();
    let two = List::new().frame(0, 0, &broadcast).frame(0, 0, &Frame::broadcast().length(59));
    let with_dropped = with_retagging(with_vlan(open(), 2, 0, 0, 0), 1, 1, 2);
    // 63 of 64 + 63 octets.
    let output = |line: &str| {
        format!(
            "\
config loaded
frame 1 sent 30 vlan 1 prio 0 tags 0 queues 0 0 0 0 0
{line}
frame 2 drop 1
tile 0 frames 2 drops 1 share 3fe0000000000000 octets {:016x}
tile 1 no-frames
tile 2 no-frames
tile 3 no-frames
tile 4 no-frames
",
            crate::named_program::nearest_share(63, 127)
        )
    };
    let of_drop_10 = "\
config loaded
frame 1 drop 10
replica 1 sent 30 vlan 2 prio 0 tags 30 queues 0 0 0 0 0
tile 0 frames 1 drops 1 share 3ff0000000000000 octets 3ff0000000000000
tile 1 no-frames
tile 2 no-frames
tile 3 no-frames
tile 4 no-frames
";
    let no_bc = with(retagged(), &[(vlan_lookup::VLAN_BC, 0, 0)]);
    vec![
        Case::of_lists("tile_without_sent_replicas", TILES, &retagged())
            .list(two.clone())
            .output(&output(&replica(1))),
        Case::of_lists("tile_without_dropped_replicas", TILES, &with_dropped)
            .list(two)
            .output(&output(&dropped("replica", 1, 10))),
        Case::of_lists("tile_of_a_frame_with_a_sent_replica", TILES, &no_bc)
            .list(List::new().frame(0, 0, &broadcast))
            .output(of_drop_10),
    ]
}

/// A replica's line stands right behind its frame's, with the record's number.
fn records() -> Vec<Case> {
    let broadcast = Frame::broadcast();
    let numbered = List::new()
        .release(0)
        .frame(5, 0, &broadcast)
        .frame(0, 0, &broadcast)
        .release(0)
        .frame(1, 0, &broadcast)
        .frame(0, 0, &broadcast);
    let refused = List::new()
        .frame(0, 7, &broadcast)
        .frame(0, 6, &broadcast)
        .frame_of(0, 7, &vec![0xFF; 4097])
        .frame(0, 7, &broadcast);
    let line = |text: &str| text.to_string();
    // All bits that are not read are set: EGR_PORT, USE_DEST_PORTS, DESTPORTS and the rest.
    let mut unread = retagged();
    unread.of_mut(Table::Retagging)[0] = vec![0xBFFF_FFFF, 0xF840_0400];
    vec![
        listed(
            "replica_lines_count_records",
            LINES,
            &retagged(),
            numbered,
            &[
                line("refused 37"),
                line("refused 33"),
                frame(3),
                replica(3),
                line("release 4 ok"),
                sent("frame", 5, 29, 1, 0, 0),
                frame(6),
                replica(6),
            ],
        ),
        listed(
            "no_replica_of_a_refused_frame",
            LINES,
            &retagged(),
            refused,
            &[frame(1), replica(1), line("refused 34"), line("refused 35"), frame(4), replica(4)],
        ),
        one("replica_other_bits_are_not_read", LINES, &unread, &broadcast, &[frame(1), replica(1)]),
        Case::of_lists("replica_before_list_refused", LINES, &retagged())
            .list(List::new().frame(0, 0, &broadcast).raw(&[1]))
            .lines(&[&frame(1), &replica(1), "list refused 52"]),
    ]
}
