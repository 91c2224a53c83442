//! Boundaries of replicas: whether an entry matches, and where a replica is dropped and its frame is not.

use reference::stream::Lists;
use reference::tables::{forwarding, forwarding_parameters, policing};

use crate::boundary_records::{flooded, listed};
use crate::build::{open, with, with_retagging, with_vlan, Frame, List, A};
use crate::case::Case;
use crate::rng::Rng;

pub fn cases(rng: &mut Rng) -> Vec<Case> {
    let mut cases = matches(rng);
    cases.extend(ports(rng));
    cases.extend(spent(rng));
    cases
}

/// What `open` does with a replica of an unknown unicast.
fn replica(number: usize, port: u8, vlan: u64, q: u16) -> String {
    flooded(number, port, vlan, q).replacen("frame", "replica", 1)
}

/// A port, and a VLAN that is neither 0 nor 1.
fn port_and_vlan(rng: &mut Rng) -> (u8, u64) {
    (rng.below(5) as u8, rng.between(2, 4095))
}

/// The entry's VLAN and the frame's are one, or one bit apart; the entry has the port, or lacks it.
fn matches(rng: &mut Rng) -> Vec<Case> {
    let (port, vlan) = port_and_vlan(rng);
    let q = rng.below(8) as u16;
    // Not VLAN 1, which is there already.
    let near = vlan ^ (1 << rng.between(1, 11));
    let near = if near == 1 { 0 } else { near };
    let other_ports = rng.below(32);
    let known = with_vlan(with_vlan(open(), vlan, 31, 31, 0), near, 31, 31, 0);
    let entry = |ports, vlan| with_retagging(known.clone(), ports, vlan, 1);
    let frame = Frame::to(A).tagged(q, vlan as u16);
    let original = flooded(1, port, vlan, q);
    let both = [original.clone(), replica(1, port, 1, q)];
    let (has, lacks) = (other_ports | 1 << port, other_ports & !(1 << port));
    let case = |name, lists: &Lists, lines: &[String]| {
        listed(name, lists, List::new().frame(port, 0, &frame), lines)
    };
    let alone = std::slice::from_ref(&original);
    vec![
        case("vlan_ing_is_its_vlan", &entry(31, vlan), &both).passes("replica VLAN_ING"),
        case("vlan_ing_is_near", &entry(31, near), alone).beyond("replica VLAN_ING"),
        case("ing_port_has_it", &entry(has, vlan), &both).passes("replica ING_PORT"),
        case("ing_port_lacks_it", &entry(lacks, vlan), alone).beyond("replica ING_PORT"),
    ]
}

/// One port is left to the replica, or none: a broadcast, so that VLAN_BC cuts it too.
fn ports(rng: &mut Rng) -> Vec<Case> {
    let (port, vlan) = port_and_vlan(rng);
    let output = (port + 1 + rng.below(4) as u8) % 5;
    let (mask, others) = (1 << output, 31 & !(1 << output));
    let lists = |members, broadcast| {
        let lists = with_vlan(open(), vlan, members, broadcast, 0);
        let lists = with(lists, &[(forwarding::REACH_PORT, usize::from(port), mask)]);
        with_retagging(lists, 1 << port, 1, vlan)
    };
    let line =
        |what, vlan| format!("{what} 1 sent {mask} vlan {vlan} prio 0 tags 0 queues 0 0 0 0 0");
    let both = [line("frame", 1), line("replica", vlan)];
    let dropped = [line("frame", 1), "replica 1 drop 10".to_string()];
    let case = |name, lists: &Lists, lines: &[String]| {
        listed(name, lists, List::new().frame(port, 0, &Frame::broadcast()), lines)
    };
    vec![
        case("member", &lists(mask, 31), &both).passes("replica drop 10 VMEMB_PORT"),
        case("no_member", &lists(others, 31), &dropped).beyond("replica drop 10 VMEMB_PORT"),
        case("vlan_bc", &lists(31, mask), &both).passes("replica drop 10 VLAN_BC"),
        case("no_vlan_bc", &lists(31, others), &dropped).beyond("replica drop 10 VLAN_BC"),
    ]
}

/// Credit and units for a frame and all its replicas, and for all but the last.
fn spent(rng: &mut Rng) -> Vec<Case> {
    let (port, vlan) = port_and_vlan(rng);
    let k = 8 * usize::from(port);
    let entries = rng.between(1, 32);
    let known = with_vlan(open(), vlan, 31, 31, 0);
    let lists = (0..entries).fold(known, |lists, _| with_retagging(lists, 31, 1, vlan));
    let length = rng.between(64, 1518);
    let price = (entries + 1) * length;
    // SMAX goes up to 65,535: 33 frames of 1,518 bytes are 50,094.
    let credit =
        |smax| with(lists.clone(), &[(policing::SMAX, k, smax), (policing::RATE, k, 65_535)]);
    let units = |units| with(lists.clone(), &[(forwarding_parameters::part_spc(0), 0, units)]);
    let list =
        List::new().frame(port, rng.below(1 << 40), &Frame::to(A).length(length as usize - 4));
    let mut all = vec![flooded(1, port, 1, 0)];
    all.extend((0..entries).map(|_| replica(1, port, vlan, 0)));
    let last_dropped = |drop: u32| {
        let mut lines = all.clone();
        lines.pop();
        lines.push(format!("replica 1 drop {drop}"));
        lines
    };
    let case = |name, lists: &Lists, lines: &[String]| listed(name, lists, list.clone(), lines);
    vec![
        case("credit_for_all", &credit(price), &all).passes("replica drop 9 SMAX"),
        case("credit_for_all_but_one", &credit(price - 1), &last_dropped(9))
            .beyond("replica drop 9 SMAX"),
        case("units_for_all", &units(entries + 1), &all).passes("replica drop 11 units"),
        case("units_for_all_but_one", &units(entries), &last_dropped(11))
            .beyond("replica drop 11 units"),
    ]
}
