//! Boundaries of drops 1 to 11: one step in the frame or in one field.

use reference::stream::Lists;
use reference::tables::{forwarding, forwarding_parameters, mac_configuration, policing};
use reference::tables::{vlan_lookup, Field, Table};

use crate::boundary_records::{flooded, listed};
use crate::build::{open, open_with, with, with_address, with_shared_learn, with_vlan};
use crate::build::{Address, Frame, List, A, B};
use crate::case::Case;
use crate::rng::Rng;

pub fn cases(rng: &mut Rng) -> Vec<Case> {
    let mut cases = early_drops(rng);
    cases.extend(enforced_drops(rng));
    cases.extend(policing_drops(rng));
    cases.extend(late_drops(rng));
    cases
}

/// Two configurations and frames that differ by one step across a drop's boundary.
struct Pair {
    boundary: &'static str,
    drop: u32,
    port: u8,
    passes: (Lists, Frame),
    drops: (Lists, Frame),
    vlan: u64,
    q: u16,
}

impl Pair {
    fn cases(self) -> Vec<Case> {
        let name = format!("drop_{}", self.drop);
        let sent = flooded(1, self.port, self.vlan, self.q);
        let dropped = format!("frame 1 drop {}", self.drop);
        let list = |frame: &Frame| List::new().frame(self.port, 0, frame);
        vec![
            listed(&name, &self.passes.0, list(&self.passes.1), &[sent]).passes(self.boundary),
            listed(&name, &self.drops.0, list(&self.drops.1), &[dropped]).beyond(self.boundary),
        ]
    }
}

fn early_drops(rng: &mut Rng) -> Vec<Case> {
    let port = rng.below(5) as u8;
    let entry = usize::from(port);
    let q = rng.below(8) as u16;
    let vlan = rng.between(2, 4095);
    let tagged = Frame::to(A).tagged(q, vlan as u16);
    let members = rng.below(32) | 1 << port;
    let known = with_vlan(open(), vlan, 31, 31, 0);
    let other = if vlan == 4095 { 4094 } else { vlan + 1 };
    let unknown = with_vlan(open(), other, 31, 31, 0);
    let not_member = with_vlan(open(), vlan, members & !(1 << port), 31, 0);
    let flag = |field: Field, value| open_with(&[(field, entry, value)]);
    let pair = |boundary, drop, passes, drops, vlan, q| Pair {
        boundary,
        drop,
        port,
        passes,
        drops,
        vlan,
        q,
    };
    let plain = || Frame::to(A);
    let ingress = |value| flag(mac_configuration::INGRESS, value);
    let drpuntag = |value| flag(mac_configuration::DRPUNTAG, value);
    let short = plain().length(59);
    let one_tagged = plain().tagged(0, 1);
    let pairs = [
        pair("drop 1 L", 1, (open(), plain()), (open(), short), 1, 0),
        pair("drop 2 INGRESS", 2, (ingress(1), plain()), (ingress(0), plain()), 1, 0),
        pair("drop 3 DRPUNTAG", 3, (drpuntag(0), plain()), (drpuntag(1), plain()), 1, 0),
        pair("drop 3 tagged", 3, (drpuntag(1), one_tagged), (drpuntag(1), plain()), 1, 0),
        pair("drop 4 VLAN", 4, (known.clone(), tagged.clone()), (unknown, tagged.clone()), vlan, q),
        pair("drop 5 member", 5, (known, tagged.clone()), (not_member, tagged), vlan, q),
    ];
    pairs.into_iter().flat_map(Pair::cases).collect()
}

fn enforced_drops(rng: &mut Rng) -> Vec<Case> {
    let port = rng.below(5) as u8;
    let lacks = Address {
        vlan: 1,
        address: B,
        ports: rng.below(32) & !(1 << port),
        enforced: true,
        index: rng.below(1024),
    };
    let has = Address { ports: lacks.ports | 1 << port, ..lacks };
    let other_vlan = Address { vlan: 1 ^ (1 << rng.below(12)), ..lacks };
    let open_entry = Address { enforced: false, ..lacks };
    let entry = |address| with_address(open(), address);
    let shared = with_shared_learn(entry(other_vlan));
    let frame = || Frame::to(A);
    let other_source = frame().from(B ^ (1 << rng.below(48)));
    let pair = |boundary, passes| Pair {
        boundary,
        drop: 6,
        port,
        passes,
        drops: (entry(lacks), frame()),
        vlan: 1,
        q: 0,
    };
    let mut by_vlan = pair("drop 6 SHARED_LEARN", (entry(other_vlan), frame()));
    by_vlan.drops.0 = shared;
    let pairs = [
        pair("drop 6 DESTPORTS", (entry(has), frame())),
        pair("drop 6 VLAN", (entry(other_vlan), frame())),
        pair("drop 6 ENFPORT", (entry(open_entry), frame())),
        pair("drop 6 source", (entry(lacks), other_source)),
        by_vlan,
    ];
    pairs.into_iter().flat_map(Pair::cases).collect()
}

fn policing_drops(rng: &mut Rng) -> Vec<Case> {
    let port = rng.below(5) as u8;
    let q = rng.below(8) as u16;
    let k = 8 * usize::from(port) + usize::from(q);
    let frame = |bytes| Frame::to(A).tagged(q, 1).length(bytes);
    // L from 65 to 2047, which is the most that MAXLEN can say.
    let length = rng.between(65, 2047);
    let bytes = length as usize - 4;
    let maxlen = |value| open_with(&[(policing::MAXLEN, k, value)]);
    let loaded = |entries| {
        let mut lists = open();
        lists.of_mut(Table::L2Policing).truncate(entries);
        lists
    };
    let poor = |smax| with(maxlen(2047), &[(policing::SMAX, k, smax), (policing::RATE, k, 0)]);
    let pair =
        |boundary, drop, passes, drops| Pair { boundary, drop, port, passes, drops, vlan: 1, q };
    // One entry at least must be loaded.
    let unloaded = k.max(1);
    let mut pairs = vec![
        pair(
            "drop 8 MAXLEN",
            8,
            (maxlen(length), frame(bytes)),
            (maxlen(length - 1), frame(bytes)),
        ),
        pair("drop 9 SMAX", 9, (poor(length), frame(bytes)), (poor(length - 1), frame(bytes))),
    ];
    if k > 0 {
        let passes = (loaded(unloaded + 1), frame(60));
        let drops = (loaded(unloaded), frame(60));
        pairs.push(pair("drop 7 k", 7, passes, drops));
    }
    let mut cases: Vec<Case> = pairs.into_iter().flat_map(Pair::cases).collect();
    cases.extend(broadcast_policing(port, q));
    cases.extend(metered_pair(rng, port, q));
    cases
}

/// Broadcasts ask entry 40 + port, whatever their priority.
fn broadcast_policing(port: u8, q: u16) -> Vec<Case> {
    let loaded = |entries| {
        let mut lists = open();
        lists.of_mut(Table::L2Policing).truncate(entries);
        lists
    };
    let frame = Frame::broadcast().tagged(q, 1);
    let at = 40 + usize::from(port);
    Pair {
        boundary: "drop 7 k of a broadcast",
        drop: 7,
        port,
        passes: (loaded(at + 1), frame.clone()),
        drops: (loaded(at), frame),
        vlan: 1,
        q,
    }
    .cases()
}

/// From credit 0, with RATE 64: L x 8 microseconds pay L bytes, one less does not.
fn metered_pair(rng: &mut Rng, port: u8, q: u16) -> Vec<Case> {
    let k = 8 * usize::from(port) + usize::from(q);
    let length = rng.between(64, 1518);
    let lists = open_with(&[(policing::SMAX, k, length), (policing::RATE, k, 64)]);
    let start = rng.below(1 << 40);
    let frame = Frame::to(A).tagged(q, 1).length(length as usize - 4);
    let list =
        |elapsed| List::new().frame(port, start, &frame).frame(port, start + elapsed, &frame);
    let first = flooded(1, port, 1, q);
    let second = flooded(2, port, 1, q);
    let dropped = "frame 2 drop 9".to_string();
    vec![
        listed("meter_reached", &lists, list(8 * length), &[first.clone(), second])
            .passes("drop 9 elapsed"),
        listed("meter_short", &lists, list(8 * length - 1), &[first, dropped])
            .beyond("drop 9 elapsed"),
    ]
}

fn late_drops(rng: &mut Rng) -> Vec<Case> {
    let port = rng.below(5) as u8;
    let entry = usize::from(port);
    let output = (port + 1 + rng.below(4) as u8) % 5;
    let mask = 1u64 << output;
    let mut cases = Vec::new();
    // Ports left: one, and none. Each cut takes the last one away.
    let one_port = |field: Field, number, value| {
        open_with(&[(forwarding::FL_DOMAIN, entry, mask), (field, number, value)])
    };
    let cuts = [
        ("drop 10 REACH_PORT", forwarding::REACH_PORT, entry, mask, 31 & !mask),
        ("drop 10 VMEMB_PORT", vlan_lookup::VMEMB_PORT, 0, mask, 31 & !mask),
        ("drop 10 EGRESS", mac_configuration::EGRESS, usize::from(output), 1, 0),
        ("drop 10 FL_DOMAIN", forwarding::FL_DOMAIN, entry, mask, 1 << port),
    ];
    let list = || List::new().frame(port, 0, &Frame::to(A));
    let sent = format!("frame 1 sent {mask} vlan 1 prio 0 tags 0 queues 0 0 0 0 0");
    for (boundary, field, number, passes, drops) in cuts {
        let good = listed(
            "one_port",
            &one_port(field, number, passes),
            list(),
            std::slice::from_ref(&sent),
        );
        let dropped = "frame 1 drop 10".to_string();
        let bad = listed("no_port", &one_port(field, number, drops), list(), &[dropped]);
        cases.extend([good.passes(boundary), bad.beyond(boundary)]);
    }
    cases.extend(last_unit(rng, port));
    cases
}

/// As many frames as there are units, and one more.
fn last_unit(rng: &mut Rng, port: u8) -> Vec<Case> {
    let units = rng.between(0, 12) as usize;
    let partition = rng.below(8);
    let k = 8 * usize::from(port);
    let lists = open_with(&[
        (policing::PARTITION, k, partition),
        (forwarding_parameters::part_spc(partition as usize), 0, units as u64),
    ]);
    let mut list = List::new();
    let mut lines = Vec::new();
    for number in 1..=units {
        list = list.frame(port, 0, &Frame::to(A));
        lines.push(flooded(number, port, 1, 0));
    }
    let good = listed("units_left", &lists, list.clone(), &lines);
    let list = list.frame(port, 0, &Frame::to(A));
    lines.push(format!("frame {} drop 11", units + 1));
    let bad = listed("no_unit_left", &lists, list, &lines);
    vec![good.passes("drop 11 units"), bad.beyond("drop 11 units")]
}
