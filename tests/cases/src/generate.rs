//! Seeded configurations, streams, frames, lists and cuttings.

use reference::k;
use reference::stream::{bytes_of, plain_stream, Lists};
use reference::tables::{address_lookup, forwarding, forwarding_parameters, lookup_parameters};
use reference::tables::{mac_configuration, policing, retagging, vlan_lookup, Table, ROWS};

use crate::build::{Frame, List, A, B, BROADCAST, C};
use crate::damage::{flip, rearranged, reordered};
use crate::rng::Rng;
use crate::rules::NEEDED;

/// What kind of configuration is wanted.
#[derive(Clone, Copy, PartialEq, Eq, Debug)]
pub enum Profile {
    /// Near K: loads, and most frames of `random_frame` go far.
    Near,
    /// Any fields, small tables; all rules kept.
    Valid,
    /// Every table at its most entries; all rules kept.
    Full,
    /// Breaks this rule and none before it.
    Breaks(u32),
    /// Any counts and any words: whatever comes out.
    Wild,
}

/// VLANs that frames and tables have in common.
pub(crate) const VLANS: [u64; 6] = [1, 0, 2, 5, 77, 4095];

/// Addresses that frames and tables have in common.
const ADDRESSES: [u64; 5] = [A, B, C, 0x0102_0304_0506, BROADCAST];

pub fn random_config(rng: &mut Rng, profile: Profile) -> Lists {
    match profile {
        Profile::Near => near(rng),
        Profile::Valid => {
            let addresses = rng.between(0, 12) as usize;
            let policing = rng.between(1, Table::L2Policing.most() as u64) as usize;
            let vlans = rng.between(1, 24) as usize;
            valid(rng, addresses, policing, vlans)
        }
        Profile::Full => {
            let [addresses, policing, vlans] =
                [Table::L2AddressLookup, Table::L2Policing, Table::VlanLookup].map(Table::most);
            let mut lists = valid(rng, addresses, policing, vlans);
            for row in ROWS {
                while lists.of(row.table).len() < row.most {
                    lists.push_zero(row.table);
                }
            }
            lists
        }
        Profile::Breaks(rule) => {
            let base = rng.pick(&[Profile::Near, Profile::Valid]);
            let mut lists = random_config(rng, base);
            break_rule(rng, &mut lists, rule);
            lists
        }
        Profile::Wild => wild(rng),
    }
}

/// One entry of any words.
fn any_entry(rng: &mut Rng, table: Table) -> Vec<u32> {
    (0..table.words()).map(|_| rng.word()).collect()
}

fn push_any(rng: &mut Rng, lists: &mut Lists, table: Table, entries: usize) {
    for _ in 0..entries {
        let entry = any_entry(rng, table);
        lists.of_mut(table).push(entry);
    }
}

/// Any words in every table, then mended until all rules are kept.
fn valid(rng: &mut Rng, addresses: usize, policing_entries: usize, vlans: usize) -> Lists {
    let mut lists = Lists::default();
    for row in ROWS {
        let entries = match row.table {
            Table::L2AddressLookup => addresses,
            Table::L2Policing => policing_entries,
            Table::VlanLookup => vlans,
            // They may be absent.
            Table::L2LookupParameters | Table::Retagging => rng.place(row.most + 1),
            _ => row.most,
        };
        push_any(rng, &mut lists, row.table, entries);
    }
    mend(rng, &mut lists);
    lists
}

/// Different VLANIDs and INDEXes, VLANs and SHARINDX that exist, 929 units at most.
fn mend(rng: &mut Rng, lists: &mut Lists) {
    let vlans = different(rng, lists.of(Table::VlanLookup).len(), 4096);
    for (number, &vlan) in vlans.iter().enumerate() {
        lists.put(vlan_lookup::VLANID, number, vlan);
    }
    for port in 0..5 {
        let vlan = rng.pick(&vlans);
        lists.put(mac_configuration::VLANID, port, vlan);
    }
    for number in 0..lists.of(Table::Retagging).len() {
        put_known_vlans(rng, lists, number);
    }
    let indexes = different(rng, lists.of(Table::L2AddressLookup).len(), 1024);
    for (number, index) in indexes.into_iter().enumerate() {
        lists.put(address_lookup::INDEX, number, index);
    }
    let policing_entries = lists.of(Table::L2Policing).len() as u64;
    for number in 0..policing_entries as usize {
        let shared = rng.below(policing_entries);
        lists.put(policing::SHARINDX, number, shared);
    }
    for partition in 0..8 {
        let units = rng.below(117);
        lists.put(forwarding_parameters::part_spc(partition), 0, units);
    }
}

/// VLANs that exist in a retagging entry: in half of them one that untagged frames of some port have.
fn put_known_vlans(rng: &mut Rng, lists: &mut Lists, number: usize) {
    let mut any = || lists.get(vlan_lookup::VLANID, rng.place(lists.of(Table::VlanLookup).len()));
    let (ingress, egress) = (any(), any());
    let of_port = lists.get(mac_configuration::VLANID, rng.place(5));
    let ingress = if rng.once_in(2) { of_port } else { ingress };
    lists.put(retagging::VLAN_ING, number, ingress);
    lists.put(retagging::VLAN_EGR, number, egress);
}

/// So many different numbers below a limit.
fn different(rng: &mut Rng, many: usize, limit: u64) -> Vec<u64> {
    let mut numbers: Vec<u64> = (0..limit).collect();
    rng.shuffle(&mut numbers);
    numbers.truncate(many);
    numbers
}

/// K with more VLANs and addresses, tight meters and partitions, some ports closed; mostly retagging.
fn near(rng: &mut Rng) -> Lists {
    let mut lists = k::lists();
    for vlan in VLANS.iter().skip(1) {
        if rng.once_in(2) {
            let number = lists.push_zero(Table::VlanLookup);
            lists.put(vlan_lookup::VLANID, number, *vlan);
        }
    }
    for number in 0..lists.of(Table::VlanLookup).len() {
        near_vlan(rng, &mut lists, number);
    }
    near_addresses(rng, &mut lists);
    for number in 0..45 {
        near_policing(rng, &mut lists, number);
    }
    if rng.once_in(4) {
        // Some entries are not loaded: drop 7.
        let entries = rng.between(1, 44) as usize;
        lists.of_mut(Table::L2Policing).truncate(entries);
        for number in 0..entries {
            let shared = rng.below(entries as u64);
            lists.put(policing::SHARINDX, number, shared);
        }
    }
    for port in 0..5 {
        near_port(rng, &mut lists, port);
    }
    near_retagging(rng, &mut lists);
    for partition in 0..8 {
        let units = rng.pick(&[0, 1, 2, 3, 50]);
        lists.put(forwarding_parameters::part_spc(partition), 0, units);
    }
    if rng.once_in(2) {
        let entry = any_entry(rng, Table::L2LookupParameters);
        lists.of_mut(Table::L2LookupParameters).push(entry);
        let shared = rng.below(2);
        lists.put(lookup_parameters::SHARED_LEARN, 0, shared);
    }
    lists
}

/// Mostly all ports.
fn near_mask(rng: &mut Rng) -> u64 {
    if rng.once_in(3) {
        rng.below(32)
    } else {
        31
    }
}

fn near_vlan(rng: &mut Rng, lists: &mut Lists, number: usize) {
    let (members, broadcast, tags) = (near_mask(rng), near_mask(rng), rng.below(32));
    lists.put(vlan_lookup::VMEMB_PORT, number, members);
    lists.put(vlan_lookup::VLAN_BC, number, broadcast);
    lists.put(vlan_lookup::TAG_PORT, number, tags);
}

fn near_addresses(rng: &mut Rng, lists: &mut Lists) {
    let entries = rng.place(7);
    let indexes = different(rng, entries, 1024);
    for index in indexes {
        let number = lists.push_zero(Table::L2AddressLookup);
        let (vlan, address) = (rng.pick(&VLANS), rng.pick(&ADDRESSES));
        let (ports, enforced) = (near_mask(rng), u64::from(rng.once_in(3)));
        lists.put(address_lookup::VLANID, number, vlan);
        lists.put(address_lookup::MACADDR, number, address);
        lists.put(address_lookup::DESTPORTS, number, ports);
        lists.put(address_lookup::ENFPORT, number, enforced);
        lists.put(address_lookup::INDEX, number, index);
    }
}

fn near_policing(rng: &mut Rng, lists: &mut Lists, number: usize) {
    if rng.once_in(3) {
        let shared = rng.below(45);
        lists.put(policing::SHARINDX, number, shared);
    }
    if rng.once_in(2) {
        let smax = rng.pick(&[63, 64, 65, 128, 200, 1518, 4100]);
        lists.put(policing::SMAX, number, smax);
        let rate = rng.pick(&[0, 1, 64, 1000, 64_000, 65_535]);
        lists.put(policing::RATE, number, rate);
    }
    let maxlen = rng.pick(&[63, 64, 65, 100, 1518, 1518, 2047]);
    lists.put(policing::MAXLEN, number, maxlen);
    let partition = rng.below(8);
    lists.put(policing::PARTITION, number, partition);
}

fn near_port(rng: &mut Rng, lists: &mut Lists, port: usize) {
    let vlans = lists.of(Table::VlanLookup).len();
    let vlan = lists.get(vlan_lookup::VLANID, rng.place(vlans));
    lists.put(mac_configuration::VLANID, port, vlan);
    let priority = rng.below(8);
    lists.put(mac_configuration::VLANPRIO, port, priority);
    let flags = [
        (mac_configuration::DRPUNTAG, rng.once_in(6)),
        (mac_configuration::EGRESS, !rng.once_in(6)),
        (mac_configuration::INGRESS, !rng.once_in(8)),
    ];
    for (flag, set) in flags {
        lists.put(flag, port, u64::from(set));
    }
    for mask in [forwarding::BC_DOMAIN, forwarding::REACH_PORT, forwarding::FL_DOMAIN] {
        let ports = near_mask(rng);
        lists.put(mask, port, ports);
    }
    for place in 0..8 {
        let (priority, queue) = (rng.below(8), rng.below(8));
        lists.put(forwarding::vlan_pmap(place), port, priority);
        lists.put(forwarding::vlan_pmap(place), 5 + rng.place(8), queue);
    }
}

/// Mostly a few entries, now and then none or all, with any bits where nothing is read.
fn near_retagging(rng: &mut Rng, lists: &mut Lists) {
    let entries = match rng.below(16) {
        0..=2 => 0,
        3 => Table::Retagging.most(),
        _ => rng.between(1, 6) as usize,
    };
    push_any(rng, lists, Table::Retagging, entries);
    for number in 0..entries {
        put_known_vlans(rng, lists, number);
        let ports = near_mask(rng);
        lists.put(retagging::ING_PORT, number, ports);
    }
}

/// Any tables of any size within their limits, sometimes one entry above.
fn wild(rng: &mut Rng) -> Lists {
    let mut lists = Lists::default();
    for row in ROWS {
        let entries = match rng.below(8) {
            0 => 0,
            1 if row.most < 100 => row.most + 1,
            2 => rng.place(row.most.min(40) + 1),
            _ => row.most.min(13),
        };
        push_any(rng, &mut lists, row.table, entries);
    }
    lists
}

/// Breaks this rule; the rules before it stay kept.
fn break_rule(rng: &mut Rng, lists: &mut Lists, rule: u32) {
    match rule {
        20 => break_20(rng, lists),
        21 => {
            let list = lists.of_mut(Table::VlanLookup);
            let twin = list[rng.place(list.len())].clone();
            let place = rng.place(list.len() + 1);
            list.insert(place, twin);
        }
        22 => {
            let vlan = absent_vlan(rng, lists);
            lists.put(mac_configuration::VLANID, rng.place(5), vlan);
        }
        23 => {
            let entries = lists.of(Table::L2Policing).len();
            let shared = rng.between(entries as u64, 63);
            lists.put(policing::SHARINDX, rng.place(entries), shared);
        }
        24 => {
            let partition = rng.place(8);
            let others: u64 = (0..8)
                .filter(|&other| other != partition)
                .map(|other| lists.get(forwarding_parameters::part_spc(other), 0))
                .sum();
            let units = rng.between(930 - others.min(930), 1023);
            lists.put(forwarding_parameters::part_spc(partition), 0, units);
        }
        25 => {
            if lists.of(Table::L2AddressLookup).is_empty() {
                push_any(rng, lists, Table::L2AddressLookup, 1);
            }
            push_any(rng, lists, Table::L2AddressLookup, 1);
            let last = lists.of(Table::L2AddressLookup).len() - 1;
            let index = lists.get(address_lookup::INDEX, rng.place(last));
            lists.put(address_lookup::INDEX, last, index);
        }
        28 => {
            if lists.of(Table::Retagging).is_empty() {
                push_any(rng, lists, Table::Retagging, 1);
                put_known_vlans(rng, lists, 0);
            }
            let vlan = absent_vlan(rng, lists);
            let field = rng.pick(&[retagging::VLAN_ING, retagging::VLAN_EGR]);
            lists.put(field, rng.place(lists.of(Table::Retagging).len()), vlan);
        }
        _ => unreachable!("nothing here breaks rule {rule}"),
    }
}

/// A VLAN that has no entry.
fn absent_vlan(rng: &mut Rng, lists: &Lists) -> u64 {
    let used: Vec<u64> = (0..lists.of(Table::VlanLookup).len())
        .map(|number| lists.get(vlan_lookup::VLANID, number))
        .collect();
    let absent = (0..4096).filter(|vlan| !used.contains(vlan)).collect::<Vec<u64>>();
    rng.pick(&absent)
}

/// One clause of rule 20.
fn break_20(rng: &mut Rng, lists: &mut Lists) {
    let (table, least) = rng.pick(NEEDED);
    let entries = if least > 1 { rng.place(least) } else { 0 };
    lists.of_mut(table).truncate(entries);
}

/// A stream of these lists, mostly whole: plain, reordered or rearranged; sometimes damaged.
pub fn random_stream(rng: &mut Rng, lists: &Lists) -> Vec<u8> {
    let mut words = match rng.below(3) {
        0 => plain_stream(lists),
        1 => reordered(rng, lists),
        _ => rearranged(rng, lists),
    };
    match rng.below(16) {
        0 => {
            let (word, bit) = (rng.place(words.len()), rng.below(32) as u32);
            words = flip(&words, word, bit);
        }
        1 => words.truncate(rng.place(words.len())),
        2 => words.push(rng.word()),
        3 => {
            let mut bytes = bytes_of(&words);
            bytes.truncate(rng.place(bytes.len()));
            return bytes;
        }
        _ => {}
    }
    bytes_of(&words)
}

/// A frame that shares addresses and VLANs with `Profile::Near`.
pub fn random_frame(rng: &mut Rng) -> Vec<u8> {
    let destination = if rng.once_in(8) { rng.next() & BROADCAST } else { rng.pick(&ADDRESSES) };
    let length = match rng.below(24) {
        0 => rng.place(60),
        1 => rng.pick(&[59, 60, 61]),
        2 => rng.pick(&[1513, 1514, 1515, 2043, 2044]),
        3..=6 => rng.between(60, 120) as usize,
        _ => 60,
    };
    let mut frame = Frame::to(destination).from(rng.pick(&ADDRESSES)).length(length);
    let vlan = rng.pick(&VLANS) as u16;
    let priority = rng.below(8) as u16;
    match rng.below(8) {
        0..=2 => {}
        3 => frame = frame.with_tag(0x88A8, priority << 13 | vlan),
        4 => frame = frame.with_tag(0x8100, rng.word() as u16),
        5 => frame = frame.with_tag(0x8100, priority << 13 | 1 << 12 | vlan),
        _ => frame = frame.tagged(priority, vlan),
    }
    frame.bytes()
}

/// A time from the last one on; now and then far ahead.
pub fn later(rng: &mut Rng, time: u64) -> u64 {
    let ahead = match rng.below(16) {
        0 => rng.below(1 << 40),
        1..=5 => 0,
        6..=10 => rng.below(10),
        _ => rng.below(1000),
    };
    (time + ahead).min((1 << 48) - 1)
}

/// A list of records, some of them refused; now and then the list itself is.
pub fn random_list(rng: &mut Rng) -> Vec<u8> {
    let mut list = List::new();
    let mut time = 0;
    let records = rng.between(1, 40);
    for _ in 0..records {
        if rng.once_in(4) {
            list = list.release(random_partition(rng));
            continue;
        }
        time = later(rng, time);
        list = random_frame_record(rng, list, time);
    }
    damage_list(rng, list.bytes)
}

fn random_partition(rng: &mut Rng) -> u8 {
    match rng.below(16) {
        0 => rng.pick(&[8, 9, 255]),
        _ => rng.below(8) as u8,
    }
}

fn random_frame_record(rng: &mut Rng, list: List, time: u64) -> List {
    let port = match rng.below(24) {
        0 => rng.pick(&[5, 6, 255]),
        _ => rng.below(5) as u8,
    };
    let told_time = match rng.below(24) {
        0 => time.wrapping_sub(rng.between(1, 2)),
        1 => rng.pick(&[1 << 48, u64::MAX]),
        _ => time,
    };
    if rng.once_in(60) {
        return list.frame_of(port, told_time, &vec![0; 4097]);
    }
    list.frame_of(port, told_time, &random_frame(rng))
}

fn damage_list(rng: &mut Rng, list: Vec<u8>) -> Vec<u8> {
    let mut list = list;
    match rng.below(24) {
        0 => list.truncate(rng.place(list.len())),
        1 => list.push(rng.pick(&[0, 3, 255])),
        2 => {
            let place = rng.place(5);
            list[place] ^= 1 << rng.below(8);
        }
        3 => {
            let place = rng.place(list.len());
            list[place] ^= 1 << rng.below(8);
        }
        4 => list.resize(rng.pick(&[16_384, 16_385]), 2),
        _ => {}
    }
    list
}

/// A cutting of so many words into writes of 1 to 64: the writes' lengths.
pub fn random_cutting(rng: &mut Rng, words: usize) -> Vec<usize> {
    let most = rng.pick(&[1, 2, 3, 7, 63, 64, 64]);
    let mut cutting = Vec::new();
    let mut left = words;
    while left > 0 {
        let now = rng.between(1, most).min(left as u64) as usize;
        cutting.push(now);
        left -= now;
    }
    cutting
}
