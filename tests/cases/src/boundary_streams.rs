//! Boundaries of streams: framing, IDs, lengths, and the loading rules.

use reference::crc;
use reference::k;
use reference::stream::{bytes_of, Block, Lists, DEVICE_ID};
use reference::tables::{address_lookup, forwarding_parameters, mac_configuration, policing};
use reference::tables::{Table, IDS_OF_TABLE_2, ROWS};

use crate::build::{open, refusal_of_id, with, with_retagging, with_vlan, A, B};
use crate::case::Case;
use crate::damage::{blocks_in, flip, rearranged};
use crate::generate::{random_config, Profile};
use crate::rng::Rng;
use crate::rules::NEEDED;

pub fn cases(rng: &mut Rng) -> Vec<Case> {
    let mut cases = framing(rng);
    cases.extend(ids(rng));
    cases.extend(lengths(rng));
    cases.extend(rule_20(rng));
    cases.extend(later_rules(rng));
    cases
}

fn base(rng: &mut Rng) -> Lists {
    let profile = rng.pick(&[Profile::Near, Profile::Valid]);
    random_config(rng, profile)
}

fn framing(rng: &mut Rng) -> Vec<Case> {
    let lists = base(rng);
    let words = rearranged(rng, &lists);
    let bytes = bytes_of(&words);
    let blocks = blocks_in(&words);
    let block = blocks[rng.place(blocks.len() - 1)];
    let bit = rng.below(32) as u32;
    let last = words.len() - 1;
    let data_word = block.start + 3 + rng.place(block.data + 1);
    let mut odd = bytes.clone();
    odd.truncate(bytes.len() - rng.between(1, 3) as usize);
    let good = |name, boundary| {
        Case::of_words(name, "document 01, framing", &words).loaded().passes(boundary)
    };
    let bad = |name, boundary, words: &[u32], number| {
        Case::of_words(name, "document 01, framing", words).refused(number).beyond(boundary)
    };
    vec![
        good("word_0_right", "1 word 0"),
        bad("word_0_differs", "1 word 0", &flip(&words, 0, bit), 1),
        good("header_checksum_right", "2 header checksum"),
        bad("header_checksum_wrong", "2 header checksum", &flip(&words, block.start + 2, bit), 2),
        good("data_checksum_right", "7 data checksum"),
        bad("data_checksum_wrong", "7 data checksum", &flip(&words, data_word, bit), 7),
        good("global_checksum_right", "8 global checksum"),
        bad("global_checksum_wrong", "8 global checksum", &flip(&words, last, bit), 8),
        good("whole_stream", "10 end block complete"),
        bad("one_word_short", "10 end block complete", &words[..last], 10),
        good("whole_words", "9 bytes"),
        Case::of_bytes("odd_bytes", "document 01, refusal 9", odd).refused(9).beyond("9 bytes"),
    ]
}

/// Word 0 and a header with its right checksum and some free bits.
fn header(rng: &mut Rng, id: u8, length: u32) -> Vec<u32> {
    let header =
        [u32::from(id) << 24 | (rng.word() & 0x00FF_FFFF), (rng.word() & 0xFF00_0000) | length];
    vec![DEVICE_ID, header[0], header[1], crc::of_words(&header)]
}

/// Neighbours: at the ends of table 2 in it or not, inside it carried or not.
fn ids(rng: &mut Rng) -> Vec<Case> {
    let ends: [u8; 7] = [0x12, 0x13, 0x4D, 0x4E, 0x4F, 0x00, 0xFF];
    let mut neighbours = ends.map(|id| (id, "3 ID in table 2", 3)).to_vec();
    for pair in IDS_OF_TABLE_2.windows(2) {
        if refusal_of_id(pair[0]) == refusal_of_id(pair[1]) {
            continue;
        }
        for &id in pair {
            if neighbours.iter().all(|(known, ..)| *known != id) {
                neighbours.push((id, "4 ID carried", 4));
            }
        }
    }
    let mut cases = Vec::new();
    for (id, boundary, beyond) in neighbours {
        let length = Table::of_id(id).map_or(1, |table| table.words() as u32);
        let words = header(rng, id, length);
        let number = refusal_of_id(id);
        let case = Case::of_words(&format!("neighbour_{id:02x}"), "001, table 2", &words);
        let case = case.refused(number);
        cases.push(if number == beyond { case.beyond(boundary) } else { case.passes(boundary) });
    }
    cases
}

fn lengths(rng: &mut Rng) -> Vec<Case> {
    let mut cases = Vec::new();
    for row in ROWS {
        let words = row.words as u32;
        let most = row.most as u32;
        if words > 1 {
            let whole = words * rng.between(1, u64::from(most)) as u32;
            let part = whole - rng.between(1, u64::from(words) - 1) as u32;
            cases.push(length_case(rng, row.id, &[], whole, 10).passes("5 whole entries"));
            cases.push(length_case(rng, row.id, &[], part, 5).beyond("5 whole entries"));
        }
        // Alone, and behind blocks that already hold some.
        let held = rng.below(u64::from(most)) as u32;
        for held in [0, held] {
            let earlier = vec![0; (held * words) as usize];
            let fits = (most - held) * words;
            let boundary = format!("6 most entries of {:02X}", row.id);
            cases.push(length_case(rng, row.id, &earlier, fits, 10).passes(&boundary));
            let above = fits + words;
            cases.push(length_case(rng, row.id, &earlier, above, 6).beyond(&boundary));
        }
    }
    cases
}

/// A block that holds the earlier words, then a header alone.
fn length_case(rng: &mut Rng, id: u8, earlier: &[u32], length: u32, number: u32) -> Case {
    let mut words = vec![DEVICE_ID];
    if !earlier.is_empty() {
        words.extend(Block::plain(id, earlier.to_vec()).words());
    }
    words.extend(&header(rng, id, length)[1..]);
    let name = format!("length_{id:02x}_{}_{length}", earlier.len());
    Case::of_words(&name, "document 01, refusals 5 and 6", &words).refused(number)
}

/// Each count that rule 20 asks, at its least and one below.
fn rule_20(rng: &mut Rng) -> Vec<Case> {
    let mut cases = Vec::new();
    for &(table, least) in NEEDED {
        let boundary = format!("20 count of {:02X}", table.id());
        let mut lists = k::lists();
        lists.of_mut(table).truncate(least);
        if table == Table::L2Policing {
            lists.put(policing::SHARINDX, 0, 0);
        }
        let name = format!("count_{:02x}", table.id());
        let words = rearranged(rng, &lists);
        cases.push(Case::of_words(&name, "rule 20", &words).loaded().passes(&boundary));
        lists.of_mut(table).truncate(least - 1);
        let words = rearranged(rng, &lists);
        let case = Case::of_words(&name, "rule 20", &words);
        cases.push(case.refused(20).beyond(&boundary));
    }
    cases
}

/// A pair of configurations: one that loads, one that a rule refuses.
fn rule_pair(
    rng: &mut Rng,
    rule: u32,
    boundary: &str,
    loads: &Lists,
    refused: &Lists,
) -> Vec<Case> {
    let name = format!("rule_{rule}");
    let good = Case::of_words(&name, "loading rules", &rearranged(rng, loads));
    let bad = Case::of_words(&name, "loading rules", &rearranged(rng, refused));
    vec![good.loaded().passes(boundary), bad.refused(rule).beyond(boundary)]
}

/// Every rule behind 20, on both sides.
fn later_rules(rng: &mut Rng) -> Vec<Case> {
    let mut cases = Vec::new();
    // 21: two VLANIDs one bit apart, and equal.
    let vlan = rng.between(2, 4095);
    let near = vlan ^ (1 << rng.between(1, 11));
    let apart = with_vlan(with_vlan(open(), vlan, 31, 31, 0), near, 31, 31, 0);
    let apart = if near == 1 { open() } else { apart };
    let equal = with_vlan(with_vlan(open(), vlan, 31, 31, 0), vlan, 0, 0, 0);
    cases.extend(rule_pair(rng, 21, "21 two VLANIDs", &apart, &equal));
    // 22: a port's VLANID that is there, and one bit apart from all that are.
    let port = rng.place(5);
    let there = with(with_vlan(open(), vlan, 0, 0, 0), &[(mac_configuration::VLANID, port, vlan)]);
    let absent = if near == 1 { 0 } else { near };
    let missing = with(there.clone(), &[(mac_configuration::VLANID, port, absent)]);
    cases.extend(rule_pair(rng, 22, "22 a port's VLANID", &there, &missing));
    // 23: SHARINDX one below the count, and at it.
    let mut few = open();
    let entries = rng.between(1, 45);
    few.of_mut(Table::L2Policing).truncate(entries as usize);
    let number = rng.place(entries as usize);
    let below = with(few.clone(), &[(policing::SHARINDX, number, entries - 1)]);
    let at = with(few, &[(policing::SHARINDX, number, entries)]);
    cases.extend(rule_pair(rng, 23, "23 SHARINDX", &below, &at));
    // 24: 929 units and 930.
    let (fits, above) = (units_summing(rng, 929), units_summing(rng, 930));
    cases.extend(rule_pair(rng, 24, "24 sum of PART_SPC", &fits, &above));
    // 25: two INDEXes one bit apart, and equal.
    let index = rng.below(1024);
    let other = index ^ (1 << rng.below(10));
    let apart = two_indexes(index, other);
    let equal = two_indexes(index, index);
    cases.extend(rule_pair(rng, 25, "25 two INDEXes", &apart, &equal));
    // 28: VLANs that are there, and one bit apart from all that are; whatever the ports.
    let ports = rng.below(32);
    let known = with_vlan(open(), vlan, 31, 31, 0);
    let there = with_retagging(known.clone(), ports, vlan, 1);
    let missing = with_retagging(known.clone(), ports, absent, 1);
    cases.extend(rule_pair(rng, 28, "28 VLAN_ING", &there, &missing));
    let there = with_retagging(known.clone(), ports, 1, vlan);
    let missing = with_retagging(known, ports, 1, absent);
    cases.extend(rule_pair(rng, 28, "28 VLAN_EGR", &there, &missing));
    cases
}

/// K with units that add up to this, spread over the eight at random.
fn units_summing(rng: &mut Rng, sum: u64) -> Lists {
    let mut lists = k::lists();
    let mut left = sum;
    let mut partitions: Vec<usize> = (0..8).collect();
    rng.shuffle(&mut partitions);
    for (turn, &partition) in partitions.iter().enumerate() {
        let units = if turn == 7 { left } else { rng.below(left + 1) };
        lists.put(forwarding_parameters::part_spc(partition), 0, units);
        left -= units;
    }
    lists
}

fn two_indexes(first: u64, second: u64) -> Lists {
    let mut lists = open();
    for (address, index) in [(A, first), (B, second)] {
        let number = lists.push_zero(Table::L2AddressLookup);
        lists.put(address_lookup::MACADDR, number, address);
        lists.put(address_lookup::INDEX, number, index);
    }
    lists
}
