//! Named cases of block 12 and rule 28. Each expectation is derived by hand from the clause it names.

use reference::crc;
use reference::k;
use reference::stream::{cut_blocks, plain_blocks, stream_of, Block, End, Lists, DEVICE_ID};
use reference::tables::{forwarding_parameters, retagging, Table};

use crate::build::{open, with, with_address, with_retagging, with_vlan, Address, Frame, List, A};
use crate::case::Case;
use crate::damage::flip;

const LENGTHS: &str =
    "document 02, request 2: two-word entries, at most 32; 4 no longer covers ID 12";
const FRAMING: &str = "document 01, framing in order 8, else 2, 3, 4, 5, 6, 7";
const BLOCKS: &str = "document 01, The stream: a table in several blocks; any order";
const RULE_28: &str = "document 02, request 2: 28, after 25, an ingress or egress VLAN not in 07";

pub fn cases() -> Vec<Case> {
    let mut cases = headers();
    cases.extend(checksums());
    cases.extend(lengths());
    cases.extend(pieces());
    cases.extend(rule_28());
    cases.extend(rule_28_is_last());
    cases
}

/// Word 0 and a header for 12 with its right checksum; no data follows.
fn header_alone(length: u32) -> Vec<u32> {
    let header = [0x1200_0000, length];
    vec![DEVICE_ID, header[0], header[1], crc::of_words(&header)]
}

fn headers() -> Vec<Case> {
    let told = |length: u32, number| {
        let name = format!("12_header_of_{length}");
        Case::of_words(&name, LENGTHS, &header_alone(length)).refused(number)
    };
    // A header that passes waits for its data: 10.
    vec![
        told(1, 5),
        told(2, 10),
        told(3, 5),
        told(63, 5),
        told(64, 10),
        told(65, 5),
        told(66, 6),
        told(67, 5),
        told(0xFF_FFFE, 6),
        told(0xFF_FFFF, 5),
    ]
}

/// Word 0 and one block of 12 with one entry: words 1 to 3 header, 4 and 5 data, 6 its checksum.
fn checksums() -> Vec<Case> {
    let mut words = vec![DEVICE_ID];
    words.extend(Block::plain(0x12, vec![0x8000_0000, 0x0040_0400]).words());
    let case = |name, words: &[u32], number| Case::of_words(name, FRAMING, words).refused(number);
    vec![
        case("12_whole_block", &words, 10),
        case("12_without_data", &words[..4], 10),
        case("12_without_its_second_word", &words[..5], 10),
        case("12_without_data_checksum", &words[..6], 10),
        case("12_header_checksum_wrong", &flip(&words, 3, 0), 2),
        case("12_data_checksum_wrong", &flip(&words, 6, 31), 7),
        case("12_vlan_egr_flipped", &flip(&words, 4, 31), 7),
        case("12_vlan_ing_flipped", &flip(&words, 5, 10), 7),
    ]
}

/// K with VLAN 2 and so many entries from VLAN 1 to VLAN 2.
fn with_entries(entries: usize) -> Lists {
    let lists = with_vlan(open(), 2, 31, 31, 31);
    (0..entries).fold(lists, |lists, _| with_retagging(lists, 1, 1, 2))
}

/// The blocks of some lists with those of 12 cut behind these numbers of entries, 12 last.
fn cut(lists: &Lists, cuts: &[usize]) -> Vec<Block> {
    let mut blocks = plain_blocks(lists);
    blocks.retain(|block| block.id != 0x12);
    blocks.extend(cut_blocks(Table::Retagging, lists.of(Table::Retagging), cuts));
    blocks
}

fn of_blocks(name: &str, clause: &'static str, blocks: &[Block]) -> Case {
    Case::of_words(name, clause, &stream_of(blocks, End::default()))
}

fn lengths() -> Vec<Case> {
    let of = |name, entries, cuts: &[usize]| {
        of_blocks(name, LENGTHS, &cut(&with_entries(entries), cuts))
    };
    let mut half = plain_blocks(&with_entries(0));
    half.push(Block::plain(0x12, vec![0x8000_0000]));
    half.push(Block::plain(0x12, vec![0x0040_0400]));
    vec![
        of("12_absent", 0, &[]).loaded(),
        of("12_one", 1, &[]).loaded(),
        of("12_most", 32, &[]).loaded(),
        of("12_above", 33, &[]).refused(6),
        of("12_most_in_two", 32, &[31]).loaded(),
        of("12_above_in_two", 33, &[32]).refused(6),
        of("12_above_by_its_second", 33, &[1]).refused(6),
        of("12_most_one_by_one", 32, &[1; 32]).loaded(),
        of("12_above_one_by_one", 33, &[1; 33]).refused(6),
        of_blocks("12_entry_in_two_blocks", LENGTHS, &half).refused(5),
    ]
}

/// Entries of a later block follow on, and 12 may come before 07.
fn pieces() -> Vec<Case> {
    let lists = with_vlan(with_vlan(open(), 2, 31, 31, 31), 3, 31, 31, 0);
    let lists = with_retagging(with_retagging(lists, 1, 1, 3), 1, 1, 2);
    let lines = [
        "frame 1 sent 30 vlan 1 prio 0 tags 0 queues 0 0 0 0 0",
        "replica 1 sent 30 vlan 3 prio 0 tags 0 queues 0 0 0 0 0",
        "replica 1 sent 30 vlan 2 prio 0 tags 30 queues 0 0 0 0 0",
    ];
    let mut around = cut(&lists, &[1]);
    let last = around.remove(around.len() - 2);
    around.insert(0, last);
    let mut first = cut(&lists, &[]);
    first.rotate_right(1);
    let mut free = cut(&lists, &[1]);
    for block in &mut free {
        block.free_low = 0x00AB_CDEF;
        block.free_high = 0xFF;
    }
    let list = || List::new().frame(0, 0, &Frame::broadcast());
    let case = |name, blocks: &[Block]| of_blocks(name, BLOCKS, blocks).list(list()).lines(&lines);
    vec![
        case("12_in_one_block", &cut(&lists, &[])),
        case("12_in_two_blocks", &cut(&lists, &[1])),
        case("12_in_two_around_others", &around),
        case("12_before_all_others", &first),
        case("12_with_free_bits", &free),
    ]
}

fn rule_28() -> Vec<Case> {
    let known = |vlans: &[u64]| {
        vlans.iter().fold(k::lists(), |lists, &vlan| with_vlan(lists, vlan, 31, 31, 0))
    };
    let case = |name: &str, lists: &Lists, number| {
        let case = Case::of_lists(name, RULE_28, lists);
        if number == 0 {
            case.loaded()
        } else {
            case.refused(number)
        }
    };
    let entry = |vlans: &[u64], ports, ingress, egress| {
        with_retagging(known(vlans), ports, ingress, egress)
    };
    let mut cases = vec![
        case("28_both_known", &entry(&[2], 1, 1, 2), 0),
        case("28_both_known_turned", &entry(&[2], 1, 2, 1), 0),
        case("28_vlan_ing", &entry(&[2], 1, 3, 2), 28),
        case("28_vlan_egr", &entry(&[2], 1, 2, 3), 28),
        case("28_both_unknown", &entry(&[2], 1, 3, 3), 28),
        case("28_ing_port_0_known", &entry(&[2], 0, 1, 2), 0),
        case("28_ing_port_0_vlan_ing", &entry(&[2], 0, 3, 2), 28),
        case("28_ing_port_0_vlan_egr", &entry(&[2], 0, 2, 3), 28),
        case("28_ing_port_31_vlan_egr", &entry(&[2], 31, 2, 3), 28),
    ];
    for vlan in [0, 4095] {
        for (name, ingress, egress) in [("vlan_ing", vlan, 1), ("vlan_egr", 1, vlan)] {
            let of = |vlans: &[u64]| entry(vlans, 1, ingress, egress);
            cases.push(case(&format!("28_{name}_{vlan}_known"), &of(&[vlan]), 0));
            cases.push(case(&format!("28_{name}_{vlan}"), &of(&[]), 28));
        }
    }
    // One entry of many is enough, wherever it stands; and every bit of a VLAN counts.
    let full = with_entries(32);
    for number in [0, 15, 31] {
        for (name, field) in [("vlan_ing", retagging::VLAN_ING), ("vlan_egr", retagging::VLAN_EGR)]
        {
            let lists = with(full.clone(), &[(field, number, 3)]);
            cases.push(case(&format!("28_{name}_of_entry_{number}"), &lists, 28));
        }
    }
    for bit in 0..12 {
        let vlan = 1 ^ (1 << bit);
        let near = |field| with(with_retagging(k::lists(), 1, 1, 1), &[(field, 0, vlan)]);
        cases.push(case(&format!("28_vlan_ing_bit_{bit}"), &near(retagging::VLAN_ING), 28));
        cases.push(case(&format!("28_vlan_egr_bit_{bit}"), &near(retagging::VLAN_EGR), 28));
    }
    cases
}

/// Every rule before it is told first; 07 as it stands at the end is asked, not as far as it came.
fn rule_28_is_last() -> Vec<Case> {
    let address = |index| Address { vlan: 1, address: A, ports: 2, enforced: false, index };
    let two = |index| with_address(with_address(k::lists(), address(7)), address(index));
    let broken = |lists| with_retagging(lists, 1, 3, 3);
    let kept = |lists| with_retagging(lists, 1, 1, 1);
    let units = [(forwarding_parameters::part_spc(0), 0, 930)];
    let case = |name, lists: &Lists| Case::of_lists(name, RULE_28, lists);
    vec![
        case("28_alone", &broken(two(8))).refused(28),
        case("28_behind_25", &broken(two(7))).refused(25),
        case("28_kept_and_25", &kept(two(7))).refused(25),
        case("28_and_25_kept", &kept(two(8))).loaded(),
        case("28_behind_24", &broken(with(k::lists(), &units))).refused(24),
    ]
}
