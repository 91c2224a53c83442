//! Named cases of the stream, the framing refusals and the loading rules.
//! Each expectation is derived by hand from the clause it names.

use reference::crc;
use reference::k;
use reference::stream::{bytes_of, cut_blocks, plain_blocks, plain_stream, stream_of};
use reference::stream::{Block, End, Lists, DEVICE_ID};
use reference::tables::{address_lookup, forwarding_parameters, mac_configuration, policing};
use reference::tables::{vlan_lookup, Table, ROWS};

use crate::build::{not_carried, open_with, refusal_of_id, with, with_address, with_vlan};
use crate::build::{Address, A, B};
use crate::case::Case;
use crate::damage::one_entry_a_block;
use crate::rules::{least_entries, RULES};

const HEADERS: &str = "decisions, The stream: 2 to 6 are told at the third header word";
const END: &str = "decisions, The stream: an end block by bits 23:0 of its second word alone";
const TABLE_2: &str = "decisions, The stream: table 2's IDs are 00 to 12 and 4E";
const LENGTHS: &str = "decisions, The stream: 5 before 6; 6 counts earlier blocks";
const ENDINGS: &str = "decisions, The stream: no words 10; a refusal told beats 10";
const BYTES: &str = "decisions, The stream: 9 counts all bytes and comes before 1";
const LINEAR: &str = "decisions, The stream: checksums are linear";
const ORDER: &str = "document 01, framing in order 8, else 2, 3, 4, 5, 6, 7";
const RULES_22_TO_25: &str = "decisions, The stream: rules 22 to 25";
const FREE: &str = "document 01, The stream: other header bits are free; blocks in any order";

pub fn cases() -> Vec<Case> {
    let mut cases = Vec::new();
    cases.extend(headers());
    cases.extend(every_id());
    cases.extend(end_blocks());
    cases.extend(lengths());
    cases.extend(endings());
    cases.extend(bytes());
    cases.extend(linear());
    cases.extend(order());
    cases.extend(free());
    cases.extend(rules());
    cases.extend(rule_pairs());
    cases
}

/// A header with its right checksum, with nothing before it but word 0.
fn header_alone(id: u8, length: u32) -> Vec<u32> {
    let header = [u32::from(id) << 24, length];
    vec![DEVICE_ID, header[0], header[1], crc::of_words(&header)]
}

fn k_words() -> Vec<u32> {
    plain_stream(&k::lists())
}

fn headers() -> Vec<Case> {
    let two_words = [DEVICE_ID, 0x7700_0000, 5];
    let mut wrong = header_alone(0x07, 2);
    wrong[3] ^= 1;
    let [.., last_id] = not_carried();
    vec![
        Case::of_words("id_77_without_third_word", HEADERS, &two_words).refused(10),
        Case::of_words("header_alone_tells_2", HEADERS, &wrong).refused(2),
        Case::of_words("header_alone_tells_3", HEADERS, &header_alone(0x77, 5)).refused(3),
        Case::of_words("header_alone_tells_4", HEADERS, &header_alone(last_id, 2)).refused(4),
        Case::of_words("header_alone_tells_5", HEADERS, &header_alone(0x07, 3)).refused(5),
        Case::of_words("header_alone_tells_6", HEADERS, &header_alone(0x07, 8194)).refused(6),
        Case::of_words("header_alone_passes", HEADERS, &header_alone(0x07, 2)).refused(10),
    ]
}

/// Every ID, with a length of whole entries where the table is carried and no data behind.
fn every_id() -> Vec<Case> {
    let mut cases = Vec::new();
    for id in 0..=255 {
        let length = Table::of_id(id).map_or(1, |table| table.words() as u32);
        let case = Case::of_words(&format!("id_{id:02x}"), TABLE_2, &header_alone(id, length));
        cases.push(case.refused(refusal_of_id(id)));
    }
    cases
}

fn end_blocks() -> Vec<Case> {
    let odd_end = End { first: 0x77AB_CDEF, free_high: 0xFF };
    let k_blocks = plain_blocks(&k::lists());
    let odd = stream_of(&k_blocks, odd_end);
    let mut damaged_id = k_words();
    let last = damaged_id.len() - 1;
    damaged_id[last - 2] ^= 0x0100_0000;
    let mut damaged_free = k_words();
    damaged_free[last - 1] ^= 0x8000_0000;
    let bad_header = [DEVICE_ID, 0x7700_0000, 0xFF00_0000, 0];
    let alone = stream_of(&[], odd_end);
    let mut behind = k_words();
    behind.extend([0xFFFF_FFFF, 0, 0x1234_5678]);
    let mut early = stream_of(&k_blocks[..3], End::default());
    early.extend(&k_words()[1..]);
    vec![
        Case::of_words("end_second_word_ff000000", END, &odd).output(k::OUTPUT),
        Case::of_words("end_id_counts_in_8", END, &damaged_id).refused(8),
        Case::of_words("end_free_bits_count_in_8", END, &damaged_free).refused(8),
        Case::of_words("end_is_never_2_or_3", END, &bad_header).refused(8),
        Case::of_words("end_alone_is_20", END, &alone).refused(20),
        Case::of_words("end_without_third_word", END, &k_words()[..last]).refused(10),
        Case::of_words("words_behind_the_end", END, &behind).output(k::OUTPUT),
        Case::of_words("an_early_end_is_the_end", END, &early).refused(20),
    ]
}

fn lengths() -> Vec<Case> {
    let full_header = header_alone(0x07, 8192);
    let mut twice = vec![Block::plain(0x0D, vec![0]); 2];
    twice.extend(plain_blocks(&k::lists()));
    let vlan = k::lists().of(Table::VlanLookup)[0].clone();
    let halves = [Block::plain(0x07, vec![vlan[0]]), Block::plain(0x07, vec![vlan[1]])];
    let mut nine_08 = plain_blocks(&k::lists());
    nine_08.push(Block::plain(0x08, vec![0; 2]));
    vec![
        Case::of_words("length_ffffff", LENGTHS, &header_alone(0x07, 0xFF_FFFF)).refused(5),
        Case::of_words("length_fffffe", LENGTHS, &header_alone(0x07, 0xFF_FFFE)).refused(6),
        Case::of_words("length_odd_and_above", LENGTHS, &header_alone(0x07, 8195)).refused(5),
        Case::of_words("length_8192_fits", LENGTHS, &full_header).refused(10),
        Case::of_words("free_bits_are_no_length", LENGTHS, &free_length()).refused(10),
        Case::of_words("0d_twice", LENGTHS, &stream_of(&twice, End::default())).refused(6),
        Case::of_words("08_with_14", LENGTHS, &stream_of(&nine_08, End::default())).refused(6),
        Case::of_words("entry_in_two_blocks", LENGTHS, &stream_of(&halves, End::default()))
            .refused(5),
    ]
}

/// Bits 31:24 of the second word set: the length is still 2.
fn free_length() -> Vec<u32> {
    header_alone(0x07, 0xFF00_0002)
}

fn endings() -> Vec<Case> {
    let block = Block::plain(0x07, vec![0x0800_0000, 0x003F_F000]).words();
    let mut no_checksum = vec![DEVICE_ID];
    no_checksum.extend(&block[..5]);
    let mut whole_block = vec![DEVICE_ID];
    whole_block.extend(&block);
    let mut wrong_data = whole_block.clone();
    wrong_data[6] ^= 0x8000_0000;
    vec![
        Case::of_words("no_words", ENDINGS, &[]).refused(10),
        Case::of_words("word_0_wrong_alone", ENDINGS, &[0x9E00_030F]).refused(1),
        Case::of_words("word_0_alone", ENDINGS, &[DEVICE_ID]).refused(10),
        Case::of_words("word_0_of_bytes_turned", ENDINGS, &[0x0E03_009E]).refused(1),
        Case::of_words("data_without_checksum", ENDINGS, &no_checksum).refused(10),
        Case::of_words("block_without_end", ENDINGS, &whole_block).refused(10),
        Case::of_words("seven_beats_10", ENDINGS, &wrong_data).refused(7),
        Case::of_words("five_beats_10", ENDINGS, &header_alone(0x09, 8)).refused(5),
    ]
}

fn bytes() -> Vec<Case> {
    let k_bytes = bytes_of(&k_words());
    let behind = |bytes: &[u8]| [&k_bytes[..], bytes].concat();
    let of_bytes = |name, stream| Case::of_bytes(name, BYTES, stream);
    vec![
        of_bytes("zero_bytes", vec![]).refused(10),
        of_bytes("one_byte", vec![0x9E]).refused(9),
        of_bytes("nine_before_one", vec![0, 0, 0, 0, 0]).refused(9),
        of_bytes("nine_counts_behind_the_end", behind(&[0])).refused(9),
        of_bytes("two_bytes_behind", behind(&[0, 0])).refused(9),
        of_bytes("three_bytes_behind", behind(&[0, 0, 0])).refused(9),
        of_bytes("four_bytes_behind", behind(&[1, 2, 3, 4])).output(k::OUTPUT),
        of_bytes("one_byte_short", k_bytes[..795].to_vec()).refused(9),
        of_bytes("nine_before_two", k_bytes[..17].to_vec()).refused(9),
    ]
}

/// A checksum behind what it covers leaves a register that does not depend on what it covers:
/// the global checksum sees neither a mended data word nor a mended header's free bits.
fn linear() -> Vec<Case> {
    let global = k_words()[198];
    let mut blocks = plain_blocks(&k::lists());
    // The last block is 4E, whose one word is kept and not used.
    let last = blocks.len() - 1;
    blocks[last].data[0] = 0xFFFE_0000;
    let mended_data = with_global(&blocks, global);
    let mut blocks = plain_blocks(&k::lists());
    blocks[0].free_low = 0x00AB_CDEF;
    blocks[0].free_high = 0x55;
    let mended_header = with_global(&blocks, global);
    // Two blocks of different lengths in another order: this the global checksum sees.
    let mut blocks = plain_blocks(&k::lists());
    blocks.swap(0, 1);
    let swapped = with_global(&blocks, global);
    // An entry more: a length has changed.
    let blocks = plain_blocks(&with_vlan(k::lists(), 2, 31, 31, 0));
    let longer = with_global(&blocks, global);
    vec![
        Case::of_words("mended_data_is_not_seen", LINEAR, &mended_data).output(k::OUTPUT),
        Case::of_words("mended_header_is_not_seen", LINEAR, &mended_header).output(k::OUTPUT),
        Case::of_words("swapped_blocks_are_seen", LINEAR, &swapped).refused(8),
        Case::of_words("a_longer_block_is_seen", LINEAR, &longer).refused(8),
    ]
}

fn with_global(blocks: &[Block], global: u32) -> Vec<u32> {
    let mut words = stream_of(blocks, End::default());
    let last = words.len() - 1;
    words[last] = global;
    words
}

fn order() -> Vec<Case> {
    // Wrong in several ways at once; the first question decides.
    let wrong = |id: u8, length: u32| {
        let mut words = header_alone(id, length);
        words[3] ^= 0x0001_0000;
        words
    };
    let [first_id, middle_id, _] = not_carried();
    let mut word_0 = wrong(0x77, 3);
    word_0[0] = 0;
    let mut two_blocks = vec![DEVICE_ID];
    let mut first = Block::plain(0x07, vec![1, 2]).words();
    first[5] ^= 1;
    two_blocks.extend(first);
    two_blocks.extend(&wrong(0x77, 3)[1..]);
    let mut all_wrong_end = vec![DEVICE_ID];
    all_wrong_end.extend([0x77FF_FFFF, 0x0000_0000, 0]);
    vec![
        Case::of_words("1_before_2", ORDER, &word_0).refused(1),
        Case::of_words("2_before_3", ORDER, &wrong(0x77, 3)).refused(2),
        Case::of_words("2_before_4", ORDER, &wrong(middle_id, 3)).refused(2),
        Case::of_words("2_before_5", ORDER, &wrong(0x07, 3)).refused(2),
        Case::of_words("2_before_6", ORDER, &wrong(0x07, 8194)).refused(2),
        Case::of_words("3_whatever_the_length", ORDER, &header_alone(0x13, 0xFF_FFFF)).refused(3),
        Case::of_words("4_whatever_the_length", ORDER, &header_alone(first_id, 0xFF_FFFF))
            .refused(4),
        Case::of_words("5_before_6_in_05", ORDER, &header_alone(0x05, 3074)).refused(5),
        Case::of_words("6_in_05", ORDER, &header_alone(0x05, 3075)).refused(6),
        Case::of_words("7_before_the_next_block", ORDER, &two_blocks).refused(7),
        Case::of_words("8_of_an_end_that_looks_wrong", ORDER, &all_wrong_end).refused(8),
    ]
}

fn free() -> Vec<Case> {
    let mut reversed = plain_blocks(&k::lists());
    reversed.reverse();
    let mut free_bits = plain_blocks(&k::lists());
    for (number, block) in free_bits.iter_mut().enumerate() {
        block.free_low = 0x00FF_FFFF - number as u32;
        block.free_high = 0xFF - number as u8;
    }
    let odd_end = End { first: 0xFFFF_FFFF, free_high: 0xFF };
    // 08 in two blocks with another table between them: its entries follow on.
    let forwarding = k::lists().of(Table::L2Forwarding).clone();
    let mut parts = cut_blocks(Table::L2Forwarding, &forwarding, &[7]);
    let mut split = plain_blocks(&k::lists());
    split.retain(|block| block.id != 0x08);
    split.push(parts.remove(1));
    split.insert(0, parts.remove(0));
    vec![
        Case::of_words("blocks_reversed", FREE, &stream_of(&reversed, End::default()))
            .output(k::OUTPUT),
        Case::of_words("free_bits_set", FREE, &stream_of(&free_bits, odd_end)).output(k::OUTPUT),
        Case::of_words("08_split_around_others", FREE, &stream_of(&split, End::default()))
            .output(k::OUTPUT),
        Case::of_words("one_entry_a_block", FREE, &one_entry_a_block(&k::lists()))
            .output(k::OUTPUT),
    ]
}

fn address(index: u64, address: u64, vlan: u64) -> Address {
    Address { vlan, address, ports: 31, enforced: false, index }
}

fn rules() -> Vec<Case> {
    let of_lists = |name, lists: &Lists| Case::of_lists(name, RULES_22_TO_25, lists);
    let closed = [
        (mac_configuration::INGRESS, 3, 0),
        (mac_configuration::EGRESS, 3, 0),
        (mac_configuration::VLANID, 3, 9),
    ];
    let not_member = [(vlan_lookup::VMEMB_PORT, 0, 0b11011)];
    let mut spread: Vec<_> =
        (0..8).map(|partition| (forwarding_parameters::part_spc(partition), 0, 116)).collect();
    spread[0].2 = 117;
    let sum_929 = with(k::lists(), &spread);
    spread[7].2 = 117;
    let sum_930 = with(k::lists(), &spread);
    let twins = with_address(with_address(k::lists(), address(5, A, 1)), address(6, A, 1));
    let one_index = with_address(with_address(k::lists(), address(5, A, 1)), address(5, B, 2));
    // Entry 0 names entry 44, which comes in a later block.
    let shared = with(k::lists(), &[(policing::SHARINDX, 0, 44)]);
    let mut blocks = cut_blocks(Table::L2Policing, shared.of(Table::L2Policing), &[1]);
    blocks.extend(plain_blocks(&shared).into_iter().skip(1));
    let mut cases = vec![
        of_lists("22_asks_closed_ports", &open_with(&closed)).refused(22),
        of_lists("22_asks_no_membership", &open_with(&not_member)).loaded(),
        of_lists("24_adds_all_eight_929", &sum_929).loaded(),
        of_lists("24_adds_all_eight_930", &sum_930).refused(24),
        of_lists("25_one_address_two_indexes", &twins).loaded(),
        of_lists("25_two_addresses_one_index", &one_index).refused(25),
        Case::of_words("23_final_count", RULES_22_TO_25, &stream_of(&blocks, End::default()))
            .loaded(),
    ];
    // An absent table is no zero entry: only one that rule 20 does not ask for may be absent.
    for row in ROWS {
        let mut lists = k::lists();
        lists.of_mut(row.table).clear();
        let name = format!("20_without_{:02x}", row.id);
        let case = Case::of_lists(&name, "document 01, rule 20", &lists);
        let optional = least_entries(row.table) == 0;
        cases.push(if optional { case.loaded() } else { case.refused(20) });
    }
    cases
}

/// One plain breach of each rule.
fn breach(lists: &mut Lists, rule: u32) {
    match rule {
        20 => lists.of_mut(Table::XmiiModeParameters).clear(),
        21 => {
            let twin = lists.of(Table::VlanLookup)[0].clone();
            lists.of_mut(Table::VlanLookup).push(twin);
        }
        22 => lists.put(mac_configuration::VLANID, 4, 9),
        23 => lists.put(policing::SHARINDX, 0, 63),
        24 => lists.put(forwarding_parameters::part_spc(0), 0, 930),
        25 => {
            for _ in 0..2 {
                let number = lists.push_zero(Table::L2AddressLookup);
                lists.put(address_lookup::INDEX, number, 7);
            }
        }
        // All zero names VLAN 0, and K has VLAN 1 alone.
        28 => {
            lists.push_zero(Table::Retagging);
        }
        _ => unreachable!("nothing here breaks rule {rule}"),
    }
}

/// Two rules broken at once: the one that is asked first is told.
fn rule_pairs() -> Vec<Case> {
    let mut cases = Vec::new();
    for (turn, &first) in RULES.iter().enumerate() {
        for &second in &RULES[turn..] {
            let mut lists = k::lists();
            breach(&mut lists, first);
            if second != first {
                breach(&mut lists, second);
            }
            let name = format!("rules_{first}_and_{second}");
            let clause = "document 01, loading rules, run in this order";
            cases.push(Case::of_lists(&name, clause, &lists).refused(first));
        }
    }
    cases
}
