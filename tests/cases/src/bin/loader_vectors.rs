//! Writes what the gate program `crates/loader_vectors` is run on and what it must print: streams,
//! and what the second program makes of each. Nothing of the proved loader is asked.
//!
//! In the folder tests/: cargo run --release --offline --bin loader_vectors [FOLDER]
//!
//! Without a folder the files go to that of the crate.
//! stdin has a name of 32 bytes, a length of 4 (high byte first) and the stream, for each case.
//! stdout has a line a case: the name, then six ways of loading it, each with its answer and the
//! checksum of the whole buffer afterwards. Four words more than the image stand in the buffer, and
//! all of it holds A5A5A5A5 beforehand: so a refusal that leaves a word shows, as does a word
//! written where everything is to be left as found. Bytes that are no whole words load as bytes only.

use std::fs;
use std::path::{Path, PathBuf};

use cases::build::{with, with_address, with_retagging, with_vlan, Address, A};
use cases::case::{Case, Expect};
use cases::damage::{flip, refusal_of_flip};
use cases::rules::least_entries;
use cases::{named_retagging, named_streams};
use reference::crc;
use reference::image::IMAGE_WORDS;
use reference::k;
use reference::load::{load_bytes, load_words, write, LoadAnswer, LoadState};
use reference::stream::{cut_blocks, plain_blocks, plain_stream, stream_of, words_of};
use reference::stream::{Block, End, Lists};
use reference::tables::{address_lookup, mac_configuration, policing, vlan_lookup, Table, ROWS};

const NAME_BYTES: usize = 32;
const FOUND: u32 = 0xA5A5_A5A5;
const CLAUSE: &str =
    "document 01, The stream and Numbers for a refused load; document 02, request 2";

fn main() {
    let top = Path::new(env!("CARGO_MANIFEST_DIR")).join("../..");
    let mut all = vectors(&top.join("tests/vectors"));
    all.extend(named_streams::cases());
    all.extend(named_retagging::cases());
    all.extend(every_limit());
    all.extend(long_tables());
    all.extend(neighbours());
    all.extend(cuts());
    all.extend(flips(&top.join("tests/vectors/01_min.bin")));
    let (mut input, mut output) = (Vec::new(), String::new());
    for case in &all {
        assert!(case.name.len() <= NAME_BYTES, "{}: a name of {NAME_BYTES} bytes", case.name);
        assert!(case.stream.len() <= 65_536, "{}: a stream of 65,536 bytes", case.name);
        let name = format!("{:<NAME_BYTES$}", case.name);
        input.extend(name.as_bytes());
        input.extend((case.stream.len() as u32).to_be_bytes());
        input.extend(&case.stream);
        output.push_str(&format!("{name}{}\n", line_of(case)));
    }
    assert!(all.len() <= 4096, "the program runs 4,096 cases");
    let told = std::env::args_os().nth(1).map(PathBuf::from);
    let folder = told.unwrap_or_else(|| top.join("crates/loader_vectors"));
    fs::write(folder.join("stdin"), input).expect("stdin is written");
    fs::write(folder.join("stdout"), output).expect("stdout is written");
}

/// The six ways, each on a buffer of its own. What the case expects by hand is held to first.
fn line_of(case: &Case) -> String {
    let mut buffer = fresh_buffer();
    let answer = load_bytes(&mut buffer, &case.stream);
    let stated = match case.expect {
        Expect::Refused(number) => Some(LoadAnswer::Refused(number)),
        Expect::Anything => None,
        _ => Some(LoadAnswer::Loaded),
    };
    assert!(stated.is_none() || stated == Some(answer), "{}: {answer:?}", case.name);
    let mut line = format!(" bytes {}", told(answer, &buffer));
    if case.stream.len() % 4 != 0 {
        return line;
    }
    let words = words_of(&case.stream);
    let mut buffer = fresh_buffer();
    let answer = load_words(&mut buffer, &words);
    line.push_str(&format!(" words {}", told(answer, &buffer)));
    for most in [1, 7, 64, 65] {
        let mut buffer = fresh_buffer();
        let answer = in_writes(&mut buffer, &words, most);
        line.push_str(&format!(" by {most} {}", told(answer, &buffer)));
    }
    line
}

fn fresh_buffer() -> Vec<u32> {
    vec![FOUND; IMAGE_WORDS + 4]
}

/// The last write's answer; "more" where there is no word to write.
fn in_writes(buffer: &mut [u32], words: &[u32], most: usize) -> LoadAnswer {
    let mut state = LoadState::fresh();
    let mut answer = LoadAnswer::More;
    for part in words.chunks(most) {
        (answer, state) = write(buffer, state, part);
    }
    answer
}

fn told(answer: LoadAnswer, buffer: &[u32]) -> String {
    let answer = match answer {
        LoadAnswer::More => "more".to_string(),
        LoadAnswer::Loaded => "0".to_string(),
        LoadAnswer::Refused(number) => number.to_string(),
    };
    format!("{answer} {:08x}", crc::of_words(buffer))
}

/// The streams that Linux's driver packed, with the answers that the page beside them gives.
fn vectors(folder: &Path) -> Vec<Case> {
    let stated = [
        ("01_min", 0),
        ("02_K", 0),
        ("06_rand", 0),
        ("13_maxfields", 0),
        ("15_mem929", 0),
        ("16_mem930", 24),
        ("21_short08", 20),
    ];
    let mut cases = Vec::new();
    for (name, number) in stated {
        let stream = fs::read(folder.join(format!("{name}.bin"))).expect("a stream");
        cases.push(stating(Case::of_bytes(name, CLAUSE, stream), number));
    }
    cases
}

fn stating(case: Case, number: u32) -> Case {
    if number == 0 {
        case.loaded()
    } else {
        case.refused(number)
    }
}

fn of_blocks(name: &str, blocks: &[Block], number: u32) -> Case {
    stating(Case::of_words(name, CLAUSE, &stream_of(blocks, End::default())), number)
}

fn of_lists(name: &str, lists: &Lists, number: u32) -> Case {
    stating(Case::of_words(name, CLAUSE, &plain_stream(lists)), number)
}

/// K with so many entries of a table, each of which breaks no rule where the table may have it.
fn k_with(table: Table, entries: usize) -> Lists {
    let mut lists = k::lists();
    lists.of_mut(table).truncate(entries);
    while lists.of(table).len() < entries {
        let number = lists.of(table).len() as u64;
        lists = match table {
            Table::L2AddressLookup => with_address(lists, address(number)),
            Table::VlanLookup => with_vlan(lists, (number + 1) % 4096, 31, 31, 0),
            Table::Retagging => with_retagging(lists, number % 32, 1, 1),
            _ => {
                lists.push_zero(table);
                lists
            }
        };
    }
    if table == Table::L2Policing {
        for number in 0..entries {
            lists.put(policing::SHARINDX, number, 0);
        }
    }
    lists
}

fn address(index: u64) -> Address {
    Address { vlan: 1, address: A + index, ports: 2, enforced: false, index }
}

/// Every small table from no entry to one above its most, in one block and with its last entry in a
/// block of its own.
fn every_limit() -> Vec<Case> {
    let mut cases = Vec::new();
    for row in ROWS.iter().filter(|row| row.most <= 45) {
        let near = [0, 1, row.most - 1, row.most, row.most + 1];
        for (turn, &entries) in near.iter().enumerate() {
            if near[..turn].contains(&entries) {
                continue;
            }
            let number = match entries {
                entries if entries > row.most => 6,
                entries if entries < least_entries(row.table) => 20,
                _ => 0,
            };
            let lists = k_with(row.table, entries);
            let name = format!("{:02x}_with_{entries}", row.id);
            cases.push(of_lists(&name, &lists, number));
            if entries > 1 {
                let blocks = with_last_apart(&lists, row.table);
                cases.push(of_blocks(&format!("{name}_last_apart"), &blocks, number));
            }
        }
    }
    cases
}

/// The plain blocks, with a table's last entry in a block behind all others.
fn with_last_apart(lists: &Lists, table: Table) -> Vec<Block> {
    let entries = lists.of(table);
    let mut blocks = plain_blocks(lists);
    blocks.retain(|block| block.id != table.id());
    let mut parts = cut_blocks(table, entries, &[entries.len() - 1]);
    blocks.insert(0, parts.remove(0));
    blocks.extend(parts);
    blocks
}

/// 05 and 07 at their most entries and one above, in one block and in two; their last entry like their first.
fn long_tables() -> Vec<Case> {
    let (addresses, vlans) = (Table::L2AddressLookup, Table::VlanLookup);
    let full = k_with(vlans, 4096);
    let above = k_with(vlans, 4097);
    let twin = with(full.clone(), &[(vlan_lookup::VLANID, 4095, 1)]);
    let far = with(k_with(addresses, 1024), &[(address_lookup::INDEX, 1023, 0)]);
    vec![
        of_lists("07_length_8192", &full, 0),
        of_blocks("07_length_8190_and_2", &with_last_apart(&full, vlans), 0),
        of_blocks("07_length_8192_and_2", &with_last_apart(&above, vlans), 6),
        of_lists("07_4096_last_like_first", &twin, 21),
        of_lists("05_with_1024", &k_with(addresses, 1024), 0),
        of_lists("05_with_1025", &k_with(addresses, 1025), 6),
        of_blocks("05_1025_last_apart", &with_last_apart(&k_with(addresses, 1025), addresses), 6),
        of_lists("05_1024_last_like_first", &far, 25),
    ]
}

/// Rules 21 to 25 on both sides.
fn neighbours() -> Vec<Case> {
    let two_vlans = with_vlan(k::lists(), 2, 0, 0, 0);
    let one_vlan_twice = with_vlan(k::lists(), 1, 0, 0, 0);
    let port_4 = |vlan| with(two_vlans.clone(), &[(mac_configuration::VLANID, 4, vlan)]);
    let two_places = |index| with_address(with_address(k::lists(), address(7)), address(index));
    let mut cases = vec![
        of_lists("21_vlans_1_and_2", &two_vlans, 0),
        of_lists("21_vlan_1_twice", &one_vlan_twice, 21),
        of_lists("22_port_4_in_vlan_2", &port_4(2), 0),
        of_lists("22_port_4_in_vlan_3", &port_4(3), 22),
        of_lists("25_index_7_and_6", &two_places(6), 0),
        of_lists("25_index_7_twice", &two_places(7), 25),
    ];
    for count in [1, 2, 44, 45] {
        let few = k_with(Table::L2Policing, count);
        for (shared, number) in [(count - 1, 0), (count, 23), (63, 23)] {
            let lists = with(few.clone(), &[(policing::SHARINDX, count - 1, shared as u64)]);
            cases.push(of_lists(&format!("23_sharindx_{shared}_of_{count}"), &lists, number));
        }
    }
    cases
}

/// K's words cut at each place of its first block's header, at its data's ends, and near the end block.
fn cuts() -> Vec<Case> {
    let words = plain_stream(&k::lists());
    let last = words.len() - 1;
    let mut cases = Vec::new();
    for kept in [0, 1, 2, 3, 4, 5, 93, 94, 95, 96, last - 3, last - 2, last - 1, last] {
        let name = format!("k_cut_to_{kept}");
        cases.push(Case::of_words(&name, CLAUSE, &words[..kept]).refused(10));
    }
    cases
}

/// The smallest stream with one bit turned over in each word; `refusal_of_flip` says by hand what that gives.
fn flips(stream: &Path) -> Vec<Case> {
    let words = words_of(&fs::read(stream).expect("a stream"));
    let mut cases = Vec::new();
    for word in 0..words.len() {
        let bit = (word * 7 % 32) as u32;
        let number = refusal_of_flip(&words, word, bit);
        let flipped = flip(&words, word, bit);
        let name = format!("01_min_word_{word}_bit_{bit}");
        cases.push(Case::of_words(&name, CLAUSE, &flipped).refused(number));
    }
    cases
}
