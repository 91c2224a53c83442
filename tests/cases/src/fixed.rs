//! Damage and arrangements that need no seed: every bit, every word, every byte, every cut.

use reference::k;
use reference::stream::{plain_blocks, plain_stream, stream_of, Block, End};
use reference::tables::{Table, ROWS};

use crate::case::{Case, Expect};
use crate::damage::{flip, refusal_of_flip};

pub fn cases() -> Vec<Case> {
    let mut cases = arrangements();
    cases.extend(damaged());
    cases.extend(cut_lists());
    cases
}

/// Blocks of K laid in every order of two, and every table cut between every two entries.
fn arrangements() -> Vec<Case> {
    let blocks = plain_blocks(&k::lists());
    let mut cases = Vec::new();
    for first in 0..blocks.len() {
        for second in first + 1..blocks.len() {
            let mut swapped = blocks.clone();
            swapped.swap(first, second);
            let words = stream_of(&swapped, End::default());
            let name = format!("swapped_{first}_{second}");
            cases.push(Case::of_words(&name, "document 01: blocks in any order", &words));
        }
    }
    for row in ROWS {
        let entries = k::lists().of(row.table).len();
        for cut in 1..entries.max(1) {
            let words = cut_in_two(row.table, cut);
            let name = format!("cut_{:02x}_{cut}", row.id);
            cases.push(Case::of_words(&name, "document 01: a table in several blocks", &words));
        }
    }
    cases.into_iter().map(|case| case.output(k::OUTPUT)).collect()
}

/// K with one table's block cut behind so many entries.
fn cut_in_two(table: Table, cut: usize) -> Vec<u32> {
    let mut blocks = Vec::new();
    for block in plain_blocks(&k::lists()) {
        if block.id == table.id() {
            let (first, second) = block.data.split_at(cut * table.words());
            blocks.push(Block::plain(block.id, first.to_vec()));
            blocks.push(Block::plain(block.id, second.to_vec()));
        } else {
            blocks.push(block);
        }
    }
    stream_of(&blocks, End::default())
}

/// The smallest stream that loads.
fn small() -> Vec<u32> {
    let mut lists = k::lists();
    lists.of_mut(Table::L2Policing).truncate(1);
    plain_stream(&lists)
}

/// Every single bit of the smallest stream turned over, and the stream cut behind every word.
fn damaged() -> Vec<Case> {
    let words = small();
    let mut cases = Vec::new();
    for word in 0..words.len() {
        for bit in 0..32 {
            let number = refusal_of_flip(&words, word, bit);
            let name = format!("flip_{word}_{bit}");
            let case = Case::of_words(&name, "CRC-32 sees every bit", &flip(&words, word, bit));
            cases.push(case.refused(number));
        }
    }
    let k_words = plain_stream(&k::lists());
    for length in 0..k_words.len() {
        let name = format!("truncated_{length}");
        let case = Case::of_words(&name, "document 01, refusal 10", &k_words[..length]);
        cases.push(case.refused(10));
    }
    cases
}

/// K's list cut behind every byte. Its parts: head to 5, frames to 77 and 149, release to 151,
/// frame to 222.
fn cut_lists() -> Vec<Case> {
    let list = k::list();
    let lines = [
        (77, "frame 1 sent 30 vlan 1 prio 0 tags 0 queues 0 0 0 0 0"),
        (149, "frame 2 drop 11"),
        (151, "release 3 ok"),
        (222, "frame 4 drop 1"),
    ];
    let mut cases = Vec::new();
    for length in 0..=list.len() {
        let mut expected: Vec<String> = Vec::new();
        for (end, line) in lines {
            if length >= end {
                expected.push(line.to_string());
            }
        }
        if ![5, 77, 149, 151, 222].contains(&length) {
            expected.push("list refused 52".to_string());
        }
        cases.push(
            Case::of_lists(&format!("list_cut_{length}"), "document 01, refusal 52", &k::lists())
                .list_bytes(list[..length].to_vec())
                .expecting(Expect::Lines(expected)),
        );
    }
    cases
}
