//! Walks: each word is the one that the load state waits for, so that a load goes on far behind an edit of it or of the image.

use cases::rng::Rng;
use reference::crc;
use reference::image::of_lists;
use reference::stream::{Lists, DEVICE_ID};
use reference::tables::{IDS_OF_TABLE_2, ROWS};

use crate::pair::Pair;
use crate::states::{any_table, any_told, is_state, TOLD};
use crate::streams::{dirty, edit};
use crate::tally::Tally;
use tailbow::raw::FlatLoad;

const WRITES: usize = 60;

/// A walk from a fresh load, or from between two blocks in an image of these lists.
pub fn walk(rng: &mut Rng, tally: &mut Tally, name: &str, lists: &Lists) {
    let mut pair = Pair::fresh(&dirty(rng));
    if rng.once_in(2) {
        let mut image = of_lists(lists);
        image.extend([rng.word(), rng.word()]);
        pair.put_buffer(&image);
        let (told, table) = (any_told(rng), any_table(rng));
        pair.put_state(FlatLoad { phase: 1, told, table, stream: rng.word(), ..pair.flat });
    }
    for _ in 0..WRITES {
        let sound = pair.clone();
        edit(rng, &mut pair, 12);
        let mut words = awaited(rng, &pair.flat);
        if rng.once_in(48) {
            let place = rng.place(words.len());
            words[place] ^= 1 << rng.below(32);
        }
        let answer = pair.write(tally, name, &words);
        if (30..=32).contains(&answer) {
            pair = sound;
        }
        if pair.flat.phase == TOLD {
            pair.write(tally, name, &words);
            return;
        }
    }
}

/// What these numbers wait for: the right word, or as many data words as a write takes.
fn awaited(rng: &mut Rng, flat: &FlatLoad) -> Vec<u32> {
    if !is_state(flat) {
        return vec![rng.word()];
    }
    match flat.phase {
        0 => vec![DEVICE_ID],
        1 => vec![rng.word() & 0x00FF_FFFF | u32::from(id(rng)) << 24],
        2 => vec![rng.word() & 0xFF00_0000 | length(rng, flat.first)],
        3 if flat.second & 0x00FF_FFFF == 0 => vec![crc::finish(flat.stream)],
        3 => vec![crc::of_words(&[flat.first, flat.second])],
        4 if flat.due == 0 => vec![crc::finish(flat.block)],
        4 => (0..rng.between(1, flat.due.min(64))).map(|_| rng.word()).collect(),
        _ => vec![rng.word()],
    }
}

/// Mostly a carried table's.
fn id(rng: &mut Rng) -> u8 {
    match rng.below(64) {
        0 => rng.pick(&IDS_OF_TABLE_2),
        1 => rng.word() as u8,
        _ => ROWS[rng.place(ROWS.len())].id,
    }
}

/// Mostly a few whole entries of the header's table; once in a while none, which is the end.
fn length(rng: &mut Rng, first: u32) -> u32 {
    let row = ROWS.iter().find(|row| u32::from(row.id) == first >> 24).unwrap_or(&ROWS[0]);
    let (words, most) = (row.words as u64, row.most as u64);
    let length = match rng.below(24) {
        0..=2 => 0,
        3 => most * words,
        4 => most * words + words,
        5 => rng.below(40),
        _ => words * rng.between(1, most.min(9)),
    };
    length as u32
}
