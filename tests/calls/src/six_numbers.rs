//! Named cases of the six numbers in which a load state is lent (D62): what is no load state, what is not read, what a write leaves as it
//! stood and what it makes 0. Answers and numbers stand here by hand; the second program is asked beside them, as at every write.

use cases::build::not_carried;
use reference::crc;
use reference::image::{count_place, IMAGE_WORDS};
use reference::k;
use reference::load::LoadState;
use reference::stream::{plain_stream, stream_of, Block, End, DEVICE_ID};
use reference::tables::{Table, ROWS};
use tailbow::raw::{FlatLoad, MORE};

use crate::pair::{numbers_behind, Pair};
use crate::states::{DATA, FRESH, NO_PHASES, NO_TABLES, TOLD};
use crate::tally::{same, same_words, Tally};

/// A case; the buffer holds any words, so every count in it is far above its limit.
type Case = fn(&mut Tally, &str, &[u32]);

const CASES: [(&str, Case); 12] = [
    ("a_phase_above_5", a_phase_above_5),
    ("more_was_never_told", more_was_never_told),
    ("any_other_number_may_have_been_told", any_other_number_may_have_been_told),
    ("a_tables_place_in_a_block", a_tables_place_in_a_block),
    ("any_table_outside_a_block", any_table_outside_a_block),
    ("a_first_write_is_never_30", a_first_write_is_never_30),
    ("told_and_table_behind_every_write", told_and_table_behind_every_write),
    ("the_table_where_the_phase_stays", the_table_where_the_phase_stays),
    ("the_table_behind_an_answer", the_table_behind_an_answer),
    ("the_table_behind_a_load", the_table_behind_a_load),
    ("no_trace_of_the_cutting", no_trace_of_the_cutting),
    ("told_and_table_behind_a_refused_write", told_and_table_behind_a_refused_write),
];

pub fn cases(tally: &mut Tally, buffer: &[u32]) {
    for (name, case) in CASES {
        case(tally, name, buffer);
    }
}

/// The number of tables, which is the first that no table has: 10.
const MANY: u32 = ROWS.len() as u32;

/// Where each table's first word stands in the image, by the table's number: 9 is 12.
const STARTS: [usize; 10] = [0, 3072, 3162, 11354, 11380, 11415, 11416, 11419, 11429, 11430];

/// Table numbers at both sides of the last.
const TABLES: [u32; 4] = [0, MANY - 1, MANY, u32::MAX];

const POLICING: u32 = Table::L2Policing.place() as u32;
const VLANS: u32 = Table::VlanLookup.place() as u32;
const PARAMETERS: u32 = Table::L2LookupParameters.place() as u32;
const PORTS: u32 = Table::XmiiModeParameters.place() as u32;

/// Word 0, a block of 0D, a block of 4E, each with one word, and an end block, which rule 20 refuses.
fn stream() -> Vec<u32> {
    let parameters = Block::plain(0x0D, vec![0x1234_5678]);
    let ports = Block::plain(0x4E, vec![0x9ABC_DEF0]);
    stream_of(&[parameters, ports], End::default())
}

const WORDS: usize = 14;

/// The phase behind so many words of it, and in the data phase the table.
const BEHIND: [(u32, Option<u32>); WORDS + 1] = [
    (FRESH, None),
    (1, None),
    (2, None),
    (3, None),
    (DATA, Some(PARAMETERS)),
    (DATA, Some(PARAMETERS)),
    (1, None),
    (2, None),
    (3, None),
    (DATA, Some(PORTS)),
    (DATA, Some(PORTS)),
    (1, None),
    (2, None),
    (3, None),
    (TOLD, None),
];

/// Every write of its words that ends outside a block in the phase in which it began: that phase, and from which place to which. It goes
/// through one block or through both.
const STAYS: [(u32, usize, usize); 9] = [
    (1, 1, 6),
    (1, 1, 11),
    (1, 6, 11),
    (2, 2, 7),
    (2, 2, 12),
    (2, 7, 12),
    (3, 3, 8),
    (3, 3, 13),
    (3, 8, 13),
];

/// A load behind so many words of the stream.
fn begun(tally: &mut Tally, name: &str, buffer: &[u32], words: usize) -> Pair {
    let mut pair = Pair::fresh(buffer);
    if words > 0 {
        pair.write(tally, name, &stream()[..words]);
    }
    tally.result(same(name, pair.flat.phase, BEHIND[words].0));
    pair
}

/// The same load with these two numbers; a number that its phase reads stays.
fn with(sound: &Pair, told: u32, table: u32) -> Pair {
    let mut pair = sound.clone();
    let mut flat = sound.flat;
    if flat.phase != TOLD {
        flat.told = told;
    }
    if flat.phase != DATA {
        flat.table = table;
    }
    pair.put_state(flat);
    pair
}

/// Each number at this one but for the phase.
fn filled(phase: u32, number: u32) -> FlatLoad {
    let wide = u64::from(number) << 32 | u64::from(number);
    FlatLoad {
        phase,
        told: number,
        table: number,
        placed: wide,
        due: wide,
        first: number,
        second: number,
        stream: number,
        block: number,
    }
}

/// A write that comes to this answer, phase, told answer and table.
fn held(tally: &mut Tally, name: &str, pair: &mut Pair, words: &[u32], expected: [u32; 4]) {
    let found = pair.flat;
    let answer = pair.write(tally, name, words);
    let FlatLoad { phase, told, table, .. } = pair.flat;
    let got = [answer, phase, told, table];
    let compared = same("answer, phase, told, table", got, expected);
    tally.result(
        compared.map_err(|failure| format!("{name}: {words:08X?} at {found:?}: {failure}")),
    );
}

/// A write that gives this answer and leaves every number and word as found.
fn left(tally: &mut Tally, name: &str, pair: &mut Pair, words: &[u32], expected: u32) {
    let (found, buffer) = (pair.flat, pair.ours.clone());
    let answer = pair.write(tally, name, words);
    let compared = same("answer", answer, expected)
        .and(same("numbers as found", pair.flat, found))
        .and(same_words("buffer as found", &pair.ours, &buffer));
    tally.result(
        compared.map_err(|failure| format!("{name}: {words:08X?} at {found:?}: {failure}")),
    );
}

/// Numbers that are no load state, on an image that has nothing against it: 30 at any length of a write, 31 where the buffer is short.
fn no_state(tally: &mut Tally, name: &str, sound: &Pair, flat: FlatLoad) {
    let long = vec![DEVICE_ID; 65];
    for words in [&long[..1], &long[..64], &long[..0], &long] {
        let mut pair = sound.clone();
        pair.put_state(flat);
        left(tally, name, &mut pair, words, 30);
        for short in [0, IMAGE_WORDS - 1] {
            pair.put_buffer(&sound.ours[..short]);
            left(tally, name, &mut pair, words, 31);
        }
    }
}

/// 5 is the last phase; above it 30, whatever else stands there.
fn a_phase_above_5(tally: &mut Tally, name: &str, buffer: &[u32]) {
    let sound = begun(tally, name, buffer, WORDS);
    left(tally, name, &mut sound.clone(), &[DEVICE_ID], 20);
    for phase in NO_PHASES {
        for number in TABLES {
            no_state(tally, name, &sound, filled(phase, number));
        }
        no_state(tally, name, &sound, FlatLoad { phase, ..sound.flat });
    }
}

/// Loads that were answered, by the words of a stream that was refused and of one that was loaded.
fn answered(tally: &mut Tally, name: &str, buffer: &[u32]) -> [Pair; 2] {
    let refused = begun(tally, name, buffer, WORDS);
    let mut loaded = Pair::fresh(buffer);
    for words in plain_stream(&k::lists()).chunks(64) {
        loaded.write(tally, name, words);
    }
    tally.result(same(name, (loaded.flat.phase, loaded.flat.told), (TOLD, 0)));
    [refused, loaded]
}

/// In the last phase FFFFFFFF, the number of "more", is no answer that was told, whatever the table's number.
fn more_was_never_told(tally: &mut Tally, name: &str, buffer: &[u32]) {
    for sound in answered(tally, name, buffer) {
        for table in TABLES {
            let told = FlatLoad { told: 0xFFFF_FFFF, table, ..sound.flat };
            no_state(tally, name, &sound, told);
            no_state(tally, name, &sound, FlatLoad { table, ..filled(TOLD, 0xFFFF_FFFF) });
        }
        // The answer put back, it is repeated.
        left(tally, name, &mut sound.clone(), &[DEVICE_ID], sound.flat.told);
    }
}

/// Any other number is repeated as it is, behind 31 and 32.
fn any_other_number_may_have_been_told(tally: &mut Tally, name: &str, buffer: &[u32]) {
    let numbers = [0xFFFF_FFFE, 0x7FFF_FFFF, 0x8000_0000, 0xFFFF, 0, 1, 20, 30, 31, 32, 77];
    for sound in answered(tally, name, buffer) {
        for told in numbers {
            for table in TABLES {
                for flat in [sound.flat, filled(TOLD, u32::MAX)] {
                    let mut pair = sound.clone();
                    pair.put_state(FlatLoad { told, table, ..flat });
                    left(tally, name, &mut pair, &[DEVICE_ID; 64], told);
                    left(tally, name, &mut pair, &[], 32);
                    left(tally, name, &mut pair, &[DEVICE_ID; 65], 32);
                    pair.put_buffer(&sound.ours[..IMAGE_WORDS - 1]);
                    left(tally, name, &mut pair, &[DEVICE_ID], 31);
                }
            }
        }
    }
}

/// In the data phase 9 is the last table's; above it 30, where a data word is due and where the checksum is.
fn a_tables_place_in_a_block(tally: &mut Tally, name: &str, buffer: &[u32]) {
    // Behind word 0: no entry has come.
    let sound = begun(tally, name, buffer, 1);
    let register = LoadState::fresh().data_register;
    for told in [0, MORE] {
        let block = FlatLoad { phase: DATA, told, block: register, ..FlatLoad::default() };
        let with_data = FlatLoad { due: 1, ..block };
        for (table, start) in (0..).zip(STARTS) {
            let mut pair = sound.clone();
            pair.put_state(FlatLoad { table, ..with_data });
            held(tally, name, &mut pair, &[0x1234_5678], [MORE, DATA, told, table]);
            tally.result(same(name, pair.ours[start], 0x1234_5678));
            let mut pair = sound.clone();
            pair.put_state(FlatLoad { table, ..block });
            held(tally, name, &mut pair, &[crc::finish(register)], [MORE, 1, told, 0]);
        }
        tally.result(same(name, NO_TABLES[0], 10));
        for table in NO_TABLES {
            no_state(tally, name, &sound, FlatLoad { table, ..with_data });
            no_state(tally, name, &sound, FlatLoad { table, ..block });
            no_state(tally, name, &sound, FlatLoad { table, due: u64::MAX, ..block });
        }
    }
}

/// In any other phase every number is let by: a first write, each word of a header and of the end, and a told answer go on. A word moves
/// the phase there, so that it leaves 0 or enters a block; a told answer leaves the number.
fn any_table_outside_a_block(tally: &mut Tally, name: &str, buffer: &[u32]) {
    let stream = stream();
    for place in (0..=WORDS).filter(|&place| BEHIND[place].1.is_none()) {
        let sound = begun(tally, name, buffer, place);
        for table in (0..MANY).chain(NO_TABLES) {
            let mut pair = with(&sound, 0, table);
            if place == WORDS {
                left(tally, name, &mut pair, &[DEVICE_ID], 20);
                continue;
            }
            let (phase, entered) = BEHIND[place + 1];
            let (answer, told) = if place + 1 == WORDS { (20, 20) } else { (MORE, 0) };
            let expected = [answer, phase, told, entered.unwrap_or(0)];
            held(tally, name, &mut pair, &stream[place..=place], expected);
        }
    }
}

/// Whatever the other numbers are and whatever the image holds. Refused, it leaves them; else the phase moves, and the table is 0 or that
/// of the block in which it ends.
fn a_first_write_is_never_30(tally: &mut Tally, name: &str, buffer: &[u32]) {
    let stream = stream();
    let numbers = TABLES.into_iter().chain([MORE - 1, 1 << 31]);
    for number in numbers {
        let mut sound = Pair::fresh(buffer);
        sound.put_state(filled(FRESH, number));
        left(tally, name, &mut sound.clone(), &[], 32);
        left(tally, name, &mut sound.clone(), &[DEVICE_ID; 65], 32);
        let mut short = sound.clone();
        short.put_buffer(&buffer[..IMAGE_WORDS - 1]);
        left(tally, name, &mut short, &stream, 31);
        left(tally, name, &mut short, &[], 31);
        for (words, (phase, entered)) in BEHIND.into_iter().enumerate().skip(1) {
            let (answer, told) = if words == WORDS { (20, 20) } else { (MORE, number) };
            let expected = [answer, phase, told, entered.unwrap_or(0)];
            held(tally, name, &mut sound.clone(), &stream[..words], expected);
        }
        held(tally, name, &mut sound.clone(), &[DEVICE_ID ^ 1], [1, TOLD, 1, 0]);
    }
}

/// Every write from one place of the stream to another: it goes on in a header, enters a block, goes on in it, leaves it, goes through one
/// or two, and comes from one into the next. The table is that of the block in which it ends; else the one that stood before the write
/// where the phase stays, and 0 where it moves.
fn told_and_table_behind_every_write(tally: &mut Tally, name: &str, buffer: &[u32]) {
    let stream = stream();
    for from in 0..WORDS {
        let sound = begun(tally, name, buffer, from);
        for (told, table) in [(0, 0), (MORE, MANY), (MORE - 1, u32::MAX), (30, POLICING)] {
            for (to, (phase, entered)) in BEHIND.into_iter().enumerate().skip(from + 1) {
                let (answer, told_after) = if to == WORDS { (20, 20) } else { (MORE, told) };
                let outside = if STAYS.contains(&(phase, from, to)) { table } else { 0 };
                let expected = [answer, phase, told_after, entered.unwrap_or(outside)];
                let mut pair = with(&sound, told, table);
                held(tally, name, &mut pair, &stream[from..to], expected);
            }
        }
    }
}

/// Through whole blocks every number stays, a table's or not. The next word moves the phase: it leaves 0, or enters a block.
fn the_table_where_the_phase_stays(tally: &mut Tally, name: &str, buffer: &[u32]) {
    let stream = stream();
    for (phase, from, to) in STAYS {
        let sound = begun(tally, name, buffer, from);
        for table in (0..MANY).chain(NO_TABLES) {
            let mut pair = with(&sound, 77, table);
            held(tally, name, &mut pair, &stream[from..to], [MORE, phase, 77, table]);
            let (phase, entered) = BEHIND[to + 1];
            let (answer, told) = if to + 1 == WORDS { (20, 20) } else { (MORE, 77) };
            let expected = [answer, phase, told, entered.unwrap_or(0)];
            held(tally, name, &mut pair, &stream[to..=to], expected);
        }
    }
}

/// A header that is refused so.
fn refused_header(number: u32) -> [u32; 3] {
    let [not_carried, ..] = not_carried();
    let (first, second) = match number {
        3 => (0x7700_0000, 1),
        4 => (u32::from(not_carried) << 24, 1),
        5 => (0x0700_0000, 3),
        _ => (0x0700_0000, 8194),
    };
    [first, second, crc::of_words(&[first, second]) ^ u32::from(number == 2)]
}

/// An answer leaves its phase and its number, and 0 in every other number, whatever the table was. It is then repeated.
fn the_table_behind_an_answer(tally: &mut Tally, name: &str, buffer: &[u32]) {
    let stream = stream();
    let damaged = |from: usize, to: usize| {
        let mut words = stream[from..to].to_vec();
        words[to - from - 1] ^= 1;
        words
    };
    // The place, which may be in a block, the words, and the number.
    let mut writes = vec![
        (0, damaged(0, 1), 1),
        (0, damaged(0, 6), 7),
        (1, damaged(1, 6), 7),
        (3, damaged(3, 4), 2),
        (3, damaged(3, 6), 7),
        (4, damaged(4, 6), 7),
        (5, damaged(5, 6), 7),
        (4, damaged(4, 9), 2),
        (4, damaged(4, 11), 7),
        (9, damaged(9, 11), 7),
        (10, damaged(10, 14), 8),
        (13, damaged(13, 14), 8),
        (4, stream[4..].to_vec(), 20),
        (10, stream[10..].to_vec(), 20),
        (13, stream[13..].to_vec(), 20),
    ];
    for number in 2..=6 {
        let header = refused_header(number);
        writes.push((1, header.to_vec(), number));
        writes.push((5, [&stream[5..6], &header].concat(), number));
    }
    for (place, mut words, number) in writes {
        let sound = begun(tally, name, buffer, place);
        // Words behind an answer are ignored.
        words.push(DEVICE_ID);
        for table in TABLES {
            let mut pair = with(&sound, MORE, table);
            held(tally, name, &mut pair, &words, [number, TOLD, number, 0]);
            let expected = FlatLoad { phase: 5, told: number, ..FlatLoad::default() };
            tally.result(same(name, pair.flat, expected));
            left(tally, name, &mut pair, &stream, number);
        }
    }
}

/// K's end, from inside its last block, 4E, and from behind it; and from inside its first, 06, to between two blocks.
fn the_table_behind_a_load(tally: &mut Tally, name: &str, buffer: &[u32]) {
    let words = plain_stream(&k::lists());
    let end = words.len();
    let mut pair = Pair::fresh(buffer);
    held(tally, name, &mut pair, &words[..64], [MORE, DATA, 0, POLICING]);
    held(tally, name, &mut pair, &words[64..95], [MORE, 1, 0, 0]);
    held(tally, name, &mut pair, &words[95..97], [MORE, 3, 0, 0]);
    held(tally, name, &mut pair, &words[97..98], [MORE, DATA, 0, VLANS]);
    for rest in words[98..end - 5].chunks(64) {
        pair.write(tally, name, rest);
    }
    let mut inside = pair.clone();
    tally.result(same(name, (inside.flat.phase, inside.flat.table), (DATA, PORTS)));
    held(tally, name, &mut inside, &words[end - 5..], [0, TOLD, 0, 0]);
    held(tally, name, &mut pair, &words[end - 5..end - 3], [MORE, 1, 0, 0]);
    for table in TABLES {
        held(tally, name, &mut with(&pair, MORE, table), &words[end - 3..], [0, TOLD, 0, 0]);
    }
}

/// K from a fresh load, in writes of 1, 64, 5 and 7 words, whose last begins in phase 3, 2, 4 and 1: the same six numbers, phase 5 and
/// answer 0 in the first of them and 0 in all others.
fn no_trace_of_the_cutting(tally: &mut Tally, name: &str, buffer: &[u32]) {
    let words = plain_stream(&k::lists());
    for (length, last) in [(1, 3), (64, 2), (5, DATA), (7, 1)] {
        let mut pair = Pair::fresh(buffer);
        let (mut answer, mut phase) = (MORE, FRESH);
        for write in words.chunks(length) {
            tally.result(same(name, answer, MORE));
            phase = pair.flat.phase;
            answer = pair.write(tally, name, write);
        }
        tally.result(same(name, (answer, phase), (0, last)));
        let expected = FlatLoad { phase: 5, told: 0, ..FlatLoad::default() };
        tally.result(same(name, pair.flat, expected));
        let numbers = numbers_behind(buffer, &words, length);
        tally.result(same(name, numbers, [5, 0, 0, 0, 0, 0]));
    }
}

/// A write that is refused with 31, 30 or 32, at every place, leaves both numbers as they stood, and all else.
fn told_and_table_behind_a_refused_write(tally: &mut Tally, name: &str, buffer: &[u32]) {
    for place in 0..=WORDS {
        let sound = begun(tally, name, buffer, place);
        let phase = BEHIND[place].0;
        for (told, table) in [(0, 0), (MORE, MANY), (MORE - 1, u32::MAX)] {
            let lent = with(&sound, told, table);
            left(tally, name, &mut lent.clone(), &[], 32);
            left(tally, name, &mut lent.clone(), &[DEVICE_ID; 65], 32);
            let mut short = lent.clone();
            short.put_buffer(&sound.ours[..IMAGE_WORDS - 1]);
            left(tally, name, &mut short, &[DEVICE_ID], 31);
            if phase != FRESH {
                let row = &ROWS[place % ROWS.len()];
                let mut above = sound.ours.clone();
                above[count_place(row.table)] = row.most as u32 + 1;
                let mut counted = lent.clone();
                counted.put_buffer(&above);
                left(tally, name, &mut counted, &[DEVICE_ID], 30);
            }
            if phase == DATA {
                let mut due = lent.clone();
                due.put_state(FlatLoad { due: lent.flat.due + 1, ..lent.flat });
                left(tally, name, &mut due, &[DEVICE_ID], 30);
            }
        }
    }
}
