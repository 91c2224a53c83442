//! Loading: a whole stream block by block, or writes with a state lent by `&mut`.

use crate::flat::{FlatLoad, DATA, FRESH, ID, LENGTH, MORE, SUM, TOLD};

use super::crc::{copy_in, word, Words, START};
use super::image::*;
use super::rules::first_broken_rule;

const DEVICE_ID: u32 = 0x9E00_030E;
const MOST_WORDS_A_WRITE: usize = 64;

/// 2 to 6, or the block's table.
#[inline(always)]
fn header(image: &Image, first: u32, second: u32, sum: u32) -> Result<usize, u32> {
    if sum != !word(word(START, first), second) {
        return Err(2);
    }
    let table = table_of(first >> 24)?;
    let (length, size) = (second & 0x00FF_FFFF, SIZE[table] as u32);
    if length % size != 0 {
        return Err(5);
    }
    if image[COUNTS + table] + length / size > MOST[table] {
        return Err(6);
    }
    Ok(table)
}

/// 8, then the rules, then the mark.
#[inline(always)]
fn end(image: &mut Image, stream: u32, sum: u32) -> u32 {
    if sum != !stream {
        return 8;
    }
    let broken = first_broken_rule(image);
    if broken == 0 {
        image[MARK] = 1;
    }
    broken
}

/// Behind the entries that a table has.
#[inline(always)]
fn behind_entries(image: &Image, table: usize) -> usize {
    place_of(table, count(image, table))
}

#[inline(never)]
pub fn load_words(image: &mut [u32], words: &[u32]) -> u32 {
    let Some(image) = image_in(image) else {
        return 31;
    };
    load(image, words)
}

#[inline(never)]
pub fn load_bytes(image: &mut [u32], bytes: &[u8]) -> u32 {
    let Some(image) = image_in(image) else {
        return 31;
    };
    let (words, rest) = bytes.as_chunks::<4>();
    if !rest.is_empty() {
        return 9;
    }
    load(image, words)
}

#[inline(always)]
fn load<W: Words>(image: &mut Image, words: W) -> u32 {
    image.fill(0);
    let answer = blocks(image, words);
    if answer != 0 {
        image.fill(0);
    }
    answer
}

#[inline(always)]
fn blocks<W: Words>(image: &mut Image, words: W) -> u32 {
    if words.count() == 0 {
        return 10;
    }
    if words.at(0) != DEVICE_ID {
        return 1;
    }
    let mut stream = word(START, DEVICE_ID);
    let mut at = 1;
    loop {
        if words.count() - at < 3 {
            return 10;
        }
        let (first, second, sum) = (words.at(at), words.at(at + 1), words.at(at + 2));
        stream = word(word(stream, first), second);
        let length = (second & 0x00FF_FFFF) as usize;
        if length == 0 {
            return end(image, stream, sum);
        }
        let table = match header(image, first, second, sum) {
            Ok(table) => table,
            Err(number) => return number,
        };
        stream = word(stream, sum);
        at += 3;
        if words.count() - at <= length {
            return 10;
        }
        let place = behind_entries(image, table);
        let to = &mut image[place..place + length];
        let (after, block) = copy_in(words.part(at, length), to, stream, START);
        at += length;
        let sum = words.at(at);
        if sum != !block {
            return 7;
        }
        image[COUNTS + table] += (length / SIZE[table]) as u32;
        stream = word(after, sum);
        at += 1;
    }
}

/// 30: no phase; a count above its limit; in a block no table, or more words due than it has room for; "more" as the told answer.
#[inline(always)]
fn beyond(image: &Image, load: &FlatLoad) -> bool {
    match load.phase {
        FRESH => false,
        DATA => above_limit(image) || no_room(image, load),
        TOLD => above_limit(image) || load.told == MORE,
        phase => phase > TOLD || above_limit(image),
    }
}

/// Counts are within their limits.
#[inline(always)]
fn no_room(image: &Image, load: &FlatLoad) -> bool {
    let table = load.table as usize;
    if table >= TABLES {
        return true;
    }
    let room = (MOST[table] as usize - count(image, table)) * SIZE[table];
    load.placed.saturating_add(load.due) > room as u64
}

#[inline(never)]
pub fn write(image: &mut [u32], load: &mut FlatLoad, words: &[u32]) -> u32 {
    let Some(image) = image_in(image) else {
        return 31;
    };
    if beyond(image, load) {
        return 30;
    }
    if words.is_empty() || words.len() > MOST_WORDS_A_WRITE {
        return 32;
    }
    if load.phase == TOLD {
        return load.told;
    }
    // Mostly a write has data of one block alone.
    if load.phase == DATA && words.len() as u64 <= load.due {
        fill(image, load, words);
        return MORE;
    }
    write_across(image, load, words)
}

/// Data words that the block has room for.
#[inline(always)]
fn fill(image: &mut Image, load: &mut FlatLoad, data: &[u32]) {
    let place = behind_entries(image, load.table as usize) + load.placed as usize;
    load.placed += data.len() as u64;
    load.due -= data.len() as u64;
    if let [one] = data {
        image[place] = *one;
        (load.stream, load.block) = (word(load.stream, *one), word(load.block, *one));
        return;
    }
    let to = &mut image[place..place + data.len()];
    (load.stream, load.block) = copy_in(data, to, load.stream, load.block);
}

/// A write with more than data of one block.
#[inline(never)]
fn write_across(image: &mut Image, load: &mut FlatLoad, words: &[u32]) -> u32 {
    let answer = take(image, load, words);
    if answer != MORE {
        *load = FlatLoad { phase: TOLD, told: answer, ..FlatLoad::default() };
        if answer != 0 {
            image.fill(0);
        }
    }
    answer
}

/// The words up to an answer.
#[inline(always)]
fn take(image: &mut Image, load: &mut FlatLoad, words: &[u32]) -> u32 {
    let mut rest = words;
    if load.phase == FRESH {
        image.fill(0);
        if rest[0] != DEVICE_ID {
            return 1;
        }
        load.stream = word(START, DEVICE_ID);
        load.phase = ID;
        rest = &rest[1..];
    }
    while !rest.is_empty() {
        if load.phase == DATA && load.due > 0 {
            let (data, behind) = rest.split_at(rest.len().min(load.due as usize));
            fill(image, load, data);
            rest = behind;
            continue;
        }
        let next = rest[0];
        rest = &rest[1..];
        match load.phase {
            ID => {
                load.first = next;
                load.phase = LENGTH;
            }
            LENGTH => {
                load.second = next;
                load.phase = SUM;
            }
            SUM => {
                let length = load.second & 0x00FF_FFFF;
                if length == 0 {
                    return end(image, load.stream, next);
                }
                match header(image, load.first, load.second, next) {
                    Ok(table) => load.table = table as u32,
                    Err(number) => return number,
                }
                (load.placed, load.due, load.block) = (0, u64::from(length), START);
                load.phase = DATA;
            }
            _ => {
                if next != !load.block {
                    return 7;
                }
                let table = load.table as usize;
                image[COUNTS + table] += (load.placed / SIZE[table] as u64) as u32;
                load.phase = ID;
            }
        }
        load.stream = word(load.stream, next);
    }
    MORE
}
