//! Loading: a stream as one whole load of words or bytes, or as writes with a load state.
//! Document 01, "Numbers for a refused load": framing, and the last two paragraphs.

use crate::crc;
use crate::image::{count, count_place, make_zero, some_count_above_limit, start_of, too_short};
use crate::image::{LOADED, MARK};
use crate::rules;
use crate::stream::{words_of, DEVICE_ID};
use crate::tables::{Table, IDS_OF_TABLE_2};

/// The most words of one write.
pub(crate) const MOST_WORDS_A_WRITE: usize = 64;

/// What a load or a write answers.
#[derive(Clone, Copy, PartialEq, Eq, Debug)]
pub enum LoadAnswer {
    /// The end block is not complete; a write alone says this.
    More,
    /// Answer 0.
    Loaded,
    Refused(u32),
}

/// Which word comes next.
#[derive(Clone, Copy, PartialEq, Eq, Debug)]
pub enum Phase {
    /// Word 0.
    DeviceId,
    /// The first word of a header.
    BlockId,
    /// The second word of a header.
    Length,
    /// The third word of a header.
    HeaderChecksum,
    /// A data word.
    Data,
    /// The word behind the data.
    DataChecksum,
}

/// What is carried from one write to the next; the running counts stand in the image.
#[derive(Clone, Copy, PartialEq, Eq, Debug)]
pub struct LoadState {
    /// A write has been taken, whatever it answered.
    pub begun: bool,
    pub phase: Phase,
    /// The table of the block that is being loaded.
    pub table: Table,
    /// Data words of this block that stand in the image.
    pub placed: u64,
    /// Data words of this block that are still to come.
    pub due: u64,
    /// The first two words of this block's header.
    pub header: [u32; 2],
    /// The register over this block's data so far.
    pub data_register: u32,
    /// The register over every word so far.
    pub global_register: u32,
    /// The answer, once told.
    pub answer: Option<LoadAnswer>,
}

impl LoadState {
    /// The state before the first write.
    pub fn fresh() -> LoadState {
        LoadState {
            begun: false,
            phase: Phase::DeviceId,
            table: Table::L2AddressLookup,
            placed: 0,
            due: 0,
            header: [0, 0],
            data_register: crc::START,
            global_register: crc::START,
            answer: None,
        }
    }

    fn begun() -> LoadState {
        LoadState { begun: true, ..LoadState::fresh() }
    }

    /// No trace of order or checksums is left beside the answer.
    fn told(answer: LoadAnswer) -> LoadState {
        LoadState { answer: Some(answer), ..LoadState::begun() }
    }
}

/// One write of 1 to 64 words. Refusals 31, 30, 32 leave everything as found.
pub fn write(image: &mut [u32], state: LoadState, words: &[u32]) -> (LoadAnswer, LoadState) {
    if too_short(image) {
        return (LoadAnswer::Refused(31), state);
    }
    if state.begun && beyond_room(image, &state) {
        return (LoadAnswer::Refused(30), state);
    }
    if words.is_empty() || words.len() > MOST_WORDS_A_WRITE {
        return (LoadAnswer::Refused(32), state);
    }
    if !state.begun {
        // The first write of a load: whatever else the state holds is not read.
        make_zero(image);
        return take(image, LoadState::begun(), words);
    }
    if let Some(answer) = state.answer {
        return (answer, state);
    }
    take(image, state, words)
}

/// A whole load of words: "more" at the end is 10.
pub fn load_words(image: &mut [u32], words: &[u32]) -> LoadAnswer {
    if too_short(image) {
        return LoadAnswer::Refused(31);
    }
    make_zero(image);
    let (answer, _) = take(image, LoadState::begun(), words);
    if answer == LoadAnswer::More {
        make_zero(image);
        return LoadAnswer::Refused(10);
    }
    answer
}

/// A whole load of bytes: 31, then 9, then the words.
pub fn load_bytes(image: &mut [u32], bytes: &[u8]) -> LoadAnswer {
    if too_short(image) {
        return LoadAnswer::Refused(31);
    }
    if bytes.len() % 4 != 0 {
        return LoadAnswer::Refused(9);
    }
    load_words(image, &words_of(bytes))
}

/// 30: a count above its limit, or more words due than the block's table has room for.
fn beyond_room(image: &[u32], state: &LoadState) -> bool {
    if some_count_above_limit(image) {
        return true;
    }
    let inside_a_block = state.phase == Phase::Data || state.phase == Phase::DataChecksum;
    let words = state.table.words() as u128;
    let held = count(image, state.table) as u128 * words;
    let room = state.table.most() as u128 * words;
    // A sum, so that no subtraction hides an edited number.
    inside_a_block && held + u128::from(state.placed) + u128::from(state.due) > room
}

/// Takes the words one by one until an answer is told; words behind it are ignored.
fn take(image: &mut [u32], state: LoadState, words: &[u32]) -> (LoadAnswer, LoadState) {
    let mut state = state;
    for &word in words {
        let answer = step(image, &mut state, word);
        if let LoadAnswer::Refused(_) = answer {
            make_zero(image);
        }
        if answer != LoadAnswer::More {
            return (answer, LoadState::told(answer));
        }
    }
    (LoadAnswer::More, state)
}

/// One word of the stream.
fn step(image: &mut [u32], state: &mut LoadState, word: u32) -> LoadAnswer {
    let answer = match state.phase {
        Phase::DeviceId => device_id(state, word),
        Phase::BlockId => block_id(state, word),
        Phase::Length => length(state, word),
        Phase::HeaderChecksum if block_length(state) == 0 => end_block(image, state, word),
        Phase::HeaderChecksum => header_checksum(image, state, word),
        Phase::Data if state.due > 0 => data(image, state, word),
        Phase::Data | Phase::DataChecksum => data_checksum(image, state, word),
    };
    // Every word before the global checksum counts in it, checksum words too.
    state.global_register = crc::add_word(state.global_register, word);
    answer
}

/// Length in data words: bits 23:0 of the second word.
fn block_length(state: &LoadState) -> u64 {
    u64::from(state.header[1] & 0x00FF_FFFF)
}

fn device_id(state: &mut LoadState, word: u32) -> LoadAnswer {
    if word != DEVICE_ID {
        return LoadAnswer::Refused(1);
    }
    state.phase = Phase::BlockId;
    LoadAnswer::More
}

fn block_id(state: &mut LoadState, word: u32) -> LoadAnswer {
    state.header[0] = word;
    state.phase = Phase::Length;
    LoadAnswer::More
}

fn length(state: &mut LoadState, word: u32) -> LoadAnswer {
    state.header[1] = word;
    state.phase = Phase::HeaderChecksum;
    LoadAnswer::More
}

/// Length 0 marks the end: 8, then the loading rules; the ID is not read.
fn end_block(image: &mut [u32], state: &LoadState, word: u32) -> LoadAnswer {
    if word != crc::finish(state.global_register) {
        return LoadAnswer::Refused(8);
    }
    if let Some(number) = rules::first_broken_rule(image) {
        return LoadAnswer::Refused(number);
    }
    image[MARK] = LOADED;
    LoadAnswer::Loaded
}

/// 2 to 6, told at the third header word.
fn header_checksum(image: &[u32], state: &mut LoadState, word: u32) -> LoadAnswer {
    let id = state.header[0].to_be_bytes()[0];
    let length = block_length(state);
    if word != crc::of_words(&state.header) {
        return LoadAnswer::Refused(2);
    }
    if !IDS_OF_TABLE_2.contains(&id) {
        return LoadAnswer::Refused(3);
    }
    let Some(table) = Table::of_id(id) else {
        return LoadAnswer::Refused(4);
    };
    if length % table.words() as u64 != 0 {
        return LoadAnswer::Refused(5);
    }
    let entries = length / table.words() as u64;
    if count(image, table) as u64 + entries > table.most() as u64 {
        return LoadAnswer::Refused(6);
    }
    state.table = table;
    state.placed = 0;
    state.due = length;
    state.data_register = crc::START;
    state.phase = Phase::Data;
    LoadAnswer::More
}

/// A data word goes to its place: behind the entries counted and the words placed.
fn data(image: &mut [u32], state: &mut LoadState, word: u32) -> LoadAnswer {
    let held = count(image, state.table) * state.table.words();
    image[start_of(state.table) + held + state.placed as usize] = word;
    state.placed += 1;
    state.due -= 1;
    state.data_register = crc::add_word(state.data_register, word);
    if state.due == 0 {
        state.phase = Phase::DataChecksum;
    }
    LoadAnswer::More
}

/// 7 after the data; the count rises when the checksum has passed.
fn data_checksum(image: &mut [u32], state: &mut LoadState, word: u32) -> LoadAnswer {
    if word != crc::finish(state.data_register) {
        return LoadAnswer::Refused(7);
    }
    let entries = state.placed / state.table.words() as u64;
    image[count_place(state.table)] += entries as u32;
    state.placed = 0;
    state.due = 0;
    state.phase = Phase::BlockId;
    LoadAnswer::More
}
