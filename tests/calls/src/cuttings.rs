//! Every cutting of short streams into writes, and every stride through a stream that loads.

use cases::build::not_carried;
use reference::crc;
use reference::stream::{stream_of, Block, End, DEVICE_ID};

use crate::pair::{load_words, Pair};
use crate::tally::{same, same_words, Tally};
use tailbow::raw::MORE;

/// The most words of a write.
const MOST: usize = 64;

/// Streams of a few words: each framing refusal, rule 20, and one that does not end; each with words behind its answer.
fn short_streams() -> Vec<(u32, Vec<u32>)> {
    let header =
        |first: u32, second: u32| vec![DEVICE_ID, first, second, crc::of_words(&[first, second])];
    let [not_carried, ..] = not_carried();
    let parameters = Block::plain(0x0D, vec![0x1234_5678]);
    let ports = Block::plain(0x4E, vec![0x9ABC_DEF0]);
    let mut wrong_header = header(0x0D00_0000, 1);
    wrong_header[3] ^= 1;
    let mut wrong_data = [&[DEVICE_ID][..], &parameters.words()].concat();
    wrong_data[5] ^= 1 << 31;
    let mut wrong_end = stream_of(std::slice::from_ref(&parameters), End::default());
    let last = wrong_end.len() - 1;
    wrong_end[last] ^= 1 << 7;
    let twice = [&[DEVICE_ID][..], &parameters.words(), &parameters.words()].concat();
    let mut streams = vec![
        (1, vec![DEVICE_ID ^ 1]),
        (2, wrong_header),
        (3, header(0x7700_0000, 1)),
        (4, header(u32::from(not_carried) << 24, 1)),
        (5, header(0x0700_0000, 3)),
        (5, header(0x1200_0000, 63)),
        (6, header(0x0700_0000, 8194)),
        (6, header(0x1200_0000, 66)),
        (6, twice),
        (7, wrong_data),
        (8, wrong_end),
        (20, stream_of(&[], End::default())),
        (20, stream_of(&[parameters.clone(), ports.clone()], End { first: 7, free_high: 9 })),
    ];
    for (_, words) in &mut streams {
        words.push(DEVICE_ID);
    }
    let open = [&[DEVICE_ID][..], &parameters.words(), &ports.words()[..4]].concat();
    streams.push((10, open));
    streams
}

/// Each short stream in every cutting: 2^(n-1) of them, as a tree whose branches share their first writes.
pub fn every_cutting(tally: &mut Tally, buffer: &[u32]) {
    for (number, words) in short_streams() {
        let name = format!("{number} in every cutting");
        let (answer, whole) = load_words(tally, &name, buffer, &words);
        tally.result(same(&name, answer, number));
        branch(tally, &name, &Pair::fresh(buffer), &words, &(answer, whole));
    }
}

/// All cuttings of what is left of a stream.
fn branch(tally: &mut Tally, name: &str, pair: &Pair, left: &[u32], whole: &(u32, Vec<u32>)) {
    for length in 1..=left.len().min(MOST) {
        let mut next = pair.clone();
        let answer = next.write(tally, name, &left[..length]);
        if length == left.len() {
            tally.result(as_whole(name, answer, &next.ours, whole));
        }
        branch(tally, name, &next, &left[length..], whole);
    }
}

/// A cutting's end agrees with the whole load: "more" where that says 10, else answer and buffer.
fn as_whole(name: &str, answer: u32, ours: &[u32], whole: &(u32, Vec<u32>)) -> Result<(), String> {
    if whole.0 == 10 {
        return same(name, answer, MORE);
    }
    same(name, answer, whole.0).and(same_words(name, ours, &whole.1))
}

/// A stream with a first write of each length from 1 to 64, then writes of each length from 1 to 64: 4,096 cuttings.
pub fn every_stride(tally: &mut Tally, name: &str, buffer: &[u32], words: &[u32]) {
    let whole = load_words(tally, name, buffer, words);
    for first in 1..=MOST.min(words.len()) {
        let mut begun = Pair::fresh(buffer);
        begun.write(tally, name, &words[..first]);
        for stride in 1..=MOST {
            let name = format!("{name} in writes of {first}, then {stride}");
            let mut pair = begun.clone();
            let mut answer = MORE;
            for write in words[first..].chunks(stride) {
                answer = pair.write(tally, &name, write);
            }
            if first < words.len() {
                tally.result(as_whole(&name, answer, &pair.ours, &whole));
            }
        }
    }
}
