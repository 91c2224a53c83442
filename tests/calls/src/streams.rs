//! What a stream is put through: whole loads, any cutting, refused writes in between, edits mid-load.

use cases::edit::edited_image;
use cases::generate::random_cutting;
use cases::rng::Rng;
use reference::image::{count_place, IMAGE_WORDS};
use reference::stream::words_of;
use reference::tables::ROWS;

use crate::pair::{load_bytes, load_words, Pair};
use crate::states::{edited, fresh_among_any, stateless, FRESH, TOLD};
use crate::tally::{same, same_words, Tally};
use tailbow::raw::MORE;

/// A buffer of any words: the image, and a rest of none to eight words.
pub fn dirty(rng: &mut Rng) -> Vec<u32> {
    let rest = rng.place(9);
    (0..IMAGE_WORDS + rest).map(|_| rng.word()).collect()
}

/// Bytes as a whole load of bytes, their words as a whole load and as writes; gives the answer to the words.
pub fn every_way(rng: &mut Rng, tally: &mut Tally, name: &str, bytes: &[u8]) -> u32 {
    let buffer = dirty(rng);
    let words = words_of(bytes);
    let (answer, whole) = load_words(tally, name, &buffer, &words);
    // The bytes stand at any address.
    let mut placed = vec![0; rng.place(4)];
    let start = placed.len();
    placed.extend(bytes);
    let (answer_to_bytes, of_bytes) = load_bytes(tally, name, &buffer, &placed[start..]);
    tally.result(if bytes.chunks_exact(4).remainder().is_empty() {
        same(name, answer_to_bytes, answer).and(same_words(name, &of_bytes, &whole))
    } else {
        same(name, answer_to_bytes, 9).and(same_words(name, &of_bytes, &buffer))
    });
    let cutting = random_cutting(rng, words.len());
    let (last, written) = in_writes(rng, tally, name, &buffer, &words, &cutting);
    tally.result(if last == MORE {
        same(name, answer, 10)
    } else {
        same(name, last, answer).and(same_words(name, &written, &whole))
    });
    answer
}

/// The words in writes of these lengths from a fresh state, once in a while with any numbers beside the phase, then some that repeat the
/// answer; gives the last answer and the buffer.
fn in_writes(
    rng: &mut Rng,
    tally: &mut Tally,
    name: &str,
    buffer: &[u32],
    words: &[u32],
    cutting: &[usize],
) -> (u32, Vec<u32>) {
    let mut pair = Pair::fresh(buffer);
    if rng.once_in(4) {
        pair.put_state(fresh_among_any(rng));
    }
    let (mut answer, mut place) = (MORE, 0);
    for &length in cutting {
        if rng.once_in(16) {
            refused(rng, tally, name, &mut pair);
        }
        answer = pair.write(tally, name, &words[place..place + length]);
        place += length;
    }
    if answer != MORE {
        for _ in 0..2 {
            refused(rng, tally, name, &mut pair);
            let again = any_words(rng);
            let repeated = pair.write(tally, name, &again);
            tally.result(same(name, repeated, answer));
        }
    }
    (answer, pair.ours)
}

fn any_words(rng: &mut Rng) -> Vec<u32> {
    (0..rng.between(1, 64)).map(|_| rng.word()).collect()
}

/// A write that is refused with 31, 30 or 32, after which the load goes on as before.
fn refused(rng: &mut Rng, tally: &mut Tally, name: &str, pair: &mut Pair) {
    let mut words = any_words(rng);
    if rng.once_in(2) {
        words.resize(rng.pick(&[0, 65, 66, 1000]), 0x9E00_030E);
    }
    let mut other = pair.clone();
    let mut expected = if words.is_empty() || words.len() > 64 { 32 } else { 0 };
    if rng.once_in(2) {
        other.put_state(stateless(rng, &pair.flat));
        expected = 30;
    } else if pair.flat.phase != FRESH && rng.once_in(2) {
        let row = &ROWS[rng.place(ROWS.len())];
        let mut above = pair.ours.clone();
        above[count_place(row.table)] = rng.pick(&[row.most as u32 + 1, u32::MAX]);
        other.put_buffer(&above);
        expected = 30;
    }
    if expected == 0 || rng.once_in(4) {
        let short = rng.pick(&[0, 1, IMAGE_WORDS - 1]);
        other.put_buffer(&pair.ours[..short]);
        expected = 31;
    }
    let answer = other.write(tally, name, &words);
    tally.result(same(name, answer, expected));
    if expected == 32 {
        *pair = other;
    }
}

/// The words in writes, with the state and the image edited between them; after an answer a load begins anew.
pub fn with_edits(rng: &mut Rng, tally: &mut Tally, name: &str, words: &[u32]) {
    let mut pair = Pair::fresh(&dirty(rng));
    let edits = rng.pick(&[3, 8, 32]);
    let mut place = 0;
    for length in random_cutting(rng, words.len()) {
        let now = &words[place..words.len().min(place + length)];
        let sound = pair.clone();
        edit(rng, &mut pair, edits);
        let answer = pair.write(tally, name, now);
        if (30..=32).contains(&answer) {
            // Mended, so that the load goes on.
            pair = sound;
            pair.write(tally, name, now);
        }
        place += now.len();
        if pair.flat.phase == TOLD || place == words.len() {
            pair.write(tally, name, now);
            pair = Pair::fresh(&pair.ours);
            place = 0;
        }
    }
}

/// Once in so many times an edit of the state, and one of the image.
pub fn edit(rng: &mut Rng, pair: &mut Pair, times: u64) {
    if rng.once_in(times) {
        let flat = edited(rng, &pair.flat);
        pair.put_state(flat);
    }
    if rng.once_in(2 * times) {
        let buffer = edited_image(rng, &pair.ours);
        pair.put_buffer(&buffer);
    }
}
