//! Each call made twice, on equal buffers: by the proved entry and by the second program.

use cases::rng::Rng;
use reference::image::IMAGE_WORDS;
use reference::load::{self, LoadAnswer, LoadState};

use crate::states::{answered, is_state, meaning, number_of, state_of, told_and_table, TOLD};
use crate::tally::{same, same_words, Answer, Tally};
use tailbow::raw::{self as entries, FlatLoad};

/// A whole load of words; gives the answer and the buffer.
pub fn load_words(tally: &mut Tally, name: &str, buffer: &[u32], words: &[u32]) -> Told {
    let ours = |image: &mut [u32]| entries::load_words(image, words);
    let theirs = |image: &mut [u32]| load::load_words(image, words);
    whole(tally, "load_words", name, buffer, (&ours, &theirs))
}

/// A whole load of bytes, which may stand at any address; gives the answer and the buffer.
pub fn load_bytes(tally: &mut Tally, name: &str, buffer: &[u32], bytes: &[u8]) -> Told {
    let ours = |image: &mut [u32]| entries::load_bytes(image, bytes);
    let theirs = |image: &mut [u32]| load::load_bytes(image, bytes);
    whole(tally, "load_bytes", name, buffer, (&ours, &theirs))
}

/// An answer's number, and the buffer after it.
type Told = (u32, Vec<u32>);

/// The two calls of a whole load.
type Both<'a> = (&'a dyn Fn(&mut [u32]) -> u32, &'a dyn Fn(&mut [u32]) -> LoadAnswer);

fn whole(
    tally: &mut Tally,
    entry: &'static str,
    name: &str,
    buffer: &[u32],
    calls: Both<'_>,
) -> Told {
    let (mut ours, mut theirs) = (buffer.to_vec(), buffer.to_vec());
    let answer = calls.0(&mut ours);
    let expected = number_of(calls.1(&mut theirs));
    let compared = same("answer", answer, expected).and(same_words("buffer", &ours, &theirs));
    let compared = compared.map_err(|failure| format!("{name}: {failure}"));
    tally.call(entry, Answer::of_number(answer, "loaded"), compared);
    (answer, ours)
}

/// A load state as it is lent: its bytes as six numbers, between two that are nobody's.
#[derive(Clone, Copy, PartialEq, Eq, Debug)]
struct Lent([u64; 8]);

impl Lent {
    /// The upper half of the second number belongs to no field.
    fn of(load: &FlatLoad) -> Lent {
        const NOBODYS: u32 = 0x5A5A_A5A5;
        let two = |low: u32, high: u32| u64::from(low) | u64::from(high) << 32;
        Lent([
            two(NOBODYS, NOBODYS),
            two(load.phase, load.told),
            two(load.table, NOBODYS),
            load.placed,
            load.due,
            two(load.first, load.second),
            two(load.stream, load.block),
            two(NOBODYS, NOBODYS),
        ])
    }

    fn load(&mut self) -> &mut FlatLoad {
        // SAFETY: six such numbers are as long as a load state and aligned for it, and a load state may hold any numbers.
        unsafe { &mut *self.0[1..7].as_mut_ptr().cast() }
    }
}

/// A fresh load in a place where any numbers stood: each of its bytes is 0, and what is around it as found.
pub fn fresh_load(rng: &mut Rng, tally: &mut Tally) {
    let mut lent = Lent(std::array::from_fn(|_| rng.next()));
    let [before, .., behind] = lent.0;
    entries::fresh_load(lent.load());
    let compared = same("a fresh load", lent, Lent([before, 0, 0, 0, 0, 0, 0, behind]));
    tally.call("fresh_load", Answer::Told("done"), compared);
}

/// The six numbers as they lie behind a stream's writes of this length, from a fresh load on.
pub fn numbers_behind(buffer: &[u32], words: &[u32], length: usize) -> [u64; 6] {
    let (mut image, mut lent) = (buffer.to_vec(), Lent([u64::MAX; 8]));
    entries::fresh_load(lent.load());
    for write in words.chunks(length) {
        entries::write(&mut image, lent.load(), write);
    }
    let [_, numbers @ .., _] = lent.0;
    numbers
}

/// A load under way in both.
#[derive(Clone)]
pub struct Pair {
    pub ours: Vec<u32>,
    theirs: Vec<u32>,
    pub flat: FlatLoad,
    state: LoadState,
}

impl Pair {
    pub fn fresh(buffer: &[u32]) -> Pair {
        let mut lent = Lent([u64::MAX; 8]);
        entries::fresh_load(lent.load());
        Pair {
            ours: buffer.to_vec(),
            theirs: buffer.to_vec(),
            flat: *lent.load(),
            state: LoadState::fresh(),
        }
    }

    /// Puts the numbers of another state into both.
    pub fn put_state(&mut self, flat: FlatLoad) {
        self.flat = flat;
        if is_state(&flat) {
            self.state = state_of(&flat);
        }
    }

    /// Puts another buffer into both.
    pub fn put_buffer(&mut self, buffer: &[u32]) {
        self.ours = buffer.to_vec();
        self.theirs = buffer.to_vec();
    }

    /// One write in both; gives the answer.
    pub fn write(&mut self, tally: &mut Tally, name: &str, words: &[u32]) -> u32 {
        let (flat, buffer) = (self.flat, self.ours.clone());
        let mut lent = Lent::of(&flat);
        let told = entries::write(&mut self.ours, lent.load(), words);
        self.flat = *lent.load();
        let compared = same("what is no part of the state", lent, Lent::of(&self.flat))
            .and_then(|()| self.compare(flat, &buffer, told, words))
            .map_err(|failure| format!("{name}: a write of {words:08X?} at {flat:?}: {failure}"));
        let answer = if flat.phase == TOLD && told == flat.told {
            Answer::Told("repeated")
        } else {
            Answer::of_number(told, "loaded")
        };
        tally.call("write", answer, compared);
        told
    }

    fn compare(
        &mut self,
        flat: FlatLoad,
        buffer: &[u32],
        answer: u32,
        words: &[u32],
    ) -> Result<(), String> {
        if !is_state(&flat) {
            // The second program has no such state: 30 after 31, all as found.
            let expected = if buffer.len() < IMAGE_WORDS { 31 } else { 30 };
            same("answer", answer, expected)?;
            same("numbers as found", self.flat, flat)?;
            return same_words("buffer as found", &self.ours, buffer);
        }
        let (told, state) = load::write(&mut self.theirs, self.state, words);
        self.state = state;
        same("answer", answer, number_of(told))?;
        same_words("buffer", &self.ours, &self.theirs)?;
        same("numbers of a state", is_state(&self.flat), true)?;
        same("state", meaning(&state_of(&self.flat)), meaning(&state))?;
        let written = (self.flat.told, self.flat.table);
        same("told and table", written, told_and_table(&flat, &state))?;
        self.as_found(flat, buffer, answer)
    }

    /// A refused call and a repeated answer leave every number and word; a new answer leaves no other trace.
    fn as_found(&self, flat: FlatLoad, buffer: &[u32], answer: u32) -> Result<(), String> {
        if flat.phase == TOLD || (30..=32).contains(&answer) {
            same("numbers as found", self.flat, flat)?;
            return same_words("buffer as found", &self.ours, buffer);
        }
        if self.flat.phase == TOLD {
            return same("numbers after an answer", self.flat, answered(answer));
        }
        Ok(())
    }
}
