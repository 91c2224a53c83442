//! `cases write`: pairs of files `NNNNN_name.bin` and `NNNNN_name.lst`, for running two programs on.

use std::fs;
use std::io;
use std::path::Path;

use reference::stream::bytes_of;

use crate::case::Case;
use crate::check::{generated, named};
use crate::damage::{one_entry_a_block, rearranged};
use crate::generate::{random_config, random_list, Profile};
use crate::rng::Rng;
use crate::{boundaries, fixed};

/// Rounds of the boundaries: their surroundings differ, their places do not.
const BOUNDARY_ROUNDS: usize = 6;

/// Streams with every table at its most entries.
const FULL_STREAMS: usize = 8;

/// Writes every case and so many generated ones; gives how many pairs.
pub fn write(folder: &Path, seed: u64, generated_cases: usize) -> io::Result<usize> {
    fs::create_dir_all(folder)?;
    let cases = all(seed, generated_cases);
    for (number, case) in cases.iter().enumerate() {
        let stem = format!("{number:05}_{}", case.name);
        fs::write(folder.join(format!("{stem}.bin")), &case.stream)?;
        fs::write(folder.join(format!("{stem}.lst")), &case.list)?;
    }
    Ok(cases.len())
}

/// Every case that is a stream and a list.
pub(crate) fn all(seed: u64, generated_cases: usize) -> Vec<Case> {
    let mut rng = Rng::new(seed);
    let mut cases = named();
    cases.extend(fixed::cases());
    for _ in 0..BOUNDARY_ROUNDS {
        cases.extend(boundaries::cases(&mut rng));
    }
    cases.extend(full(&mut rng));
    for number in 0..generated_cases {
        cases.push(generated(&mut rng, number));
    }
    cases
}

/// Full tables; the first stream with every entry in a block of its own, the longest that loads.
fn full(rng: &mut Rng) -> Vec<Case> {
    let mut cases = Vec::new();
    for number in 0..FULL_STREAMS {
        let lists = random_config(rng, Profile::Full);
        let words = if number == 0 { one_entry_a_block(&lists) } else { rearranged(rng, &lists) };
        let name = format!("full_{number}");
        let case = Case::of_bytes(&name, "every table at its most entries", bytes_of(&words));
        cases.push(case.list_bytes(random_list(rng)).loaded());
    }
    cases
}

#[cfg(test)]
mod tests {
    use super::*;

    /// A pin: the longest stream that can load, as the decisions count it.
    #[test]
    fn the_longest_stream_has_32374_words() {
        let lists = random_config(&mut Rng::new(1), Profile::Full);
        assert_eq!(one_entry_a_block(&lists).len(), 32_374);
    }

    #[test]
    fn one_seed_gives_one_set_of_cases() {
        let (first, second) = (all(7, 20), all(7, 20));
        assert_eq!(first.len(), second.len());
        for (one, other) in first.iter().zip(&second) {
            assert_eq!((&one.stream, &one.list), (&other.stream, &other.list));
        }
    }
}
