//! `calls [--seed SEED] [--rounds ROUNDS] [--nights NIGHTS]`: the proved entries, linked, compared call by call with the second program.
//! One run is a night's work with one seed, which is printed. With `--nights` there are so many, each with a fresh seed; `--seed` with
//! a printed seed, and no `--nights`, makes that night's calls again.

mod cuttings;
mod flips;
mod frames;
mod lists;
mod pair;
mod replicas;
mod six_numbers;
mod states;
mod streams;
mod tally;
mod walks;

use std::path::PathBuf;
use std::process::ExitCode;
use std::time::{Instant, SystemTime, UNIX_EPOCH};

use cases::damage::{flip, one_entry_a_block, rearranged, refusal_of_flip};
use cases::generate::{random_config, random_stream, Profile};
use cases::rng::Rng;
use cases::rules::RULES;
use cases::{boundaries, check, fixed};
use reference::image::{of_lists, FIRST_COUNT, IMAGE_WORDS};
use reference::stream::{bytes_of, words_of};
use tailbow::raw::MORE;

use frames::sequence;
use pair::{fresh_load, load_bytes, load_words, Pair};
use streams::{dirty, every_way, with_edits};
use tally::{same, Tally};
use walks::walk;

const SEED: u64 = 1105;
const ROUNDS: u64 = 3000;
const FRESH_LOADS: u64 = 1000;

/// Rounds between two in which every table is full, and between two sets of boundary streams.
const FULL_EVERY: u64 = 500;
const BOUNDARIES_EVERY: u64 = 300;

const VECTORS: [&str; 7] =
    ["01_min", "02_K", "06_rand", "13_maxfields", "15_mem929", "16_mem930", "21_short08"];

// The bindings' length of an image is the one that the second program computes from its rows, and the documents'.
const _: () = assert!(tailbow::IMAGE_WORDS == IMAGE_WORDS && IMAGE_WORDS == 11_520);

/// What is asked for.
struct Asked {
    seed: Option<u64>,
    rounds: u64,
    nights: Option<u64>,
}

fn asked() -> Result<Asked, String> {
    let mut asked = Asked { seed: None, rounds: ROUNDS, nights: None };
    let mut arguments = std::env::args().skip(1);
    while let Some(name) = arguments.next() {
        let value = arguments.next().and_then(|value| value.parse().ok());
        let Some(number) = value else {
            return Err(format!("{name}: a number is wanted behind it"));
        };
        match name.as_str() {
            "--seed" => asked.seed = Some(number),
            "--rounds" => asked.rounds = number,
            "--nights" => asked.nights = Some(number),
            _ => return Err(format!("{name} is not known")),
        }
    }
    Ok(asked)
}

/// The nights' seeds: the given or usual one for one night; for more, numbers that follow from the given one or from the clock.
fn seeds(asked: &Asked) -> Vec<u64> {
    let Some(nights) = asked.nights else {
        return vec![asked.seed.unwrap_or(SEED)];
    };
    let clock = SystemTime::now().duration_since(UNIX_EPOCH).map_or(0, |since| since.as_nanos());
    let first = asked.seed.unwrap_or(clock as u64);
    println!("{nights} nights from seed {first}");
    let mut rng = Rng::new(first);
    (0..nights).map(|_| rng.next()).collect()
}

fn main() -> ExitCode {
    let asked = match asked() {
        Ok(asked) => asked,
        Err(wrong) => {
            eprintln!("calls: {wrong}");
            return ExitCode::FAILURE;
        }
    };
    let mut tally = Tally::default();
    for seed in seeds(&asked) {
        let (began, calls, failed) = (Instant::now(), tally.calls(), tally.failed());
        println!("seed {seed}, {} rounds", asked.rounds);
        night(seed, asked.rounds, &mut tally);
        let (calls, failed) = (tally.calls() - calls, tally.failed() - failed);
        let seconds = began.elapsed().as_secs_f64();
        println!("seed {seed}: {calls} calls in {seconds:.1} s, {failed} comparisons failed");
    }
    if tally.finish() {
        ExitCode::SUCCESS
    } else {
        ExitCode::FAILURE
    }
}

/// What needs no seed and what does, once; then the rounds.
fn night(seed: u64, rounds: u64, tally: &mut Tally) {
    let mut rng = Rng::new(seed);
    for _ in 0..FRESH_LOADS {
        fresh_load(&mut rng, tally);
    }
    vectors(&mut rng, tally);
    named(&mut rng, tally);
    cut(&mut rng, tally);
    lent_numbers(&mut rng, tally);
    replicas::cases(&mut rng, tally);
    turned_over(&mut rng, tally);
    for round in 0..rounds {
        generated(&mut rng, tally, round);
        judged(&mut rng, tally, round);
        lists::generated(&mut rng, tally, &format!("list {round}"));
    }
}

fn vector(name: &str) -> Vec<u8> {
    let folder = PathBuf::from(env!("CARGO_MANIFEST_DIR")).join("../vectors");
    let file = folder.join(format!("{name}.bin"));
    std::fs::read(&file).unwrap_or_else(|error| panic!("{}: {error}", file.display()))
}

/// Streams that another hand packed: whole, cut behind every word; the smallest also behind every byte and with every bit turned over.
fn vectors(rng: &mut Rng, tally: &mut Tally) {
    for name in VECTORS {
        let bytes = vector(name);
        every_way(rng, tally, name, &bytes);
        for length in (0..bytes.len()).step_by(4) {
            let cut = format!("{name} cut behind {length} bytes");
            let answer = every_way(rng, tally, &cut, &bytes[..length]);
            tally.result(same(&cut, answer, 10));
        }
    }
    let bytes = vector("01_min");
    let buffer = dirty(rng);
    for length in 0..bytes.len() {
        let cut = format!("01_min cut behind {length} bytes");
        let expected = if bytes[..length].chunks_exact(4).remainder().is_empty() { 10 } else { 9 };
        let (answer, _) = load_bytes(tally, &cut, &buffer, &bytes[..length]);
        tally.result(same(&cut, answer, expected));
    }
    let words = words_of(&bytes);
    for word in 0..words.len() {
        for bit in 0..32 {
            let name = format!("01_min, word {word}, bit {bit} turned over");
            let flipped = bytes_of(&flip(&words, word, bit));
            let answer = every_way(rng, tally, &name, &flipped);
            tally.result(same(&name, answer, refusal_of_flip(&words, word, bit)));
        }
    }
    short_buffers(tally, &bytes);
}

/// 31 of every entry that loads, at each side of the image's length.
fn short_buffers(tally: &mut Tally, bytes: &[u8]) {
    let words = words_of(bytes);
    for length in [0, 1, FIRST_COUNT, 11_456, IMAGE_WORDS - 1, IMAGE_WORDS, IMAGE_WORDS + 1] {
        let buffer = vec![0xA5A5_A5A5; length];
        let name = format!("a buffer of {length} words");
        let short = length < IMAGE_WORDS;
        let (answer, _) = load_words(tally, &name, &buffer, &words);
        tally.result(same(&name, answer == 31, short));
        for bytes in [bytes, &bytes[..9]] {
            let (answer, _) = load_bytes(tally, &name, &buffer, bytes);
            tally.result(same(&name, answer == 31, short));
        }
        let answer = Pair::fresh(&buffer).write(tally, &name, &words[..1]);
        tally.result(same(&name, answer, if short { 31 } else { MORE }));
    }
}

/// Every named stream and list, and damage that needs no seed.
fn named(rng: &mut Rng, tally: &mut Tally) {
    let cases = [check::named(), fixed::cases()].concat();
    for case in &cases {
        every_way(rng, tally, &case.name, &case.stream);
    }
    let boundaries = boundaries::cases(rng);
    lists::of_cases(rng, tally, &[cases, boundaries].concat());
    lists::fixed(rng, tally);
}

/// Short streams in every cutting, and a stream that loads in every stride.
fn cut(rng: &mut Rng, tally: &mut Tally) {
    let buffer = dirty(rng);
    cuttings::every_cutting(tally, &buffer);
    cuttings::every_stride(tally, "01_min", &buffer, &words_of(&vector("01_min")));
}

/// What is no load state, what is not read of one, and what a write leaves of it.
fn lent_numbers(rng: &mut Rng, tally: &mut Tally) {
    let buffer = dirty(rng);
    six_numbers::cases(tally, &buffer);
}

/// Images, ledgers and load states, one bit at a time.
fn turned_over(rng: &mut Rng, tally: &mut Tally) {
    flips::images(rng, tally);
    flips::ledgers(rng, tally);
    let buffer = dirty(rng);
    flips::loads(tally, &buffer, &words_of(&vector("01_min")));
}

/// True once in so many rounds, in the first, too.
fn once_in(rounds: u64, round: u64) -> bool {
    matches!(round % rounds, 0)
}

/// A generated stream, whole and with edits, and a walk; now and then full tables and every boundary.
fn generated(rng: &mut Rng, tally: &mut Tally, round: u64) {
    let name = format!("generated {round}");
    let profile = profile(rng, round);
    let lists = random_config(rng, profile);
    let bytes = random_stream(rng, &lists);
    every_way(rng, tally, &name, &bytes);
    let words = match rng.below(8) {
        0 => words_of(&bytes),
        1 if !once_in(FULL_EVERY, round) => one_entry_a_block(&lists),
        _ => rearranged(rng, &lists),
    };
    with_edits(rng, tally, &name, &words);
    walk(rng, tally, &name, &lists);
    if once_in(BOUNDARIES_EVERY, round) {
        for case in boundaries::cases(rng) {
            every_way(rng, tally, &case.name, &case.stream);
        }
    }
}

/// Frames, releases and tiles on a configuration that loads; once in a while with full tables.
fn judged(rng: &mut Rng, tally: &mut Tally, round: u64) {
    let profile = match rng.below(4) {
        _ if once_in(FULL_EVERY, round) => Profile::Full,
        0 => Profile::Valid,
        _ => Profile::Near,
    };
    let mut image = of_lists(&random_config(rng, profile));
    // The rest of the buffer has no part in it.
    image.extend((0..rng.below(3)).map(|_| rng.word()).collect::<Vec<u32>>());
    sequence(rng, tally, &format!("judged {round}"), &image);
}

fn profile(rng: &mut Rng, round: u64) -> Profile {
    if once_in(FULL_EVERY, round) {
        return Profile::Full;
    }
    match rng.below(4) {
        0 => Profile::Near,
        1 => Profile::Valid,
        2 => Profile::Wild,
        _ => Profile::Breaks(rng.pick(RULES)),
    }
}
