//! Seeded rounds of what must hold of any stream, image, ledger, state and list.

use reference::image::{self, too_short, IMAGE_WORDS, MARK};
use reference::judge::{judge, release, Judged, ReleaseAnswer, Verdict};
use reference::ledger::{fresh_ledger, out_of_range, Ledger};
use reference::load::{load_bytes, load_words, write, LoadAnswer, LoadState};
use reference::stream::{bytes_of, words_of, Lists};
use reference::tile::{tile, TileAnswer};

use crate::damage::rearranged;
use crate::edit::{edited_image, edited_ledger, edited_state};
use crate::generate::{later, random_config, random_cutting, random_frame, random_stream, Profile};
use crate::named_calls::same;
use crate::named_program::nearest_share;
use crate::rng::Rng;
use crate::rules::RULES;
use crate::tally::Tally;

/// One seeded round.
pub fn run(rng: &mut Rng, tally: &mut Tally) {
    let profile = random_profile(rng);
    let lists = random_config(rng, profile);
    tally.result(answer_of_profile(rng, profile, &lists));
    tally.result(one_list_many_streams(rng, &lists));
    tally.result(any_cutting(rng, &lists));
    let near = random_config(rng, Profile::Near);
    let result = frames(rng, tally, &near);
    tally.result(result);
    let result = edited_calls(rng, tally, &near);
    tally.result(result);
    let result = edited_writes(rng, tally, &near);
    tally.result(result);
}

/// The full tables are large: once in a while.
fn random_profile(rng: &mut Rng) -> Profile {
    match rng.below(40) {
        0 => Profile::Full,
        1..=12 => Profile::Near,
        13..=22 => Profile::Valid,
        23..=28 => Profile::Wild,
        _ => Profile::Breaks(rng.pick(RULES)),
    }
}

/// A profile says which answer its lists get.
fn answer_of_profile(rng: &mut Rng, profile: Profile, lists: &Lists) -> Result<(), String> {
    let expected = match profile {
        Profile::Near | Profile::Valid | Profile::Full => LoadAnswer::Loaded,
        Profile::Breaks(rule) => LoadAnswer::Refused(rule),
        Profile::Wild => return Ok(()),
    };
    let mut image = vec![rng.word(); IMAGE_WORDS];
    let answer = load_words(&mut image, &rearranged(rng, lists));
    same(&format!("{profile:?}"), answer, expected)
}

/// Demand 3: two streams of the same lists get one answer and one image, that of the lists.
fn one_list_many_streams(rng: &mut Rng, lists: &Lists) -> Result<(), String> {
    let mut images = [vec![1; IMAGE_WORDS], vec![2; IMAGE_WORDS]];
    let mut answers = Vec::new();
    for image in &mut images {
        let words = rearranged(rng, lists);
        answers.push(write_all(rng, image, &words).0);
    }
    same("answers", answers[0], answers[1])?;
    if answers[0] == LoadAnswer::Loaded {
        same("the lists' image", images[0] == image::of_lists(lists), true)?;
    } else {
        same("zeros", images[0].iter().all(|&word| word == 0), true)?;
    }
    same("images", images[0] == images[1], true)
}

/// Writes of any cutting from a fresh state; gives the last answer and state.
fn write_all(rng: &mut Rng, image: &mut [u32], words: &[u32]) -> (LoadAnswer, LoadState) {
    let mut state = LoadState::fresh();
    let mut answer = LoadAnswer::More;
    let mut place = 0;
    for length in random_cutting(rng, words.len()) {
        (answer, state) = write(image, state, &words[place..place + length]);
        place += length;
    }
    (answer, state)
}

/// Whole loads and writes of any stream answer alike, but for "more" and 10.
fn any_cutting(rng: &mut Rng, lists: &Lists) -> Result<(), String> {
    let bytes = random_stream(rng, lists);
    let words = words_of(&bytes);
    let mut whole = vec![rng.word(); IMAGE_WORDS + 1];
    let mut written = whole.clone();
    let before = whole.clone();
    let answer = load_words(&mut whole, &words);
    let (last, state) = write_all(rng, &mut written, &words);
    same("rest", whole[IMAGE_WORDS], before[IMAGE_WORDS])?;
    if last == LoadAnswer::More {
        same("10 for more", answer, LoadAnswer::Refused(10))?;
        same("not marked", words.is_empty() || written[MARK] == 0, true)?;
    } else {
        same("answers", last, answer)?;
        same("images", whole == written, true)?;
        let told = LoadState { begun: true, answer: Some(answer), ..LoadState::fresh() };
        same("state", state, told)?;
    }
    if let LoadAnswer::Refused(_) = answer {
        let zero = whole[..IMAGE_WORDS].iter().all(|&word| word == 0);
        same("zeros", zero, true)?;
    }
    let mut of_bytes = before.clone();
    let answer_to_bytes = load_bytes(&mut of_bytes, &bytes);
    if bytes.len() % 4 == 0 {
        same("bytes", (answer_to_bytes, of_bytes == whole), (answer, true))
    } else {
        let expected = (LoadAnswer::Refused(9), true);
        same("9", (answer_to_bytes, of_bytes == before), expected)
    }
}

fn loaded(lists: &Lists) -> Vec<u32> {
    let mut image = vec![0; IMAGE_WORDS];
    load_words(&mut image, &reference::stream::plain_stream(lists));
    image
}

/// A run of frames and releases: the tiles are those of the verdicts, refusals change nothing.
fn frames(rng: &mut Rng, tally: &mut Tally, lists: &Lists) -> Result<(), String> {
    let image = loaded(lists);
    let mut ledger = fresh_ledger(&image).map_err(|number| format!("fresh: {number}"))?;
    let mut seen = [[0u128; 4]; 5];
    let mut time = 0;
    for _ in 0..30 {
        if rng.once_in(4) {
            let (answer, after) = release(&image, ledger, rng.below(9) as u32);
            if let ReleaseAnswer::Refused(number) = answer {
                tally.refusal(number);
                same("refused release", after, ledger)?;
            }
            ledger = after;
            continue;
        }
        let port = rng.below(5) as usize;
        time = later(rng, time);
        let frame = random_frame(rng);
        let (judged, after) = judge(&image, ledger, port as u32, time, &frame);
        same("last time", after.last_time, time)?;
        let length = frame.len() as u128 + 4;
        seen[port][0] += 1;
        seen[port][2] += length;
        tally.judged(&judged);
        match judged.verdict {
            Verdict::Drop(_) => {
                seen[port][1] += 1;
                seen[port][3] += length;
            }
            Verdict::Sent(_) => {}
            Verdict::Refused(number) => return Err(format!("refused {number}")),
        }
        what_a_frame_moves(&judged, &ledger, &after)?;
        ledger = after;
        same("in range", out_of_range(&image, &ledger), false)?;
    }
    compare_tiles(&image, &ledger, &seen)
}

/// Drops 1 to 8 leave the meters, later verdicts move one, and so do replicas: it is the frame's. What
/// is sent, frame or replica, takes a unit.
fn what_a_frame_moves(judged: &Judged, before: &Ledger, after: &Ledger) -> Result<(), String> {
    let moved = (0..45).filter(|&number| before.meters[number] != after.meters[number]).count();
    let taken = before.units.iter().sum::<u64>() - after.units.iter().sum::<u64>();
    match judged.verdict {
        Verdict::Drop(1..=8) => same("meters moved", moved, 0)?,
        _ => same("at most one meter moved", moved <= 1, true)?,
    }
    let verdicts = judged.replicas.iter().chain([&judged.verdict]);
    let sent = verdicts.filter(|verdict| matches!(verdict, Verdict::Sent(_))).count();
    same("units taken", taken, sent as u64)?;
    which_replicas(judged)
}

/// None where the frame is not past drop 6; else, at 7, 8 and 9, each has the frame's own number. (4 is
/// for edited images.)
fn which_replicas(judged: &Judged) -> Result<(), String> {
    match judged.verdict {
        Verdict::Refused(_) | Verdict::Drop(1..=6) => same("replicas", judged.replicas.len(), 0),
        Verdict::Drop(7..=9) => {
            let alike = judged.replicas.iter().all(|replica| *replica == judged.verdict);
            same("replicas alike", alike, true)
        }
        _ => {
            let from_9 =
                |replica: &Verdict| matches!(replica, Verdict::Drop(9..=11) | Verdict::Sent(_));
            same("replicas at 9, 10, 11 or sent", judged.replicas.iter().all(from_9), true)
        }
    }
}

/// Frames, drops, octets and dropped octets as they were seen, divided in whole numbers.
fn compare_tiles(image: &[u32], ledger: &Ledger, seen: &[[u128; 4]; 5]) -> Result<(), String> {
    for (port, &[frames, drops, octets, dropped]) in seen.iter().enumerate() {
        let expected = match (frames, drops) {
            (0, _) => None,
            (_, 0) => Some((0, 0)),
            _ => Some((nearest_share(drops, frames), nearest_share(dropped, octets))),
        };
        let got = match tile(image, ledger, port as u32) {
            TileAnswer::NoFrames => None,
            TileAnswer::Shares { frames, octets } => Some((frames.to_bits(), octets.to_bits())),
            other => return Err(format!("tile {port}: {other:?}")),
        };
        same(&format!("tile {port}"), got, expected)?;
    }
    Ok(())
}

/// Edited images and ledgers: an answer always comes, and a refused call changes nothing.
fn edited_calls(rng: &mut Rng, tally: &mut Tally, lists: &Lists) -> Result<(), String> {
    let sound = loaded(lists);
    let first = fresh_ledger(&sound).map_err(|number| format!("fresh: {number}"))?;
    for _ in 0..8 {
        let image = if rng.once_in(3) { edited_image(rng, &sound) } else { sound.clone() };
        let mut ledger = fresh_ledger(&image).unwrap_or(first);
        if rng.once_in(2) {
            ledger = edited_ledger(rng, &sound, &ledger);
        }
        let port = rng.below(6) as u32;
        let time = later(rng, ledger.last_time & ((1 << 48) - 1));
        let (judged, after) = judge(&image, ledger, port, time, &random_frame(rng));
        tally.judged(&judged);
        if let Verdict::Refused(_) = judged.verdict {
            same("refused frame", (judged.replicas.len(), after), (0, ledger))?;
        }
        let (answer, after) = release(&image, ledger, rng.below(9) as u32);
        if let ReleaseAnswer::Refused(number) = answer {
            tally.refusal(number);
            same("refused release", after, ledger)?;
        }
        if let TileAnswer::Refused(number) = tile(&image, &ledger, port) {
            tally.refusal(number);
        }
    }
    Ok(())
}

/// Edited states and images between writes: an answer always comes; 30, 31, 32 leave all.
fn edited_writes(rng: &mut Rng, tally: &mut Tally, lists: &Lists) -> Result<(), String> {
    let words = words_of(&bytes_of(&rearranged(rng, lists)));
    let mut image = vec![0; IMAGE_WORDS];
    let mut state = LoadState::fresh();
    let mut place = 0;
    for length in random_cutting(rng, words.len()) {
        if rng.once_in(4) {
            state = edited_state(rng, &state);
        }
        if rng.once_in(8) {
            let edited = edited_image(rng, &image);
            if !too_short(&edited) {
                image = edited;
            }
        }
        let before = (image.clone(), state);
        let (answer, after) = write(&mut image, state, &words[place..place + length]);
        if let LoadAnswer::Refused(number @ (30 | 31 | 32)) = answer {
            tally.refusal(number);
            same("refused write", (&image, after) == (&before.0, before.1), true)?;
            // Mended, so that the round goes on.
            image::make_zero(&mut image);
            state = LoadState::fresh();
            continue;
        }
        state = after;
        place += length;
    }
    Ok(())
}
