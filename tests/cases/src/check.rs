//! `cases check`: runs everything through the reference and says what was hit and what failed.

use crate::case::Case;
use crate::named_calls::{self, CallCase};
use crate::rng::Rng;
use crate::rules::RULES;
use crate::tally::Tally;
use crate::{boundaries, boundary_calls, fixed, generate, named_frames, named_program};
use crate::{named_replica_calls, named_replicas, named_retagging, named_streams, properties};

/// Named cases, fixed damage, and so many seeded rounds; true where nothing is missing or wrong.
pub fn check(seed: u64, rounds: usize) -> bool {
    println!("seed {seed}, {rounds} rounds");
    let mut tally = Tally::default();
    let named = named();
    named.iter().for_each(|case| tally.run(case));
    fixed::cases().iter().for_each(|case| tally.run(case));
    let calls = named_of_calls();
    for (name, clause, run) in &calls {
        tally.result(run().map_err(|failure| format!("{name} ({clause}): {failure}")));
    }
    println!("{} named cases, {} of them calls", named.len() + calls.len(), calls.len());
    let mut rng = Rng::new(seed);
    for round in 0..rounds {
        properties::run(&mut rng, &mut tally);
        tally.run(&generated(&mut rng, round));
        if round % 8 == 0 {
            boundary_calls::run(&mut rng, &mut tally);
            boundaries::cases(&mut rng).iter().for_each(|case| tally.run(case));
        }
    }
    tally.print();
    finish(tally)
}

/// Every named case that has a stream and a list.
pub fn named() -> Vec<Case> {
    let mut cases = named_program::cases();
    cases.extend(named_streams::cases());
    cases.extend(named_frames::cases());
    cases.extend(named_retagging::cases());
    cases.extend(named_replicas::cases());
    cases
}

/// Every named case that is calls.
fn named_of_calls() -> Vec<CallCase> {
    [&named_calls::CASES[..], named_replica_calls::CASES].concat()
}

/// A generated stream and list: any answer, the same from both programs.
pub(crate) fn generated(rng: &mut Rng, number: usize) -> Case {
    let profile = match rng.below(16) {
        0 => generate::Profile::Wild,
        1..=3 => generate::Profile::Valid,
        4 => generate::Profile::Breaks(rng.pick(RULES)),
        _ => generate::Profile::Near,
    };
    let lists = generate::random_config(rng, profile);
    let stream = generate::random_stream(rng, &lists);
    let list = generate::random_list(rng);
    Case::of_bytes(&format!("generated_{number}"), "compared only", stream).list_bytes(list)
}

/// Prints what is missing and wrong; the last line counts.
fn finish(tally: Tally) -> bool {
    let mut failures = tally.failures.clone();
    failures.extend(tally.missed());
    for failure in failures.iter().take(20) {
        println!("FAILED {failure}");
    }
    println!("{} passed, {} failed", tally.passed, failures.len());
    failures.is_empty()
}

#[cfg(test)]
mod tests {
    use super::*;
    use crate::rules::refusals;
    use crate::tally::{boundaries, HOW_MANY, REPLICA_DROPS};

    #[test]
    fn named_cases_hold() {
        for case in named() {
            if let Err(failure) = case.run() {
                panic!("{failure}");
            }
        }
        for (name, clause, run) in named_of_calls() {
            assert_eq!(run(), Ok(()), "{name} ({clause})");
        }
    }

    #[test]
    fn what_is_not_hit_is_told() {
        // Every refusal, 11 drops, two sides of each boundary; of replicas the drops, the sent and how many.
        let missed = Tally::default().missed();
        let of_replicas = REPLICA_DROPS.len() + 1 + HOW_MANY.len();
        let expected = refusals().len() + 11 + 2 * boundaries().len() + of_replicas;
        assert_eq!(missed.len(), expected);
    }

    /// Without the named cases: what is generated has replicas of every kind that a load allows.
    #[test]
    fn generated_lists_have_replicas() {
        let mut rng = Rng::new(12);
        let mut tally = Tally::default();
        (0..200).for_each(|number| tally.run(&generated(&mut rng, number)));
        assert_eq!(tally.missed_replicas(&REPLICA_DROPS[1..]), [""; 0]);
    }
}
