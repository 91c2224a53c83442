//! How often each entry gave each answer, how many comparisons held, and what failed.

use std::collections::BTreeMap;
use std::fmt;

use cases::rules::{refusals, RULES};
use tailbow::raw::MORE;

/// Failures that are printed.
const SHOWN: usize = 20;

/// Calls that a run must make.
const LEAST_CALLS: usize = 200_000;

/// What an entry answered.
#[derive(Clone, Copy, PartialEq, Eq, PartialOrd, Ord, Debug)]
pub enum Answer {
    Refused(u32),
    Drop(u32),
    /// What is neither, in the documents' word.
    Told(&'static str),
}

impl Answer {
    /// The answer of an entry that gives a number alone; 0 is `done`.
    pub fn of_number(number: u32, done: &'static str) -> Answer {
        match number {
            0 => Answer::Told(done),
            MORE => Answer::Told("more"),
            number => Answer::Refused(number),
        }
    }
}

impl fmt::Display for Answer {
    fn fmt(&self, text: &mut fmt::Formatter<'_>) -> fmt::Result {
        match self {
            Answer::Refused(number) => write!(text, "refused {number}"),
            Answer::Drop(number) => write!(text, "drop {number}"),
            Answer::Told(word) => write!(text, "{word}"),
        }
    }
}

/// An entry, and what it must have answered at least once: refusals, drops, and the rest.
struct Due {
    entry: &'static str,
    refusals: &'static [&'static [u32]],
    drops: &'static [u32],
    told: &'static [&'static str],
}

/// The framing refusals of every way of loading; the loading rules are as common to them.
const FRAMING: &[u32] = &[1, 2, 3, 4, 5, 6, 7, 8];
const WRITE: &[&[u32]] = &[FRAMING, RULES, &[30, 31, 32]];
const WORDS: &[&[u32]] = &[FRAMING, RULES, &[10, 31]];
const BYTES: &[&[u32]] = &[FRAMING, RULES, &[9, 10, 31]];
const FRAME: &[&[u32]] = &[&[30, 31, 33, 34, 35, 38, 39]];
const DROPS: &[u32] = &[1, 2, 3, 4, 5, 6, 7, 8, 9, 10, 11];
const REPLICA_DROPS: &[u32] = &[4, 7, 8, 9, 10, 11];
/// How many replicas a frame has; "refused" is one that has none although 12 has entries.
const REPLICAS: &[&str] = &["none", "one", "several", "all 32", "refused"];
const RELEASE: &[&[u32]] = &[&[30, 31, 36, 37, 39]];
const LIST: &[&[u32]] = &[&[50, 51, 52, 53, 54]];

/// Every entry, with every answer that documents 01 and 02 let it give; and what the judged frames' replicas came to.
const ENTRIES: [Due; 11] = [
    Due { entry: "fresh_load", refusals: &[], drops: &[], told: &["done"] },
    // An answer that a write repeats is not counted as given again.
    Due { entry: "write", refusals: WRITE, drops: &[], told: &["loaded", "more", "repeated"] },
    Due { entry: "load_words", refusals: WORDS, drops: &[], told: &["loaded"] },
    Due { entry: "load_bytes", refusals: BYTES, drops: &[], told: &["loaded"] },
    Due { entry: "fresh_ledger", refusals: &[&[30, 31]], drops: &[], told: &["done"] },
    Due { entry: "judge", refusals: FRAME, drops: DROPS, told: &["sent"] },
    Due { entry: "replicas", refusals: &[], drops: &[], told: REPLICAS },
    Due { entry: "replica", refusals: &[], drops: REPLICA_DROPS, told: &["sent"] },
    Due { entry: "release", refusals: RELEASE, drops: &[], told: &["done"] },
    Due {
        entry: "tile",
        refusals: &[&[31, 33, 39]],
        drops: &[],
        told: &["not-loaded", "no-frames", "shares"],
    },
    Due { entry: "record_at", refusals: LIST, drops: &[], told: &["frame", "release", "end"] },
];

impl Due {
    fn answers(&self) -> Vec<Answer> {
        let refusals = self.refusals.concat().into_iter().map(Answer::Refused);
        let drops = self.drops.iter().map(|&number| Answer::Drop(number));
        let told = self.told.iter().map(|&word| Answer::Told(word));
        refusals.chain(drops).chain(told).collect()
    }
}

/// Every refusal and drop of documents 01 and 02: each must have been given by some entry.
fn numbers() -> Vec<Answer> {
    let refusals = refusals().into_iter().map(Answer::Refused);
    refusals.chain((1..=11).map(Answer::Drop)).collect()
}

#[derive(Default)]
pub struct Tally {
    answers: BTreeMap<(Answer, &'static str), usize>,
    calls: usize,
    passed: usize,
    failures: Vec<String>,
}

impl Tally {
    /// One call of an entry, with how it compared.
    pub fn call(&mut self, entry: &'static str, answer: Answer, compared: Result<(), String>) {
        self.calls += 1;
        self.seen(entry, answer);
        self.result(compared.map_err(|failure| format!("{entry}: {failure}")));
    }

    /// What a call has shown beside its answer.
    pub fn seen(&mut self, what: &'static str, answer: Answer) {
        *self.answers.entry((answer, what)).or_default() += 1;
    }

    pub fn result(&mut self, result: Result<(), String>) {
        match result {
            Ok(()) => self.passed += 1,
            Err(failure) => self.failures.push(failure),
        }
    }

    pub fn calls(&self) -> usize {
        self.calls
    }

    pub fn failed(&self) -> usize {
        self.failures.len()
    }

    /// Prints the answers, what is missing and what failed; the last line counts. True where all is well.
    pub fn finish(mut self) -> bool {
        self.print();
        for due in &ENTRIES {
            for answer in due.answers() {
                if !self.answers.contains_key(&(answer, due.entry)) {
                    self.failures.push(format!("{} never answered {answer}", due.entry));
                }
            }
        }
        for number in numbers() {
            if !self.answers.keys().any(|(answer, _)| *answer == number) {
                self.failures.push(format!("no entry answered {number}"));
            }
        }
        if self.calls() < LEAST_CALLS {
            self.failures.push(format!("{} calls, fewer than {LEAST_CALLS}", self.calls()));
        }
        for failure in self.failures.iter().take(SHOWN) {
            println!("FAILED {failure}");
        }
        println!("{} calls", self.calls());
        println!("{} passed, {} failed", self.passed, self.failures.len());
        self.failures.is_empty()
    }

    /// A line an answer: how often it was given, and by which entries. Those that are due stand there with 0, too.
    fn print(&self) {
        let mut lines: Vec<Answer> = self.answers.keys().map(|(answer, _)| *answer).collect();
        lines.extend(ENTRIES.iter().flat_map(Due::answers));
        lines.extend(numbers());
        lines.sort();
        lines.dedup();
        for answer in lines {
            let mut total = 0;
            let mut parts = Vec::new();
            for due in &ENTRIES {
                let times = self.answers.get(&(answer, due.entry)).copied().unwrap_or(0);
                if times > 0 || due.answers().contains(&answer) {
                    parts.push(format!("{} {times}", due.entry));
                }
                total += times;
            }
            println!("{:<12} {total:>8}: {}", answer.to_string(), parts.join(", "));
        }
    }
}

/// Ok where they are equal.
pub fn same<T: PartialEq + fmt::Debug>(what: &str, ours: T, expected: T) -> Result<(), String> {
    if ours == expected {
        return Ok(());
    }
    Err(format!("{what}: {ours:?}, not {expected:?}"))
}

/// Ok where two buffers are equal; else their first difference.
pub fn same_words(what: &str, ours: &[u32], expected: &[u32]) -> Result<(), String> {
    same(&format!("{what}, length"), ours.len(), expected.len())?;
    match (0..ours.len()).find(|&place| ours[place] != expected[place]) {
        None => Ok(()),
        Some(place) => {
            let (ours, expected) = (ours[place], expected[place]);
            Err(format!("{what}, word {place}: {ours:08X}, not {expected:08X}"))
        }
    }
}
