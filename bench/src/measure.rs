//! Timing in rounds: every side once a round, each round another one first; medians, and quartiles of the rounds' ratios.

use std::time::{Duration, Instant};

use crate::works::Work;

/// Many short rounds: on a machine that does other work too, most of them are not broken into.
pub const ROUNDS: usize = 101;

/// A side's time a round, at least.
const LEAST: Duration = Duration::from_micros(400);

pub struct Measured {
    pub name: String,
    pub bar: Option<f64>,
    /// Each side's nanoseconds for the work done once, a number a round.
    sides: Vec<(&'static str, Vec<f64>)>,
}

pub fn measure(mut work: Work) -> Measured {
    let times: Vec<u64> = work.sides.iter_mut().map(|(_, side)| times_for(side)).collect();
    let mut sides: Vec<(&'static str, Vec<f64>)> =
        work.sides.iter().map(|(label, _)| (*label, Vec::new())).collect();
    let count = sides.len();
    for round in 0..ROUNDS {
        for turn in 0..count {
            let now = (round + turn) % count;
            let began = Instant::now();
            (work.sides[now].1)(times[now]);
            sides[now].1.push(began.elapsed().as_nanos() as f64 / times[now] as f64);
        }
    }
    Measured { name: work.name, bar: work.bar, sides }
}

/// How often a side does its work in at least that time.
fn times_for(side: &mut crate::works::Side) -> u64 {
    let mut times = 1;
    loop {
        let began = Instant::now();
        side(times);
        if began.elapsed() >= LEAST {
            return times;
        }
        times *= 2;
    }
}

impl Measured {
    fn of(&self, label: &str) -> Option<&Vec<f64>> {
        self.sides.iter().find(|(side, _)| *side == label).map(|(_, times)| times)
    }

    /// The median nanoseconds of a side.
    pub fn median(&self, label: &str) -> Option<f64> {
        Some(quartile(self.of(label)?, 2))
    }

    /// One side's median over another's.
    pub fn ratio(&self, label: &str, other: &str) -> Option<f64> {
        Some(self.median(label)? / self.median(other)?)
    }

    /// The first and third quartile of the rounds' ratios.
    pub fn spread(&self, label: &str, other: &str) -> Option<(f64, f64)> {
        let (ours, theirs) = (self.of(label)?, self.of(other)?);
        let ratios: Vec<f64> = ours.iter().zip(theirs).map(|(a, b)| a / b).collect();
        Some((quartile(&ratios, 1), quartile(&ratios, 3)))
    }
}

fn quartile(numbers: &[f64], quarter: usize) -> f64 {
    let mut sorted = numbers.to_vec();
    sorted.sort_by(f64::total_cmp);
    sorted[(sorted.len() - 1) * quarter / 4]
}
