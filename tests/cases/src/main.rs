//! `cases check [SEED] [COUNT]`, `cases write DIR [SEED] [COUNT]` and `cases compare PROGRAM [SEED] [COUNT]`.

use std::path::Path;
use std::process::ExitCode;

use cases::{check, compare, files};

const SEED: u64 = 1105;
const CHECK_ROUNDS: usize = 400;
const WRITTEN: usize = 2000;

fn main() -> ExitCode {
    let arguments: Vec<String> = std::env::args().skip(1).collect();
    let number = |place: usize, otherwise: u64| match arguments.get(place) {
        Some(text) => text.parse().unwrap_or(otherwise),
        None => otherwise,
    };
    match (arguments.first().map(String::as_str), arguments.get(1)) {
        (Some("check"), _) => {
            let sound = check::check(number(1, SEED), number(2, CHECK_ROUNDS as u64) as usize);
            if sound {
                ExitCode::SUCCESS
            } else {
                ExitCode::FAILURE
            }
        }
        (Some("write"), Some(folder)) => {
            let (seed, many) = (number(2, SEED), number(3, WRITTEN as u64) as usize);
            match files::write(Path::new(folder), seed, many) {
                Ok(pairs) => {
                    println!("seed {seed}, {pairs} pairs written");
                    ExitCode::SUCCESS
                }
                Err(error) => {
                    println!("cannot write: {error}");
                    ExitCode::FAILURE
                }
            }
        }
        (Some("compare"), Some(program)) => {
            let (seed, many) = (number(2, SEED), number(3, WRITTEN as u64) as usize);
            match compare::compare(Path::new(program), seed, many) {
                Ok(compared) => {
                    println!("seed {seed}");
                    println!("{} passed, {} failed", compared.agreed, compared.differing.len());
                    if compared.differing.is_empty() {
                        ExitCode::SUCCESS
                    } else {
                        ExitCode::FAILURE
                    }
                }
                Err(error) => {
                    println!("cannot compare: {error}");
                    ExitCode::FAILURE
                }
            }
        }
        _ => {
            println!("cases check [SEED] [COUNT] | cases write DIR [SEED] [COUNT] | cases compare PROGRAM [SEED] [COUNT]");
            ExitCode::FAILURE
        }
    }
}
