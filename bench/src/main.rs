//! Tailbow beside a hand-written Rust program at the same work: `bench` times, `bench names` and `bench do` serve the counting.

mod agree;
mod flat;
mod marks;
mod measure;
mod ours;
mod peer;
mod works;

use std::env;
use std::process::ExitCode;

use measure::{measure, Measured};

fn main() -> ExitCode {
    let arguments: Vec<String> = env::args().skip(1).collect();
    let words: Vec<&str> = arguments.iter().map(String::as_str).collect();
    let done = match words[..] {
        [] => time(),
        ["names"] => names(),
        ["agree"] => agree_only(),
        ["do", name, side, times] => do_work(name, side, times),
        _ => Err("usage: bench | bench agree | bench names | bench do WORK SIDE TIMES".to_string()),
    };
    match done {
        Ok(()) => ExitCode::SUCCESS,
        Err(why) => {
            eprintln!("bench: {why}");
            ExitCode::FAILURE
        }
    }
}

/// Every work's name, the main ones first.
fn names() -> Result<(), String> {
    for (name, _) in works::MAIN {
        println!("{name}");
    }
    for name in works::growth_names() {
        println!("{name}");
    }
    Ok(())
}

/// One side of one work, so many times: what is counted.
fn do_work(name: &str, side: &str, times: &str) -> Result<(), String> {
    let times = times.parse().map_err(|_| format!("{times} is not a number"))?;
    let mut work = works::work(name).ok_or_else(|| format!("there is no work {name}"))?;
    let (_, run) = work
        .sides
        .iter_mut()
        .find(|(label, _)| *label == side)
        .ok_or_else(|| format!("{name} has no side {side}"))?;
    run(times);
    Ok(())
}

fn agree_only() -> Result<(), String> {
    let agreed = agree::all()?;
    println!(
        "Tailbow, the peer and the second program agree: {} loads, {} calls on ledgers, {} replicas.",
        agreed.loads, agreed.calls, agreed.replicas
    );
    Ok(())
}

fn time() -> Result<(), String> {
    agree_only()?;
    println!(
        "Times are medians of {} rounds; q1 and q3 are of the rounds' ratios.",
        measure::ROUNDS
    );
    println!("Ledger, load state and places for replicas are lent to both.");
    println!();
    let main: Vec<Measured> = works::MAIN.iter().map(|(name, _)| timed(name)).collect();
    print_table(&main);
    print_marks(&main[0]);
    println!();
    println!("Growth: work / table / entries, the frame's VLAN and addresses last");
    let grown: Vec<Measured> = works::growth_names().iter().map(|name| timed(name)).collect();
    print_table(&grown);
    Ok(())
}

fn timed(name: &str) -> Measured {
    measure(works::work(name).expect("every listed work is made"))
}

fn print_table(lines: &[Measured]) {
    println!(
        "{:<28} {:>12} {:>12} {:>7} {:>7} {:>7} {:>6}  within",
        "work", "ours", "peer", "ratio", "q1", "q3", "bar"
    );
    for line in lines {
        let ours = line.median("ours").unwrap_or(f64::NAN);
        let peer = line.median("peer").unwrap_or(f64::NAN);
        let ratio = ours / peer;
        let (low, high) = line.spread("ours", "peer").unwrap_or((f64::NAN, f64::NAN));
        let (bar, within) = match line.bar {
            Some(bar) => (format!("{bar:.2}"), if ratio <= bar { "yes" } else { "NO" }),
            None => ("-".to_string(), "-"),
        };
        println!(
            "{:<28} {:>12} {:>12} {:>7.2} {:>7.2} {:>7.2} {:>6}  {within}",
            line.name,
            shown(ours),
            shown(peer),
            ratio,
            low,
            high,
            bar
        );
    }
}

fn shown(nanoseconds: f64) -> String {
    if nanoseconds < 1000.0 {
        return format!("{nanoseconds:.1} ns");
    }
    format!("{:.2} us", nanoseconds / 1000.0)
}

/// The marks are measured in the rounds of the whole load.
fn print_marks(whole: &Measured) {
    println!();
    let bytes = 4 * works::full_stream().len();
    println!(
        "Marks over the same {},{:03} bytes: a whole load of words over each",
        bytes / 1000,
        bytes % 1000
    );
    println!("{:<28} {:>12} {:>12} {:>12}", "mark", "time", "ours/mark", "peer/mark");
    if !marks::WITH_ZLIB {
        println!("{:<28} left out: zlib is not there to link", marks::ZLIB);
    }
    for mark in [marks::ZLIB, marks::MEMCPY] {
        let (Some(time), Some(ours), Some(peer)) =
            (whole.median(mark), whole.ratio("ours", mark), whole.ratio("peer", mark))
        else {
            continue;
        };
        println!("{mark:<28} {:>12} {ours:>12.2} {peer:>12.2}", shown(time));
    }
}
