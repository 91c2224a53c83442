//! `judge STREAM < LIST`: loads a stream, judges the list's frames, and prints verdicts and five tiles as Tailbow's own program does.

use std::io::{self, Read, Write};

use tailbow::{
    load_bytes, Answer, Judged, Ledger, Record, Records, Refusal, Tile, Verdict, IMAGE_WORDS,
    LIST_BYTES, PORTS,
};

fn main() -> io::Result<()> {
    let mut out = io::stdout().lock();
    let mut image = vec![0; IMAGE_WORDS];
    match load(&mut image) {
        Ok(mut ledger) => {
            writeln!(out, "config loaded")?;
            // One byte more than the most is enough to tell that a list is too long.
            let mut list = Vec::new();
            io::stdin().lock().take(LIST_BYTES as u64 + 1).read_to_end(&mut list)?;
            walk(&mut out, &image, &mut ledger, &list)?;
            for port in 0..PORTS {
                writeln!(out, "{}", tile_line(&image, &ledger, port))?;
            }
        }
        Err(refusal) => {
            writeln!(out, "config refused {}", refusal.number())?;
            for port in 0..PORTS {
                writeln!(out, "tile {port} not-loaded")?;
            }
        }
    }
    Ok(())
}

/// The stream that the first argument names, as a whole load, and a fresh ledger. A file that can't be read has no words.
fn load(image: &mut [u32]) -> Result<Ledger, Refusal> {
    let path = std::env::args_os().nth(1).ok_or(Refusal::WordsEnd)?;
    let stream = std::fs::read(path).map_err(|_| Refusal::WordsEnd)?;
    match load_bytes(image, &stream) {
        Answer::Loaded => Ledger::fresh(image),
        Answer::Refused(refusal) => Err(refusal),
        Answer::More => Err(Refusal::WordsEnd),
    }
}

/// Runs record after record on one ledger. A refused record changes nothing, and the walk goes on.
fn walk(out: &mut impl Write, image: &[u32], ledger: &mut Ledger, list: &[u8]) -> io::Result<()> {
    for (before, record) in Records::of(list).enumerate() {
        let number = before + 1;
        match record {
            Ok(Record::Frame { port, time, bytes }) => {
                match ledger.judge(image, port, time, bytes) {
                    Ok(judged) => frame_lines(out, number, &judged)?,
                    Err(refusal) => writeln!(out, "refused {}", refusal.number())?,
                }
            }
            Ok(Record::Release { partition }) => match ledger.release(image, partition) {
                Ok(()) => writeln!(out, "release {number} ok")?,
                Err(refusal) => writeln!(out, "refused {}", refusal.number())?,
            },
            Err(refusal) => writeln!(out, "list refused {}", refusal.number())?,
        }
    }
    Ok(())
}

/// The frame's line, and right behind it a line for each replica, with the same record's number.
fn frame_lines(out: &mut impl Write, number: usize, judged: &Judged) -> io::Result<()> {
    writeln!(out, "{}", verdict_line("frame", number, &judged.verdict))?;
    for replica in &judged.replicas {
        writeln!(out, "{}", verdict_line("replica", number, replica))?;
    }
    Ok(())
}

fn verdict_line(what: &str, number: usize, verdict: &Verdict) -> String {
    match verdict {
        Verdict::Drop(cause) => format!("{what} {number} drop {}", cause.number()),
        Verdict::Sent(sent) => {
            let [a, b, c, d, e] = sent.queues;
            format!(
                "{what} {number} sent {} vlan {} prio {} tags {} queues {a} {b} {c} {d} {e}",
                sent.ports, sent.vlan, sent.priority, sent.tags
            )
        }
    }
}

/// A share is printed by its bits.
fn tile_line(image: &[u32], ledger: &Ledger, port: usize) -> String {
    let counts = ledger.numbers();
    match ledger.tile(image, port) {
        Ok(Tile::NotLoaded) => format!("tile {port} not-loaded"),
        Ok(Tile::NoFrames) => format!("tile {port} no-frames"),
        Ok(Tile::Shares { frames, octets }) => format!(
            "tile {port} frames {} drops {} share {:016x} octets {:016x}",
            counts.frames[port],
            counts.drops[port],
            frames.to_bits(),
            octets.to_bits()
        ),
        Err(refusal) => format!("tile {port} refused {}", refusal.number()),
    }
}
