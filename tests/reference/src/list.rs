//! The list of records: a reader that carries the list and its place, and the walk over it.
//! Document 01, "The verdict program": refusals 50 to 54 and the printed lines; document 02, request 2:
//! a replica's line.

use crate::judge::{judge, release, Judged, ReleaseAnswer, Sent, Verdict};
use crate::ledger::{Ledger, PORTS};
use crate::tile::{tile, TileAnswer};

/// The most bytes of a list; one more is 54.
pub const MOST_BYTES: usize = 16_384;

/// The mark FRL, then the 16-bit version 1.
pub const HEAD: [u8; 5] = [b'F', b'R', b'L', 0, 1];

#[derive(Clone, Copy, PartialEq, Eq, Debug)]
pub enum Record<'a> {
    Frame { port: u8, time: u64, bytes: &'a [u8] },
    Release { partition: u8 },
}

/// What stands at the reader's place.
#[derive(Clone, Copy, PartialEq, Eq, Debug)]
pub enum Next<'a> {
    Record(Record<'a>),
    End,
    Refused(u32),
}

/// The list and the place of the next record in it.
#[derive(Clone, Copy, Debug)]
pub struct Reader<'a> {
    pub list: &'a [u8],
    pub place: usize,
    /// Reading the list failed behind its last byte: its end is a cut.
    pub broke_off: bool,
}

impl<'a> Reader<'a> {
    /// A reader behind the head, or 54, 50, 51, 52.
    pub fn open(list: &'a [u8], broke_off: bool) -> Result<Reader<'a>, u32> {
        if list.len() > MOST_BYTES {
            return Err(54);
        }
        for (place, &byte) in list.iter().take(HEAD.len()).enumerate() {
            if byte != HEAD[place] {
                return Err(if place < 3 { 50 } else { 51 });
            }
        }
        if list.len() < HEAD.len() {
            return Err(52);
        }
        Ok(Reader { list, place: HEAD.len(), broke_off })
    }

    /// The next record; a refusal or the end leaves the place where it is.
    pub fn next_record(&mut self) -> Next<'a> {
        let rest = &self.list[self.place..];
        let Some(&kind) = rest.first() else {
            return if self.broke_off { Next::Refused(52) } else { Next::End };
        };
        let found = match kind {
            1 => frame_record(rest),
            2 => release_record(rest),
            _ => return Next::Refused(53),
        };
        let Some((record, length)) = found else {
            return Next::Refused(52);
        };
        self.place += length;
        Next::Record(record)
    }
}

/// A number, high byte first.
fn number(bytes: &[u8]) -> u64 {
    let mut number = 0;
    for &byte in bytes {
        number = number * 256 + u64::from(byte);
    }
    number
}

/// Kind, port (1), time (8), length (2), bytes; and how many bytes that is. None where cut.
fn frame_record(rest: &[u8]) -> Option<(Record<'_>, usize)> {
    let head = rest.get(..12)?;
    let length = number(&head[10..12]) as usize;
    let bytes = rest.get(12..12 + length)?;
    let record = Record::Frame { port: head[1], time: number(&head[2..10]), bytes };
    Some((record, 12 + length))
}

/// Kind, partition (1).
fn release_record(rest: &[u8]) -> Option<(Record<'_>, usize)> {
    let partition = *rest.get(1)?;
    Some((Record::Release { partition }, 2))
}

/// Runs the list from a ledger: the lines behind `config loaded`.
pub(crate) fn run_list(image: &[u32], ledger: Ledger, list: &[u8], broke_off: bool) -> Vec<String> {
    let mut lines = Vec::new();
    let mut ledger = ledger;
    let refusal = match Reader::open(list, broke_off) {
        Ok(mut reader) => walk(image, &mut ledger, &mut reader, &mut lines),
        Err(number) => Some(number),
    };
    if let Some(number) = refusal {
        lines.push(format!("list refused {number}"));
    }
    for port in 0..PORTS {
        lines.push(tile_line(image, &ledger, port));
    }
    lines
}

/// Runs record after record on one ledger; gives the refusal that ended the walk.
fn walk(
    image: &[u32],
    ledger: &mut Ledger,
    reader: &mut Reader<'_>,
    lines: &mut Vec<String>,
) -> Option<u32> {
    let mut number = 0;
    loop {
        match reader.next_record() {
            Next::End => return None,
            Next::Refused(refusal) => return Some(refusal),
            Next::Record(record) => {
                number += 1;
                lines.extend(run_record(image, ledger, number, record));
            }
        }
    }
}

/// One record's lines; the ledger is brought up to date.
fn run_record(
    image: &[u32],
    ledger: &mut Ledger,
    number: usize,
    record: Record<'_>,
) -> Vec<String> {
    match record {
        Record::Frame { port, time, bytes } => {
            let (judged, after) = judge(image, *ledger, u32::from(port), time, bytes);
            *ledger = after;
            frame_lines(number, &judged)
        }
        Record::Release { partition } => {
            let (answer, after) = release(image, *ledger, u32::from(partition));
            *ledger = after;
            vec![release_line(number, answer)]
        }
    }
}

/// The frame's line, and right behind it its replicas', with the same number.
fn frame_lines(number: usize, judged: &Judged) -> Vec<String> {
    let mut lines = vec![verdict_line("frame", number, judged.verdict)];
    for &replica in &judged.replicas {
        lines.push(verdict_line("replica", number, replica));
    }
    lines
}

fn verdict_line(what: &str, number: usize, verdict: Verdict) -> String {
    match verdict {
        Verdict::Refused(refusal) => format!("refused {refusal}"),
        Verdict::Drop(drop) => format!("{what} {number} drop {drop}"),
        Verdict::Sent(sent) => sent_line(what, number, sent),
    }
}

fn sent_line(what: &str, number: usize, sent: Sent) -> String {
    let [a, b, c, d, e] = sent.queues;
    format!(
        "{what} {number} sent {} vlan {} prio {} tags {} queues {a} {b} {c} {d} {e}",
        sent.ports, sent.vlan, sent.prio, sent.tags
    )
}

fn release_line(number: usize, answer: ReleaseAnswer) -> String {
    match answer {
        ReleaseAnswer::Refused(refusal) => format!("refused {refusal}"),
        ReleaseAnswer::Released => format!("release {number} ok"),
    }
}

/// Shares as the exact bits, 16 lower-case digits. A refused tile cannot come from the program.
fn tile_line(image: &[u32], ledger: &Ledger, port: usize) -> String {
    match tile(image, ledger, port as u32) {
        TileAnswer::Refused(refusal) => format!("tile {port} refused {refusal}"),
        TileAnswer::NotLoaded => format!("tile {port} not-loaded"),
        TileAnswer::NoFrames => format!("tile {port} no-frames"),
        TileAnswer::Shares { frames, octets } => format!(
            "tile {port} frames {} drops {} share {:016x} octets {:016x}",
            ledger.ports[port].frames,
            ledger.ports[port].drops,
            frames.to_bits(),
            octets.to_bits()
        ),
    }
}
