//! Ledgers, frames with their replicas, releases and tiles: each call made twice, by the proved entry and by the second program.

use std::hint::black_box;

use cases::edit::{edited_image, edited_ledger};
use cases::generate::{later, random_frame};
use cases::rng::Rng;
use reference::image::{count, too_short};
use reference::judge::{self, ReleaseAnswer, Verdict};
use reference::ledger::{self, Ledger, PortCounts, LAST_TIME};
use reference::tables::Table;
use reference::tile::{self, TileAnswer};

use crate::tally::{same, Answer, Tally};
use tailbow::raw::{self as entries, FlatJudged, FlatLedger, FlatTile, FlatVerdict};
use tailbow::REPLICAS;

/// Calls in a sequence.
const STEPS: usize = 32;

/// A sequence of frames and releases on this image, and tiles; once in a while on an edited image or an edited ledger.
pub fn sequence(rng: &mut Rng, tally: &mut Tally, name: &str, image: &[u32]) {
    let other = edited_image(rng, image);
    fresh(rng, tally, name, &other);
    let Some(mut ledger) = fresh(rng, tally, name, image) else {
        return;
    };
    for _ in 0..STEPS {
        let other = rng.once_in(8).then(|| edited_image(rng, image));
        let given = if rng.once_in(8) { edited_ledger(rng, image, &ledger) } else { ledger };
        let lent = other.as_deref().unwrap_or(image);
        let after = if rng.once_in(5) {
            release(tally, name, lent, given, partition(rng))
        } else {
            let (port, time) = (port(rng), time(rng, ledger.last_time));
            // The bytes stand at any address.
            let start = rng.place(4);
            let placed = [vec![0; start], bytes(rng)].concat();
            frame(tally, name, lent, given, (port, time), &placed[start..])
        };
        if rng.once_in(4) {
            show(tally, name, lent, given, port(rng));
        }
        // An edited ledger goes on where it is in range and has room.
        if given == ledger || (!ledger::out_of_range(image, &after) && rng.once_in(4)) {
            ledger = after;
        }
    }
    for port in 0..6 {
        show(tally, name, image, ledger, port);
    }
    let many = many_frames(rng, &ledger);
    for port in 0..5 {
        show(tally, name, image, many, port);
        frame(tally, name, image, many, (port, many.last_time), &bytes(rng));
    }
}

/// Counts in range that no judging reaches: past 2^53 a tile's shares round.
fn many_frames(rng: &mut Rng, ledger: &Ledger) -> Ledger {
    let mut many = *ledger;
    for port in &mut many.ports {
        let frames = rng.next() >> rng.between(3, 40);
        let drops = rng.below(frames + 1);
        let octets = 4 * frames + rng.below(frames + 1);
        *port = PortCounts { frames, drops, octets, dropped_octets: 4 * drops };
    }
    many
}

/// Mostly one of the five.
fn port(rng: &mut Rng) -> usize {
    if rng.once_in(24) {
        return rng.pick(&[5, 6, 255, 1 << 31, usize::MAX]);
    }
    rng.place(5)
}

/// Mostly one of the first, of which some is out.
fn partition(rng: &mut Rng) -> usize {
    match rng.below(8) {
        0 => rng.pick(&[8, 9, 255, 1 << 31, usize::MAX]),
        1..=4 => 0,
        _ => rng.place(8),
    }
}

fn time(rng: &mut Rng, last: u64) -> u64 {
    if rng.once_in(24) {
        return rng.pick(&[last.wrapping_sub(1), last, 0, LAST_TIME + 1, u64::MAX]);
    }
    later(rng, last)
}

/// A frame of any length up to the most and past it.
fn bytes(rng: &mut Rng) -> Vec<u8> {
    let mut frame = random_frame(rng);
    if rng.once_in(24) {
        frame.resize(rng.pick(&[0, 1, 11, 12, 13, 17, 18, 4095, 4096, 4097, 5000]), 0x5A);
    }
    frame
}

/// The second program's numbers are narrower; past them nothing changes.
fn narrow(number: usize) -> u32 {
    u32::try_from(number).unwrap_or(u32::MAX)
}

/// A ledger that is lent, between two words that are nobody's.
#[repr(C)]
#[derive(Clone, Copy, PartialEq, Eq, Debug)]
struct Lent {
    before: u64,
    ledger: FlatLedger,
    after: u64,
}

impl Lent {
    fn around(ledger: FlatLedger) -> Lent {
        Lent { before: 0x5A5A_0001, ledger, after: 0x5A5A_0002 }
    }

    fn of(ledger: &Ledger) -> Lent {
        Lent::around(flat(ledger))
    }

    /// Any numbers.
    fn any(rng: &mut Rng) -> Lent {
        Lent::around(FlatLedger {
            units: numbers(rng),
            credit: numbers(rng),
            since: numbers(rng),
            frames: numbers(rng),
            drops: numbers(rng),
            octets: numbers(rng),
            dropped: numbers(rng),
            last: rng.next(),
        })
    }
}

/// Places for replicas that are lent, between two that are nobody's.
#[repr(C)]
#[derive(Clone, Copy)]
struct Places {
    before: FlatVerdict,
    replicas: [FlatVerdict; REPLICAS],
    after: FlatVerdict,
}

impl Places {
    /// As they are found: what no verdict has, each place otherwise.
    fn found() -> Places {
        let place = |number: usize| FlatVerdict {
            kind: 0x5A5A_A5A5,
            number: number as u32,
            ports: u64::MAX,
            vlan: u64::MAX,
            priority: u64::MAX,
            tags: u64::MAX,
            queues: [u64::MAX; 5],
        };
        Places { before: place(1_000), replicas: std::array::from_fn(place), after: place(2_000) }
    }

    /// Where these verdicts stand in the first places, and all else is as found.
    fn with(replicas: &[Verdict]) -> Places {
        let mut places = Places::found();
        for (place, replica) in places.replicas.iter_mut().zip(replicas) {
            *place = flat_verdict(*replica);
        }
        places
    }

    /// Ok where every place is equal; else the first that isn't.
    fn same(&self, expected: &Places) -> Result<(), String> {
        for (number, (ours, expected)) in self.replicas.iter().zip(&expected.replicas).enumerate() {
            if ours != expected {
                return same(&format!("replica's place {number}"), ours, expected);
            }
        }
        let around = |places: &Places| [places.before, places.after];
        same("around the places", around(self), around(expected))
    }
}

fn numbers<const N: usize>(rng: &mut Rng) -> [u64; N] {
    std::array::from_fn(|_| rng.next())
}

/// A fresh ledger in a place where any numbers stood: each is filled, also beside a refusal.
pub fn fresh(rng: &mut Rng, tally: &mut Tally, name: &str, image: &[u32]) -> Option<Ledger> {
    let theirs = ledger::fresh_ledger(image);
    let (number, expected) = match theirs {
        Ok(ledger) => (0, ledger),
        Err(number) => (number, ledger::no_ledger()),
    };
    let mut lent = Lent::any(rng);
    let told = entries::fresh_ledger(image, &mut lent.ledger);
    let compared = same("number", told, number)
        .and(same("lent ledger", lent, Lent::of(&expected)))
        .map_err(|failure| format!("{name}: {failure}"));
    tally.call("fresh_ledger", Answer::of_number(told, "done"), compared);
    theirs.ok()
}

pub fn frame(
    tally: &mut Tally,
    name: &str,
    image: &[u32],
    ledger: Ledger,
    at: (usize, u64),
    frame: &[u8],
) -> Ledger {
    judged(tally, name, image, ledger, at, frame).1
}

/// A frame with its replicas; gives the verdicts, the frame's own first, and the ledger after them.
pub fn judged(
    tally: &mut Tally,
    name: &str,
    image: &[u32],
    ledger: Ledger,
    (port, time): (usize, u64),
    frame: &[u8],
) -> (Vec<FlatVerdict>, Ledger) {
    let (expected, after) = judge::judge(image, ledger, narrow(port), time, frame);
    let (mut lent, mut places) = (Lent::of(&ledger), Places::found());
    let told = entries::judge(image, &mut lent.ledger, port, time, frame, &mut places.replicas);
    let verdict = flat_verdict(expected.verdict);
    let compared =
        same("verdict", told, FlatJudged { verdict, replicas: expected.replicas.len() as u64 })
            .and(places.same(&Places::with(&expected.replicas)))
            .and(same("lent ledger", lent, Lent::of(&after)))
            .map_err(|failure| {
                format!("{name}: port {port}, time {time}, {frame:02X?}: {failure}")
            });
    tally.call("judge", answer_of(&told.verdict), compared);
    let replicas = &places.replicas[..REPLICAS.min(told.replicas as usize)];
    note(tally, image, &told.verdict, replicas);
    ([&[told.verdict][..], replicas].concat(), after)
}

fn answer_of(verdict: &FlatVerdict) -> Answer {
    match verdict.kind {
        0 => Answer::Refused(verdict.number),
        1 => Answer::Drop(verdict.number),
        _ => Answer::Told("sent"),
    }
}

/// How many replicas the frame has, and what each came to.
fn note(tally: &mut Tally, image: &[u32], verdict: &FlatVerdict, replicas: &[FlatVerdict]) {
    let many = match replicas.len() {
        0 if verdict.kind > 0 => "none",
        0 if too_short(image) || count(image, Table::Retagging) == 0 => return,
        0 => "refused",
        1 => "one",
        REPLICAS => "all 32",
        _ => "several",
    };
    tally.seen("replicas", Answer::Told(many));
    for replica in replicas {
        tally.seen("replica", answer_of(replica));
    }
}

pub fn release(
    tally: &mut Tally,
    name: &str,
    image: &[u32],
    ledger: Ledger,
    partition: usize,
) -> Ledger {
    let (answer, after) = judge::release(image, ledger, narrow(partition));
    let number = match answer {
        ReleaseAnswer::Refused(number) => number,
        ReleaseAnswer::Released => 0,
    };
    let mut lent = Lent::of(&ledger);
    let told = entries::release(image, &mut lent.ledger, partition);
    let compared = same("number", told, number)
        .and(same("lent ledger", lent, Lent::of(&after)))
        .map_err(|failure| format!("{name}: partition {partition}: {failure}"));
    tally.call("release", Answer::of_number(told, "done"), compared);
    after
}

pub fn show(tally: &mut Tally, name: &str, image: &[u32], ledger: Ledger, port: usize) {
    let mut lent = Lent::of(&ledger);
    let ours = entries::tile(image, &black_box(&mut lent).ledger, port);
    let shown = |kind, number, share, octets| FlatTile { kind, number, share, octets };
    let expected = match tile::tile(image, &ledger, narrow(port)) {
        TileAnswer::Refused(number) => shown(0, number, 0, 0),
        TileAnswer::NotLoaded => shown(1, 0, 0, 0),
        TileAnswer::NoFrames => shown(2, 0, 0, 0),
        TileAnswer::Shares { frames, octets } => shown(3, 0, frames.to_bits(), octets.to_bits()),
    };
    // It was lent to be read: without the box the compiler may take it as unchanged and not look.
    let after = *black_box(&mut lent);
    let compared = same("tile", ours, expected).and(same("lent ledger", after, Lent::of(&ledger)));
    let answer = match ours.kind {
        0 => Answer::Refused(ours.number),
        1 => Answer::Told("not-loaded"),
        2 => Answer::Told("no-frames"),
        _ => Answer::Told("shares"),
    };
    tally.call("tile", answer, compared.map_err(|e| format!("{name}: port {port}: {e}")));
}

/// A ledger's numbers.
fn flat(ledger: &Ledger) -> FlatLedger {
    FlatLedger {
        units: ledger.units,
        credit: ledger.meters.map(|meter| meter.credit),
        since: ledger.meters.map(|meter| meter.time),
        frames: ledger.ports.map(|port| port.frames),
        drops: ledger.ports.map(|port| port.drops),
        octets: ledger.ports.map(|port| port.octets),
        dropped: ledger.ports.map(|port| port.dropped_octets),
        last: ledger.last_time,
    }
}

fn flat_verdict(verdict: Verdict) -> FlatVerdict {
    let none = FlatVerdict::default();
    match verdict {
        Verdict::Refused(number) => FlatVerdict { number, ..none },
        Verdict::Drop(number) => FlatVerdict { kind: 1, number, ..none },
        Verdict::Sent(sent) => FlatVerdict {
            kind: 2,
            number: 0,
            ports: sent.ports.into(),
            vlan: sent.vlan.into(),
            priority: sent.prio.into(),
            tags: sent.tags.into(),
            queues: sent.queues.map(u64::from),
        },
    }
}
