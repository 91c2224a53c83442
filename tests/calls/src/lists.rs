//! Frame lists: what stands at each place, by the proved entry and by the second program's reader.

use cases::case::Case;
use cases::generate::random_list;
use cases::rng::Rng;
use reference::k;
use reference::list::{Next, Reader, Record, HEAD, MOST_BYTES};
use tailbow::raw::{self, FlatRecord};

use crate::tally::{same, Answer, Tally};

/// Places that are asked of a list that is not asked at all of them.
const PLACES: usize = 40;

/// Places that no list has.
const FAR: [usize; 6] = [16_385, 1 << 32, 1 << 63, usize::MAX - 12, usize::MAX - 1, usize::MAX];

const NOTHING: FlatRecord =
    FlatRecord { kind: 0, number: 0, time: 0, port: 0, partition: 0, start: 0, count: 0, next: 0 };

/// What the second program finds at a place. Past the list's end it has none: there the list ends.
fn expected(list: &[u8], at: usize) -> FlatRecord {
    let refused = |number| FlatRecord { number, ..NOTHING };
    let end = FlatRecord { kind: 3, ..NOTHING };
    let mut reader = match Reader::open(list, false) {
        Ok(reader) => Reader { place: at, ..reader },
        Err(number) => return refused(number),
    };
    if at > list.len() {
        return end;
    }
    match reader.next_record() {
        Next::Refused(number) => refused(number),
        Next::End => end,
        Next::Record(Record::Release { partition }) => FlatRecord {
            kind: 2,
            partition: partition.into(),
            next: reader.place as u64,
            ..NOTHING
        },
        Next::Record(Record::Frame { port, time, bytes }) => FlatRecord {
            kind: 1,
            time,
            port: port.into(),
            start: (bytes.as_ptr() as usize - list.as_ptr() as usize) as u64,
            count: bytes.len() as u64,
            next: reader.place as u64,
            ..NOTHING
        },
    }
}

/// One place; gives where the next record stands.
fn ask(tally: &mut Tally, name: &str, list: &[u8], at: usize) -> Option<usize> {
    let ours = raw::record_at(list, at);
    let answer = match ours.kind {
        0 => Answer::Refused(ours.number),
        1 => Answer::Told("frame"),
        2 => Answer::Told("release"),
        _ => Answer::Told("end"),
    };
    let theirs = expected(list, at);
    let compared = same(name, ours, theirs).map_err(|failure| format!("place {at}: {failure}"));
    tally.call("record_at", answer, compared);
    (theirs.next > 0).then_some(theirs.next as usize)
}

/// A walk from the first record on, some places anywhere, and places past the end.
fn asked(rng: &mut Rng, tally: &mut Tally, name: &str, list: &[u8]) {
    let mut place = Some(HEAD.len());
    while let Some(at) = place {
        place = ask(tally, name, list, at);
    }
    for _ in 0..PLACES {
        ask(tally, name, list, rng.place(list.len() + 2));
    }
    for at in [list.len().saturating_sub(1), list.len(), list.len() + 1].into_iter().chain(FAR) {
        ask(tally, name, list, at);
    }
}

/// K's list at every place, cut behind every byte and with every bit turned over; every head; lists at the most bytes.
pub fn fixed(rng: &mut Rng, tally: &mut Tally) {
    let list = k::list();
    for length in 0..=list.len() {
        let name = format!("K's list cut behind {length} bytes");
        for at in 0..=length + 1 {
            ask(tally, &name, &list[..length], at);
        }
    }
    for bit in 0..8 * list.len() {
        let mut flipped = list.clone();
        flipped[bit / 8] ^= 1 << (bit % 8);
        asked(rng, tally, &format!("K's list, bit {bit} turned over"), &flipped);
    }
    for place in 0..HEAD.len() {
        for byte in 0..=255 {
            let mut head = HEAD.to_vec();
            head[place] = byte;
            head.extend([2, 7]);
            for length in place + 1..=head.len() {
                ask(tally, &format!("head {head:?}"), &head[..length], HEAD.len());
            }
        }
    }
    for length in [MOST_BYTES - 1, MOST_BYTES, MOST_BYTES + 1, MOST_BYTES + 2, 1 << 20] {
        let mut long = HEAD.to_vec();
        long.resize(length, 2);
        asked(rng, tally, &format!("a list of {length} bytes"), &long);
    }
}

/// The lists of cases.
pub fn of_cases(rng: &mut Rng, tally: &mut Tally, cases: &[Case]) {
    for case in cases {
        asked(rng, tally, &case.name, &case.list);
    }
}

/// A generated list, and one of any bytes behind a head.
pub fn generated(rng: &mut Rng, tally: &mut Tally, name: &str) {
    let list = random_list(rng);
    asked(rng, tally, name, &list);
    let mut any = HEAD.to_vec();
    for _ in 0..rng.place(80) {
        let byte = if rng.once_in(3) { rng.below(4) } else { rng.below(256) };
        any.push(byte as u8);
    }
    asked(rng, tally, name, &any);
}
