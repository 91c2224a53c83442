//! Both sides of each boundary that only calls can show: 30, 31, 32, 38, 39, edited ledgers and images.

use reference::image::{count_place, IMAGE_WORDS, MARK};
use reference::judge::{judge, release, ReleaseAnswer, Verdict};
use reference::k;
use reference::ledger::{fresh_ledger, Ledger, PortCounts, LAST_TIME};
use reference::load::{load_bytes, load_words, write, LoadAnswer, LoadState, Phase};
use reference::stream::{plain_stream, Lists};
use reference::tables::{policing, vlan_lookup, Table, ROWS};
use reference::tile::{tile, TileAnswer};

use crate::build::{open, with_retagging, with_vlan, Frame, A};
use crate::case::Side;
use crate::edit::put_value;
use crate::generate::{random_config, Profile};
use crate::named_calls::same;
use crate::rng::Rng;
use crate::rules::least_entries;
use crate::tally::Tally;

/// One round: every boundary, both sides.
pub fn run(rng: &mut Rng, tally: &mut Tally) {
    too_short(tally);
    write_lengths(rng, tally);
    write_counts(rng, tally);
    write_room(rng, tally);
    marks_and_counts(rng, tally);
    ledgers(rng, tally);
    most_frames(rng, tally);
    credits(rng, tally);
    shared_entries(rng, tally);
    replicas_vlans(rng, tally);
}

/// Counts a side and its refusal where it came out as it must.
fn expect<T: PartialEq + std::fmt::Debug>(
    tally: &mut Tally,
    boundary: &str,
    side: Side,
    got: T,
    expected: T,
) {
    let result = same(boundary, got, expected);
    if result.is_ok() {
        tally.side(boundary, side);
    }
    tally.result(result);
}

fn loaded(lists: &Lists) -> Vec<u32> {
    let mut image = vec![0; IMAGE_WORDS];
    load_words(&mut image, &plain_stream(lists));
    image
}

/// The ledger, or one that every check against will show.
fn fresh(image: &[u32]) -> Ledger {
    fresh_ledger(image).unwrap_or(reference::ledger::no_ledger())
}

/// The refusal number of a frame's answer, 0 for a verdict; a refused one has no replicas and leaves
/// the ledger as found.
fn frame_number(image: &[u32], ledger: &Ledger, port: u32, time: u64, frame: &[u8]) -> u32 {
    let (judged, after) = judge(image, *ledger, port, time, frame);
    match judged.verdict {
        Verdict::Refused(number) if judged.replicas.is_empty() && after == *ledger => number,
        Verdict::Refused(_) => 999,
        _ => 0,
    }
}

/// The refusal number of a release, 0 where a unit came back or only 37 was in its way.
fn release_number(image: &[u32], ledger: &Ledger, partition: u32) -> u32 {
    match release(image, *ledger, partition) {
        (ReleaseAnswer::Refused(37), after) if after == *ledger => 0,
        (ReleaseAnswer::Refused(number), after) if after == *ledger => number,
        (ReleaseAnswer::Refused(_), _) => 999,
        _ => 0,
    }
}

/// The refusal number of a tile; not-loaded counts as the 30 it stands for.
fn tile_number(image: &[u32], ledger: &Ledger, port: u32) -> u32 {
    match tile(image, ledger, port) {
        TileAnswer::Refused(number) => number,
        TileAnswer::NotLoaded => 30,
        TileAnswer::NoFrames | TileAnswer::Shares { .. } => 0,
    }
}

/// 31 of every call: the image's words are enough, one word less is not.
fn too_short(tally: &mut Tally) {
    let stream = plain_stream(&open());
    let bytes = reference::stream::bytes_of(&stream);
    let image = loaded(&open());
    let ledger = fresh(&image);
    for (words, side, number) in [
        (IMAGE_WORDS, Side::Passes, 0),
        (IMAGE_WORDS - 1, Side::Refused, 31),
        (0, Side::Refused, 31),
    ] {
        let image = &image[..words];
        let told = |answer| match answer {
            LoadAnswer::Refused(number) => number,
            LoadAnswer::Loaded | LoadAnswer::More => 0,
        };
        let lent = || vec![9; words];
        let numbers = [
            ("31 load_words", told(load_words(&mut lent(), &stream))),
            ("31 load_bytes", told(load_bytes(&mut lent(), &bytes))),
            ("31 write", told(write(&mut lent(), LoadState::fresh(), &stream[..9]).0)),
            ("31 fresh_ledger", fresh_ledger(image).err().unwrap_or(0)),
            ("31 judge", frame_number(image, &ledger, 0, 0, &[0; 60])),
            ("31 tile", tile_number(image, &ledger, 0)),
            ("31 release", release_number(image, &ledger, 0)),
        ];
        for (boundary, got) in numbers {
            if got == 31 {
                tally.refusal(31);
            }
            expect(tally, boundary, side, got, number);
        }
    }
}

/// 32: writes of 1 and 64 words are taken, of 0 and 65 are not.
fn write_lengths(rng: &mut Rng, tally: &mut Tally) {
    let stream = plain_stream(&k::lists());
    let begun = rng.below(30) as usize;
    for (words, side, boundary) in [
        (1, Side::Passes, "32 a write of 0 words"),
        (0, Side::Refused, "32 a write of 0 words"),
        (64, Side::Passes, "32 a write above 64 words"),
        (65, Side::Refused, "32 a write above 64 words"),
    ] {
        let mut image = vec![0; IMAGE_WORDS];
        let mut state = LoadState::fresh();
        if begun > 0 {
            state = write(&mut image, state, &stream[..begun]).1;
        }
        let before = (image.clone(), state);
        let (answer, after) = write(&mut image, state, &stream[begun..begun + words]);
        let expected = match side {
            Side::Passes => LoadAnswer::More,
            Side::Refused => LoadAnswer::Refused(32),
        };
        expect(tally, boundary, side, answer, expected);
        if side == Side::Refused {
            tally.refusal(32);
            tally.result(same("32 leaves all", (image, after), before));
        }
    }
}

/// 30 of a write: each count at its limit and above, between two blocks.
fn write_counts(rng: &mut Rng, tally: &mut Tally) {
    let stream = plain_stream(&k::lists());
    for row in ROWS {
        let boundary = format!("30 write, count of {:02X}", row.id);
        let most = row.most as u32;
        let above = rng.pick(&[most + 1, u32::MAX]);
        for (count, side) in [(most, Side::Passes), (above, Side::Refused)] {
            let mut image = vec![0; IMAGE_WORDS];
            // Behind word 0 alone: no block is begun.
            let (_, state) = write(&mut image, LoadState::fresh(), &stream[..1]);
            image[count_place(row.table)] = count;
            let before = image.clone();
            let (answer, after) = write(&mut image, state, &stream[1..2]);
            let expected = match side {
                Side::Passes => LoadAnswer::More,
                Side::Refused => LoadAnswer::Refused(30),
            };
            expect(tally, &boundary, side, answer, expected);
            if side == Side::Refused {
                tally.refusal(30);
                tally.result(same("30 leaves all", (image, after), (before, state)));
            }
        }
    }
}

/// 30 of a write inside a block: count x words + placed + due at the room and above it.
fn write_room(rng: &mut Rng, tally: &mut Tally) {
    let row = &ROWS[rng.place(ROWS.len())];
    let words = row.words as u64;
    let room = words * row.most as u64;
    let count = rng.below(row.most as u64);
    let left = room - count * words;
    let placed = rng.below(left);
    let due = left - placed;
    let edits = [
        ("30 write, words due", placed, due, Side::Passes),
        ("30 write, words due", placed, due + 1, Side::Refused),
        ("30 write, words due", placed, u64::MAX, Side::Refused),
        ("30 write, words placed", placed, due, Side::Passes),
        ("30 write, words placed", placed + 1, due, Side::Refused),
        ("30 write, words placed", u64::MAX, due, Side::Refused),
    ];
    for (boundary, placed, due, side) in edits {
        let phase = rng.pick(&[Phase::Data, Phase::DataChecksum]);
        let state =
            LoadState { begun: true, phase, table: row.table, placed, due, ..LoadState::fresh() };
        let mut image = vec![0; IMAGE_WORDS];
        image[count_place(row.table)] = count as u32;
        let before = image.clone();
        let (answer, after) = write(&mut image, state, &[1]);
        // A data word is taken; 1 is no checksum of nothing.
        let expected = match (side, phase) {
            (Side::Refused, _) => LoadAnswer::Refused(30),
            (Side::Passes, Phase::Data) => LoadAnswer::More,
            (Side::Passes, _) => LoadAnswer::Refused(7),
        };
        expect(tally, boundary, side, answer, expected);
        if side == Side::Refused {
            tally.refusal(30);
            tally.result(same("30 leaves all", (image, after), (before, state)));
        }
    }
}

/// What a word of the image is put to, at which boundary, and on which side that is.
type ImageEdit = (String, usize, u32, Side);

/// The mark, and each count that frames ask: its least and its most.
fn image_edits(rng: &mut Rng) -> Vec<ImageEdit> {
    let mark = || "30 mark".to_string();
    let mut edits = vec![
        (mark(), MARK, 1, Side::Passes),
        (mark(), MARK, 0, Side::Refused),
        (mark(), MARK, rng.pick(&[2, 3, 256, u32::MAX]), Side::Refused),
    ];
    for row in ROWS {
        let (least, most) = (least_entries(row.table) as u32, row.most as u32);
        let mut edit = |count, side| {
            let boundary = format!("30 count of {:02X}", row.id);
            edits.push((boundary, count_place(row.table), count, side));
        };
        edit(least, Side::Passes);
        edit(most, Side::Passes);
        edit(most + 1, Side::Refused);
        edit(u32::MAX, Side::Refused);
        if least > 0 {
            edit(least - 1, Side::Refused);
        }
    }
    edits
}

/// 30 of frames, releases and fresh ledgers, and the tile's not-loaded: mark and counts.
fn marks_and_counts(rng: &mut Rng, tally: &mut Tally) {
    let sound = loaded(&open());
    for (boundary, place, word, side) in image_edits(rng) {
        let mut image = sound.clone();
        image[place] = word;
        let ledger = fresh_ledger(&image).unwrap_or(fresh(&sound));
        let number = if side == Side::Refused { 30 } else { 0 };
        let numbers = [
            fresh_ledger(&image).err().unwrap_or(0),
            frame_number(&image, &ledger, 0, 0, &[0; 60]),
            release_number(&image, &ledger, 0),
            tile_number(&image, &ledger, 0),
        ];
        expect(tally, &boundary, side, numbers, [number; 4]);
        if side == Side::Refused {
            tally.refusal(30);
        }
    }
}

/// A boundary of 39 and a ledger on each side of it.
type LedgerPair = (&'static str, Ledger, Ledger);

/// A ledger on both sides of each clause of 39.
fn ledgers(rng: &mut Rng, tally: &mut Tally) {
    let mut lists = random_config(rng, Profile::Near);
    lists.of_mut(Table::L2Policing).truncate(30);
    for number in 0..lists.of(Table::L2Policing).len() {
        lists.put(policing::SHARINDX, number, 0);
    }
    let loaded_entries = lists.of(Table::L2Policing).len();
    let image = loaded(&lists);
    let mut whole = fresh(&image);
    whole.last_time = rng.between(1, LAST_TIME - 1);
    let mut pairs = meter_clauses(rng, &whole, loaded_entries);
    pairs.extend(count_clauses(rng, &whole));
    for (boundary, passes, refused) in pairs {
        ask_39(rng, tally, boundary, Side::Passes, &image, &passes);
        ask_39(rng, tally, boundary, Side::Refused, &image, &refused);
    }
}

/// A ledger at its bound, and one step beyond it.
fn pair(boundary: &'static str, whole: &Ledger, edit: &dyn Fn(&mut Ledger, u64)) -> LedgerPair {
    let (mut passes, mut refused) = (*whole, *whole);
    edit(&mut passes, 0);
    edit(&mut refused, 1);
    (boundary, passes, refused)
}

/// Units, credits and times; the whole ledger has full partitions and meters.
fn meter_clauses(rng: &mut Rng, whole: &Ledger, loaded_entries: usize) -> Vec<LedgerPair> {
    let time = whole.last_time;
    let partition = rng.place(8);
    let meter = rng.place(loaded_entries);
    let absent = loaded_entries + rng.place(45 - loaded_entries);
    vec![
        pair("39 units", whole, &|ledger, more| ledger.units[partition] += more),
        pair("39 credit", whole, &|ledger, more| ledger.meters[meter].credit += more),
        pair("39 credit of no entry", whole, &|ledger, more| ledger.meters[absent].credit = more),
        pair("39 time of a meter", whole, &|ledger, more| ledger.meters[meter].time = time + more),
        pair("39 time of no entry's meter", whole, &|ledger, more| {
            ledger.meters[absent].time = time + more;
        }),
        pair("39 last time", whole, &|ledger, more| ledger.last_time = LAST_TIME + more),
    ]
}

/// Frames, drops, octets and dropped octets of one port; `more` breaks one clause alone.
fn count_clauses(rng: &mut Rng, whole: &Ledger) -> Vec<LedgerPair> {
    let port = rng.place(5);
    let n = rng.between(1, (1 << 32) - 3);
    let counts = |boundary, of: &dyn Fn(u64) -> [u64; 4]| {
        pair(boundary, whole, &|ledger, more| {
            let [frames, drops, octets, dropped_octets] = of(more);
            ledger.ports[port] = PortCounts { frames, drops, octets, dropped_octets };
        })
    };
    vec![
        counts("39 drops above frames", &|more| [n, n + more, 64 * n, 4 * (n + more)]),
        counts("39 octets below 4 x frames", &|more| [n, 0, 4 * n - more, 0]),
        counts("39 octets above 4,100 x frames", &|more| [n, 0, 4_100 * n + more, 0]),
        counts("39 octets of no frames", &|more| [0, 0, more, 0]),
        counts("39 dropped octets below 4 x drops", &|more| [n + 1, n, 64 * n + 64, 4 * n - more]),
        counts("39 dropped octets above 4,100 x drops", &|more| {
            [n + 1, n, 4_100 * n + 4_100, 4_100 * n + more]
        }),
        counts("39 dropped octets of no drops", &|more| [n, 0, 64 * n, more]),
        counts("39 dropped octets above octets", &|more| [n + 1, n, 64 * n, 64 * n + more]),
    ]
}

/// Whichever port and partition is asked.
fn ask_39(
    rng: &mut Rng,
    tally: &mut Tally,
    boundary: &'static str,
    side: Side,
    image: &[u32],
    ledger: &Ledger,
) {
    let (port, partition) = (rng.below(5) as u32, rng.below(8) as u32);
    let frame = Frame::to(A).bytes();
    let numbers = [
        frame_number(image, ledger, port, ledger.last_time, &frame),
        release_number(image, ledger, partition),
        tile_number(image, ledger, port),
    ];
    let number = if side == Side::Refused { 39 } else { 0 };
    expect(tally, boundary, side, numbers, [number; 3]);
    if side == Side::Refused {
        tally.refusal(39);
    }
}

/// 38: this port's frames at 2^32 - 2 and 2^32 - 1.
fn most_frames(rng: &mut Rng, tally: &mut Tally) {
    let image = loaded(&open());
    let port = rng.place(5);
    for (frames, side, number) in
        [((1 << 32) - 2, Side::Passes, 0), ((1 << 32) - 1, Side::Refused, 38)]
    {
        let mut ledger = fresh(&image);
        ledger.ports[port].frames = frames;
        ledger.ports[port].octets = frames * rng.between(4, 4_100);
        let frame = Frame::to(A).bytes();
        let told = frame_number(&image, &ledger, port as u32, 0, &frame);
        expect(tally, "38 frames of a port", side, told, number);
        let other = frame_number(&image, &ledger, (port as u32 + 1) % 5, 0, &frame);
        tally.result(same("38 is of this port", other, 0));
        if side == Side::Refused {
            tally.refusal(38);
        }
    }
}

/// The verdict on one frame to A on port 0, as a drop number, 0 where sent.
fn drop_number(tally: &mut Tally, image: &[u32], ledger: &Ledger, bytes: usize) -> (u32, Ledger) {
    let frame = Frame::to(A).length(bytes).bytes();
    let (judged, after) = judge(image, *ledger, 0, ledger.last_time, &frame);
    let number = match judged.verdict {
        Verdict::Drop(number) => number,
        Verdict::Sent(_) => 0,
        Verdict::Refused(number) => 1000 + number,
    };
    if (1..=11).contains(&number) {
        tally.drop(number);
    }
    (number, after)
}

/// Drop 9 by one millionth of a bit: L x 8,000,000 is enough and all spent, one less stays.
fn credits(rng: &mut Rng, tally: &mut Tally) {
    let mut lists = open();
    lists.put(policing::RATE, 0, 0);
    let image = loaded(&lists);
    let bytes = rng.between(60, 1514);
    let price = (bytes + 4) * 8_000_000;
    for (credit, side, number, left) in
        [(price, Side::Passes, 0, 0), (price - 1, Side::Refused, 9, price - 1)]
    {
        let mut ledger = fresh(&image);
        ledger.meters[0].credit = credit;
        ledger.last_time = rng.below(LAST_TIME);
        let (told, after) = drop_number(tally, &image, &ledger, bytes as usize);
        let got = (told, after.meters[0].credit, after.meters[0].time);
        let expected = (number, left, ledger.last_time);
        expect(tally, "drop 9 credit", side, got, expected);
    }
}

/// Drop 7 by SHARINDX, in an edited image: count - 1 and count.
fn shared_entries(rng: &mut Rng, tally: &mut Tally) {
    let entries = rng.between(1, 45);
    for (shared, side, number) in
        [(entries - 1, Side::Passes, 0), (entries, Side::Refused, 7), (63, Side::Refused, 7)]
    {
        let mut image = loaded(&open());
        image[count_place(Table::L2Policing)] = entries as u32;
        put_value(&mut image, policing::SHARINDX, 0, shared);
        let ledger = fresh(&image);
        let (told, _) = drop_number(tally, &image, &ledger, 60);
        expect(tally, "drop 7 SHARINDX", side, told, number);
    }
}

/// A replica's drop 4, in an edited image: 07 has its VLAN, or one that is one bit apart.
fn replicas_vlans(rng: &mut Rng, tally: &mut Tally) {
    let vlan = rng.between(2, 4095);
    let port = rng.below(5) as u32;
    let lists = with_retagging(with_vlan(open(), vlan, 31, 31, 0), 31, 1, vlan);
    let near = vlan ^ (1 << rng.below(12));
    for (told, side) in [(vlan, Side::Passes), (near, Side::Refused)] {
        let mut image = loaded(&lists);
        put_value(&mut image, vlan_lookup::VLANID, 1, told);
        let (judged, after) = judge(&image, fresh(&image), port, 0, &Frame::to(A).bytes());
        tally.judged(&judged);
        let sent = matches!(judged.replicas[..], [Verdict::Sent(_)]);
        let dropped = judged.replicas == [Verdict::Drop(4)];
        let got = (sent, dropped, after.units[0], after.ports[port as usize].frames);
        let expected = match side {
            Side::Passes => (true, false, 98, 1),
            Side::Refused => (false, true, 99, 1),
        };
        expect(tally, "replica drop 4 VLAN", side, got, expected);
    }
}
