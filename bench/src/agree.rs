//! Before any timing: Tailbow, the peer and the second program give equal answers, images, verdicts and ledgers.

use cases::case::Case;
use cases::damage::{flip, rearranged};
use cases::edit::{edited_image, edited_ledger};
use cases::generate::{later, random_config, random_frame, Profile};
use cases::rng::Rng;
use cases::rules::RULES;
use cases::{boundaries, check};
use reference::image::{count_place, of_lists, FIRST_COUNT, IMAGE_WORDS};
use reference::judge::{self, ReleaseAnswer, Verdict};
use reference::ledger::{self, Ledger};
use reference::list::{Next, Reader, Record};
use reference::load::{self, LoadAnswer, LoadState};
use reference::stream::{bytes_of, plain_stream, words_of, Lists};
use reference::tables::{address_lookup, Table, ROWS};
use reference::tile::{self, TileAnswer};
use reference::{crc, k};

use crate::flat::*;
use crate::marks;
use crate::ours::OURS;
use crate::peer::PEER;
use crate::works::{self, full_frame, full_stream, k_frames, lists, replicating};
use crate::works::{Place, Sizes, FULL, LEAST, REPLICAS, UNITS};

/// How many configurations, and how many damaged streams of each.
const CONFIGS: usize = 60;
const DAMAGED: usize = 6;

/// Comparisons that held.
#[derive(Default)]
pub struct Agreed {
    pub loads: usize,
    pub calls: usize,
    pub replicas: usize,
}

type Checked = Result<(), String>;

fn same<T: PartialEq + std::fmt::Debug>(what: &str, ours: &T, peer: &T, expected: &T) -> Checked {
    if ours != expected {
        return Err(format!("{what}: Tailbow {ours:?}, not {expected:?}"));
    }
    if peer != expected {
        return Err(format!("{what}: the peer {peer:?}, not {expected:?}"));
    }
    Ok(())
}

fn same_buffers(what: &str, ours: &[u32], peer: &[u32], expected: &[u32]) -> Checked {
    for (name, buffer) in [("Tailbow", ours), ("the peer", peer)] {
        if buffer != expected {
            let place = buffer.iter().zip(expected).position(|(a, b)| a != b);
            return Err(format!("{what}: {name}'s image differs at {place:?}"));
        }
    }
    Ok(())
}

fn number_of(answer: LoadAnswer) -> u32 {
    match answer {
        LoadAnswer::More => MORE,
        LoadAnswer::Loaded => 0,
        LoadAnswer::Refused(number) => number,
    }
}

/// Everything that is measured, then the damaged ones.
pub fn all() -> Result<Agreed, String> {
    let mut agreed = Agreed::default();
    let mut rng = Rng::new(801);
    measured(&mut agreed, &mut rng)?;
    twins(&mut agreed)?;
    let boundaries = boundaries::cases(&mut rng);
    for case in check::named().iter().chain(&boundaries) {
        one_case(&mut agreed, case).map_err(|failure| format!("{}: {failure}", case.name))?;
    }
    for number in 0..CONFIGS {
        let profile = match number % 10 {
            0..=3 => Profile::Near,
            4..=6 => Profile::Valid,
            // Two in ten, each the next rule's.
            last @ 7..=8 => Profile::Breaks(RULES[(number / 10 * 2 + last - 7) % RULES.len()]),
            _ => Profile::Wild,
        };
        let config = random_config(&mut rng, profile);
        loads(&mut agreed, &mut rng, &rearranged(&mut Rng::new(number as u64), &config))?;
        let words = plain_stream(&config);
        for _ in 0..DAMAGED {
            let damaged = damage(&mut rng, &words);
            loads(&mut agreed, &mut rng, &damaged)?;
        }
        let mut image = vec![0; IMAGE_WORDS];
        if (OURS.load_words)(&mut image, &words) == 0 {
            sequence(&mut agreed, &mut rng, &image, 60)?;
        }
    }
    Ok(agreed)
}

/// The streams, images and frames of the works.
fn measured(agreed: &mut Agreed, rng: &mut Rng) -> Checked {
    let mut configs = vec![k::lists(), lists(FULL, Place::Last), lists(FULL, Place::First)];
    configs.extend([replicating(REPLICAS), replicating(FULL)]);
    for many in [1, 16, 256, 1024, 4096] {
        configs.push(lists(Sizes { vlans: many, ..LEAST }, Place::Last));
        let addresses = many.min(FULL.addresses);
        configs.push(lists(Sizes { addresses, ..LEAST }, Place::Last));
        let policing = many.min(FULL.policing);
        configs.push(lists(Sizes { policing, ..LEAST }, Place::Last));
    }
    for config in &configs {
        let words = plain_stream(config);
        if let Some(sum) = marks::zlib_checksum(&words) {
            if sum != crc::of_words(&words) {
                return Err("zlib's checksum of a stream differs".to_string());
            }
        }
        loads(agreed, rng, &words)?;
        frames_of(agreed, config)?;
        sequence(agreed, rng, &of_lists(config), 20)?;
    }
    replicas_of(agreed, REPLICAS)?;
    replicas_of(agreed, FULL)?;
    for row in ROWS {
        if configs[1].of(row.table).len() != row.most {
            return Err(format!("{:02X} of the full stream is not full", row.id));
        }
    }
    let full = full_stream();
    for _ in 0..20 {
        let damaged = damage(rng, &full);
        loads(agreed, rng, &damaged)?;
    }
    Ok(())
}

/// The measured frames, kept on one ledger.
fn frames_of(agreed: &mut Agreed, config: &Lists) -> Checked {
    let image = of_lists(config);
    let mut ledger = fresh(agreed, &image)?.ok_or("a measured image is not loaded")?;
    let mut from = 0;
    for _ in 0..3 {
        ledger.units[0] = 1;
        for (port, time, frame) in k_frames() {
            ledger = judged(agreed, &image, ledger, port, from + time, &frame)?;
        }
        ledger = released(agreed, &image, ledger, 0)?;
        from += 30;
        ledger = judged(agreed, &image, ledger, 0, from, &full_frame())?;
        shown(agreed, &image, &ledger, 0)?;
    }
    Ok(())
}

/// The measured frame with its replicas, kept on one ledger as it is in the work: all of them are sent, each time.
fn replicas_of(agreed: &mut Agreed, sizes: Sizes) -> Checked {
    let image = of_lists(&replicating(sizes));
    let mut ledger = fresh(agreed, &image)?.ok_or("a measured image is not loaded")?;
    for time in 0..4 {
        ledger.units[0] = UNITS;
        let replicas = agreed.replicas;
        ledger = judged(agreed, &image, ledger, 0, 30 * time, &full_frame())?;
        if (agreed.replicas - replicas, ledger.units[0]) != (sizes.retagging, 0) {
            return Err("a measured replica is not sent".to_string());
        }
    }
    Ok(())
}

/// Two matches with one INDEX, as only an edited image has them: the first counts.
fn twins(agreed: &mut Agreed) -> Checked {
    let mut config = lists(Sizes { addresses: 40, ..LEAST }, Place::First);
    for number in [3, 39] {
        for field in [address_lookup::MACADDR, address_lookup::INDEX] {
            let of_first = config.get(field, 0);
            config.put(field, number, of_first);
        }
        config.put(address_lookup::DESTPORTS, number, 2);
    }
    let image = of_lists(&config);
    let ledger = fresh(agreed, &image)?.ok_or("an edited image is not loaded")?;
    judged(agreed, &image, ledger, 0, 10, &full_frame())?;
    config.of_mut(Table::L2AddressLookup).swap(0, 39);
    judged(agreed, &of_lists(&config), ledger, 0, 10, &full_frame())?;
    Ok(())
}

/// A case of the tests, at both sides of the paper's limits: its stream, and its list where that is loaded.
fn one_case(agreed: &mut Agreed, case: &Case) -> Checked {
    let buffer = vec![0xA5A5_A5A5; IMAGE_WORDS];
    let (mut ours, mut peer, mut image) = (buffer.clone(), buffer.clone(), buffer);
    let stream = &case.stream;
    let told = [(OURS.load_bytes)(&mut ours, stream), (PEER.load_bytes)(&mut peer, stream)];
    let answer = number_of(load::load_bytes(&mut image, stream));
    same("load of bytes", &told[0], &told[1], &answer)?;
    same_buffers("load of bytes", &ours, &peer, &image)?;
    let words = words_of(stream);
    if stream.len() % 4 == 0 {
        let told = [(OURS.load_words)(&mut ours, &words), (PEER.load_words)(&mut peer, &words)];
        same("load of words", &told[0], &told[1], &answer)?;
        same_buffers("load of words", &ours, &peer, &image)?;
        let expected = if answer == 10 { MORE } else { answer };
        for length in [64, 1] {
            let told = [(&OURS, &mut ours), (&PEER, &mut peer)]
                .map(|(program, image)| works::in_writes(program, image, &words, length));
            same("writes", &told[0], &told[1], &expected)?;
        }
    }
    agreed.loads += 1;
    if answer != 0 {
        return Ok(());
    }
    let mut ledger = fresh(agreed, &image)?.ok_or("a loaded image is not loaded")?;
    let Ok(mut reader) = Reader::open(&case.list, false) else {
        return Ok(());
    };
    while let Next::Record(record) = reader.next_record() {
        ledger = match record {
            Record::Frame { port, time, bytes } => {
                judged(agreed, &image, ledger, port.into(), time, bytes)?
            }
            Record::Release { partition } => released(agreed, &image, ledger, partition.into())?,
        };
        shown(agreed, &image, &ledger, 0)?;
    }
    Ok(())
}

/// A turned bit, another word, a cut, words behind, or a whole entry missing.
fn damage(rng: &mut Rng, words: &[u32]) -> Vec<u32> {
    let place = rng.place(words.len());
    let mut damaged = words.to_vec();
    match rng.below(6) {
        0 | 1 => return flip(words, place, rng.below(32) as u32),
        2 => damaged[rng.place(words.len().min(40))] = rng.word(),
        3 => damaged.truncate(place),
        4 => damaged.extend([1, 2, 3]),
        _ => {
            damaged.remove(place);
        }
    }
    damaged
}

/// As words, as bytes, and in writes of 64, of 1, and of any lengths, refused ones between.
fn loads(agreed: &mut Agreed, rng: &mut Rng, words: &[u32]) -> Checked {
    let buffer: Vec<u32> = (0..IMAGE_WORDS + rng.place(3)).map(|_| rng.word()).collect();
    let mut expected = buffer.clone();
    let answer = number_of(load::load_words(&mut expected, words));
    let (mut ours, mut peer) = (buffer.clone(), buffer.clone());
    let told = [(OURS.load_words)(&mut ours, words), (PEER.load_words)(&mut peer, words)];
    same("load of words", &told[0], &told[1], &answer)?;
    same_buffers("load of words", &ours, &peer, &expected)?;
    // The bytes stand at any address.
    let bytes = [vec![0; rng.place(4)], bytes_of(words)].concat();
    let bytes = &bytes[bytes.len() - 4 * words.len()..];
    let (mut ours, mut peer) = (buffer.clone(), buffer.clone());
    let told = [(OURS.load_bytes)(&mut ours, bytes), (PEER.load_bytes)(&mut peer, bytes)];
    same("load of bytes", &told[0], &told[1], &answer)?;
    same_buffers("load of bytes", &ours, &peer, &expected)?;
    let cut = &bytes[..bytes.len().saturating_sub(1 + rng.place(3))];
    let (mut ours, mut peer, mut third) = (buffer.clone(), buffer.clone(), buffer.clone());
    let told = [(OURS.load_bytes)(&mut ours, cut), (PEER.load_bytes)(&mut peer, cut)];
    same("load of cut bytes", &told[0], &told[1], &number_of(load::load_bytes(&mut third, cut)))?;
    same_buffers("load of cut bytes", &ours, &peer, &third)?;
    let short = IMAGE_WORDS - 1 - rng.place(2) * 100;
    let told = [
        (OURS.load_words)(&mut buffer.clone()[..short], words),
        (PEER.load_words)(&mut buffer.clone()[..short], words),
    ];
    same("load into a short buffer", &told[0], &told[1], &31)?;
    for length in [64, 1, 0] {
        in_writes(agreed, rng, &buffer, words, length)?;
    }
    agreed.loads += 4;
    Ok(())
}

/// Length 0 stands for any lengths, with calls between that are refused.
fn in_writes(
    agreed: &mut Agreed,
    rng: &mut Rng,
    buffer: &[u32],
    words: &[u32],
    length: usize,
) -> Checked {
    let (mut ours, mut peer, mut expected) = (buffer.to_vec(), buffer.to_vec(), buffer.to_vec());
    let (mut our_load, mut peer_load) = (FlatLoad::default(), FlatLoad::default());
    let mut state = LoadState::fresh();
    let mut rest = words;
    while !rest.is_empty() {
        let many = if length == 0 { 1 + rng.place(64) } else { length };
        let (now, behind) = rest.split_at(many.min(rest.len()));
        let told = [
            (OURS.write)(&mut ours, &mut our_load, now),
            (PEER.write)(&mut peer, &mut peer_load, now),
        ];
        let (answer, after) = load::write(&mut expected, state, now);
        state = after;
        same("write", &told[0], &told[1], &number_of(answer))?;
        let meaning = our_load.meaning();
        same("load state", &meaning, &peer_load.meaning(), &meaning)?;
        // Whole images once in a while, and at the answer.
        if length == 0 || told[0] != MORE || rng.once_in(64) {
            same_buffers("write", &ours, &peer, &expected)?;
        }
        if length == 0 && rng.once_in(4) {
            refused_write(rng, &ours, &our_load, &peer_load)?;
        }
        rest = behind;
        if told[0] != MORE {
            rest = &rest[..rest.len().min(2)];
        }
    }
    agreed.loads += 1;
    same_buffers("writes", &ours, &peer, &expected)
}

/// 31, 30, 32 leave both as found.
fn refused_write(rng: &mut Rng, image: &[u32], ours: &FlatLoad, peer: &FlatLoad) -> Checked {
    let mut buffer = image.to_vec();
    let (mut our_load, mut peer_load) = (*ours, *peer);
    let mut words = vec![0x9E00_030E; 1 + rng.place(64)];
    let mut expected = 0;
    if rng.once_in(2) {
        words = vec![0; rng.pick(&[0, 65, 100])];
        expected = 32;
    }
    match rng.below(6) {
        0 => {
            let row = &ROWS[rng.place(ROWS.len())];
            (buffer[count_place(row.table)], expected) = (row.most as u32 + 1, 30);
        }
        1 if ours.phase == DATA => {
            let due = rng.pick(&[u64::MAX, FIRST_COUNT as u64, u64::MAX / 2]);
            (our_load.due, peer_load.due, expected) = (due, due, 30);
        }
        2 => {
            let phase = rng.pick(&[6, 99, u32::MAX]);
            (our_load.phase, peer_load.phase, expected) = (phase, phase, 30);
        }
        3 if ours.phase == DATA => {
            let none = ROWS.len() as u32;
            (our_load.table, peer_load.table, expected) = (none, none, 30);
        }
        4 => {
            for load in [&mut our_load, &mut peer_load] {
                (load.phase, load.told) = (TOLD, MORE);
            }
            expected = 30;
        }
        _ => {}
    }
    if expected == 0 || rng.once_in(4) {
        buffer.truncate(IMAGE_WORDS - 1);
        expected = 31;
    }
    let (mut our_image, mut peer_image) = (buffer.clone(), buffer.clone());
    let (our_before, peer_before) = (our_load, peer_load);
    let told = [
        (OURS.write)(&mut our_image, &mut our_load, &words),
        (PEER.write)(&mut peer_image, &mut peer_load, &words),
    ];
    same("refused write", &told[0], &told[1], &expected)?;
    same_buffers("refused write", &our_image, &peer_image, &buffer)?;
    let before = (our_before, peer_before);
    same("state of a refused write", &(our_load, peer_load), &before, &before)
}

/// Frames, releases and tiles, once in a while on an edited image or an edited ledger.
fn sequence(agreed: &mut Agreed, rng: &mut Rng, image: &[u32], steps: usize) -> Checked {
    fresh(agreed, &edited_image(rng, image))?;
    let Some(mut ledger) = fresh(agreed, image)? else {
        return Ok(());
    };
    for _ in 0..steps {
        let other = rng.once_in(8).then(|| edited_image(rng, image));
        let lent = other.as_deref().unwrap_or(image);
        let given = if rng.once_in(6) { edited_ledger(rng, image, &ledger) } else { ledger };
        let port = if rng.once_in(20) { rng.pick(&[5, 6, usize::MAX]) } else { rng.place(5) };
        let after = if rng.once_in(5) {
            released(agreed, lent, given, rng.place(9))?
        } else {
            let mut frame = random_frame(rng);
            if rng.once_in(16) {
                frame.resize(rng.pick(&[0, 1, 59, 60, 61, 1514, 1515, 4096, 4097]), 0x5A);
            }
            let time = match rng.below(20) {
                0 => rng.pick(&[ledger.last_time.wrapping_sub(1), 1 << 48, u64::MAX]),
                _ => later(rng, ledger.last_time),
            };
            judged(agreed, lent, given, port, time, &frame)?
        };
        shown(agreed, lent, &given, port)?;
        if given == ledger {
            ledger = after;
        }
    }
    Ok(())
}

fn fresh(agreed: &mut Agreed, image: &[u32]) -> Result<Option<Ledger>, String> {
    let answer = ledger::fresh_ledger(image);
    let (number, after) = match &answer {
        Ok(ledger) => (0, *ledger),
        Err(number) => (*number, ledger::no_ledger()),
    };
    let (mut ours, mut peer) = (FlatLedger::all(u64::MAX), FlatLedger::all(u64::MAX));
    let told = [(OURS.fresh_ledger)(image, &mut ours), (PEER.fresh_ledger)(image, &mut peer)];
    same("fresh ledger's answer", &told[0], &told[1], &number)?;
    same("fresh ledger", &ours, &peer, &flat(&after))?;
    agreed.calls += 1;
    Ok(answer.ok())
}

/// The second program's numbers are narrower; past them nothing changes.
fn narrow(number: usize) -> u32 {
    u32::try_from(number).unwrap_or(u32::MAX)
}

fn judged(
    agreed: &mut Agreed,
    image: &[u32],
    ledger: Ledger,
    port: usize,
    time: u64,
    frame: &[u8],
) -> Result<Ledger, String> {
    let (mut ours, mut peer) = (flat(&ledger), flat(&ledger));
    let found = places();
    let (mut our_places, mut peer_places, mut expected) = (found, found, found);
    let told = [
        (OURS.judge)(image, &mut ours, port, time, frame, &mut our_places),
        (PEER.judge)(image, &mut peer, port, time, frame, &mut peer_places),
    ];
    let (answer, after) = judge::judge(image, ledger, narrow(port), time, frame);
    let (verdict, replicas) = (flat_verdict(answer.verdict), answer.replicas.len() as u64);
    same("verdict", &told[0], &told[1], &FlatJudged { verdict, replicas })?;
    // Places behind the replicas are as found.
    for (place, replica) in expected.iter_mut().zip(&answer.replicas) {
        *place = flat_verdict(*replica);
    }
    for ((ours, peer), expected) in our_places.iter().zip(&peer_places).zip(&expected) {
        same("a replica's place", ours, peer, expected)?;
    }
    same("ledger after a frame", &ours, &peer, &flat(&after))?;
    agreed.calls += 1;
    agreed.replicas += answer.replicas.len();
    Ok(after)
}

/// What no verdict has, each place otherwise.
fn places() -> Replicas {
    std::array::from_fn(|place| FlatVerdict {
        kind: u32::MAX,
        vlan: 7_000 + place as u64,
        ..FlatVerdict::default()
    })
}

fn released(
    agreed: &mut Agreed,
    image: &[u32],
    ledger: Ledger,
    partition: usize,
) -> Result<Ledger, String> {
    let (mut ours, mut peer) = (flat(&ledger), flat(&ledger));
    let told =
        [(OURS.release)(image, &mut ours, partition), (PEER.release)(image, &mut peer, partition)];
    let (answer, after) = judge::release(image, ledger, narrow(partition));
    let number = match answer {
        ReleaseAnswer::Refused(number) => number,
        ReleaseAnswer::Released => 0,
    };
    same("release", &told[0], &told[1], &number)?;
    same("ledger after a release", &ours, &peer, &flat(&after))?;
    agreed.calls += 1;
    Ok(after)
}

fn shown(agreed: &mut Agreed, image: &[u32], ledger: &Ledger, port: usize) -> Checked {
    let shown = |kind, number, share, octets| FlatTile { kind, number, share, octets };
    let expected = match tile::tile(image, ledger, narrow(port)) {
        TileAnswer::Refused(number) => shown(0, number, 0, 0),
        TileAnswer::NotLoaded => shown(1, 0, 0, 0),
        TileAnswer::NoFrames => shown(2, 0, 0, 0),
        TileAnswer::Shares { frames, octets } => shown(3, 0, frames.to_bits(), octets.to_bits()),
    };
    let ledger = flat(ledger);
    let told = [(OURS.tile)(image, &ledger, port), (PEER.tile)(image, &ledger, port)];
    agreed.calls += 1;
    same("tile", &told[0], &told[1], &expected)
}

fn flat(ledger: &Ledger) -> FlatLedger {
    FlatLedger {
        units: ledger.units,
        credit: ledger.meters.map(|meter| meter.credit),
        since: ledger.meters.map(|meter| meter.time),
        frames: ledger.ports.map(|port| port.frames),
        drops: ledger.ports.map(|port| port.drops),
        octets: ledger.ports.map(|port| port.octets),
        dropped: ledger.ports.map(|port| port.dropped_octets),
        last: ledger.last_time,
    }
}

fn flat_verdict(verdict: Verdict) -> FlatVerdict {
    let none = FlatVerdict::default();
    match verdict {
        Verdict::Refused(number) => FlatVerdict { number, ..none },
        Verdict::Drop(number) => FlatVerdict { kind: 1, number, ..none },
        Verdict::Sent(sent) => FlatVerdict {
            kind: 2,
            number: 0,
            ports: sent.ports.into(),
            vlan: sent.vlan.into(),
            priority: sent.prio.into(),
            tags: sent.tags.into(),
            queues: sent.queues.map(u64::from),
        },
    }
}
