//! Configuration K and its list, by document 01: what it says of them, and refusals with the neighbour that isn't refused.

use std::path::Path;

use tailbow::{
    load_bytes, load_words, Answer, Counts, DropCause, Ledger, Load, Record, Records, Refusal,
    Sent, Tile, Verdict, IMAGE_WORDS,
};

fn example(name: &str) -> Vec<u8> {
    let file = Path::new(env!("CARGO_MANIFEST_DIR")).join("../../examples").join(name);
    std::fs::read(&file).unwrap_or_else(|error| panic!("{}: {error}", file.display()))
}

fn words_of(bytes: &[u8]) -> Vec<u32> {
    bytes.chunks(4).map(|word| u32::from_be_bytes(word.try_into().unwrap())).collect()
}

/// K's image, in a buffer of any words.
fn k_image() -> Vec<u32> {
    let mut image = vec![0xA5A5_A5A5; IMAGE_WORDS];
    assert_eq!(load_bytes(&mut image, &example("k.stream")), Answer::Loaded);
    image
}

/// An untagged broadcast of so many bytes.
fn broadcast(bytes: usize) -> Vec<u8> {
    let mut frame = vec![0; bytes];
    frame[..6].fill(0xFF);
    frame
}

/// K's first frame, as document 01 prints it: `sent 30 vlan 1 prio 0 tags 0 queues 0 0 0 0 0`.
const SENT: Sent = Sent { ports: 30, vlan: 1, priority: 0, tags: 0, queues: [0; 5] };

/// A frame's verdict. K has no entry in 12, so that no frame has a replica.
fn judge(
    ledger: &mut Ledger,
    image: &[u32],
    port: usize,
    time: u64,
    frame: &[u8],
) -> Result<Verdict, Refusal> {
    let judged = ledger.judge(image, port, time, frame)?;
    assert!(judged.replicas.is_empty());
    Ok(judged.verdict)
}

/// Untagged broadcasts of 60 bytes on port 0 at 10 and 20, release of 0, then 59 bytes on port 1 at 30.
#[test]
fn the_list_has_the_records_that_document_01_names() {
    let list = example("k.list");
    let mut told = Vec::new();
    for record in Records::of(&list) {
        told.push(match record.unwrap() {
            Record::Frame { port, time, bytes } => {
                assert_eq!(bytes[..6], [0xFF; 6]);
                assert_ne!(bytes[12..14], [0x81, 0x00]);
                format!("{} bytes on port {port} at {time}", bytes.len())
            }
            Record::Release { partition } => format!("release of {partition}"),
        });
    }
    let expected = [
        "60 bytes on port 0 at 10",
        "60 bytes on port 0 at 20",
        "release of 0",
        "59 bytes on port 1 at 30",
    ];
    assert_eq!(told, expected);
}

#[test]
fn the_list_gets_the_verdicts_and_tiles_that_document_01_prints() {
    let (image, list) = (k_image(), example("k.list"));
    let mut ledger = Ledger::fresh(&image).unwrap();
    let mut verdicts = Vec::new();
    for record in Records::of(&list) {
        match record.unwrap() {
            Record::Frame { port, time, bytes } => {
                verdicts.push(judge(&mut ledger, &image, port, time, bytes).unwrap());
            }
            Record::Release { partition } => ledger.release(&image, partition).unwrap(),
        }
    }
    let expected =
        [Verdict::Sent(SENT), Verdict::Drop(DropCause::Partition), Verdict::Drop(DropCause::Short)];
    assert_eq!(verdicts, expected);
    let tiles: Vec<_> = (0..5).map(|port| ledger.tile(&image, port).unwrap()).collect();
    let shares = |share: u64| {
        let share = f64::from_bits(share);
        Tile::Shares { frames: share, octets: share }
    };
    let expected = [
        shares(0x3FE0_0000_0000_0000),
        shares(0x3FF0_0000_0000_0000),
        Tile::NoFrames,
        Tile::NoFrames,
        Tile::NoFrames,
    ];
    assert_eq!(tiles, expected);
    // Two frames of L 64 on port 0, one of them dropped; one of L 63 on port 1.
    let counts = |frames, drops, octets, dropped_octets| {
        Some(Counts { frames, drops, octets, dropped_octets })
    };
    assert_eq!(ledger.counts(0), counts(2, 1, 128, 64));
    assert_eq!(ledger.counts(1), counts(1, 1, 63, 63));
    assert_eq!(ledger.counts(2), counts(0, 0, 0, 0));
    assert_eq!(ledger.counts(5), None);
    assert_eq!(ledger.last_time(), 30);
    assert_eq!(ledger.units(0), Some(1));
    assert_eq!(ledger.units(8), None);
}

/// Frames and no drops: both shares are +0, which is not no frames.
#[test]
fn no_drops_is_a_share_of_plus_zero() {
    let image = k_image();
    let mut ledger = Ledger::fresh(&image).unwrap();
    assert_eq!(ledger.tile(&image, 0), Ok(Tile::NoFrames));
    assert_eq!(judge(&mut ledger, &image, 0, 10, &broadcast(60)), Ok(Verdict::Sent(SENT)));
    let Ok(Tile::Shares { frames, octets }) = ledger.tile(&image, 0) else {
        panic!("no shares");
    };
    assert_eq!((frames.to_bits(), octets.to_bits()), (0, 0));
}

/// Row (a) of document 01's proved table, of which K's 07 is made.
#[test]
fn the_image_holds_the_entry_of_vlan_1() {
    let entry = [0x0800_0000, 0x003F_F000];
    assert!(k_image().windows(2).any(|words| words == entry));
}

#[test]
fn every_length_of_a_write_loads_the_same_image() {
    let words = words_of(&example("k.stream"));
    for length in 1..=64 {
        let mut image = vec![length; IMAGE_WORDS + 1];
        let mut load = Load::fresh();
        let mut answers = Vec::new();
        for write in words.chunks(length as usize) {
            assert_eq!(load.answer(), None);
            answers.push(load.write(&mut image, write));
        }
        assert_eq!(answers.pop(), Some(Answer::Loaded));
        assert!(answers.iter().all(|&answer| answer == Answer::More));
        assert_eq!(load.answer(), Some(Answer::Loaded));
        assert!(image[..IMAGE_WORDS] == k_image()[..]);
        // The buffer's rest is never written, and the answer is repeated.
        assert_eq!(image[IMAGE_WORDS], length);
        assert_eq!(load.write(&mut image, &[0]), Answer::Loaded);
        assert!(image[..IMAGE_WORDS] == k_image()[..]);
    }
}

/// The night that started this: the stream is damaged behind its policing block, and nothing is judged.
#[test]
fn a_damaged_stream_shows_no_share() {
    let mut image = vec![1; IMAGE_WORDS];
    let refused = Answer::Refused(Refusal::DataChecksum);
    assert_eq!(load_bytes(&mut image, &example("damaged.stream")), refused);
    assert!(image.iter().all(|&word| word == 0));
    assert_eq!(Ledger::fresh(&image), Err(Refusal::Image));
    let mut ledger = Ledger::fresh(&k_image()).unwrap();
    assert_eq!(ledger.judge(&image, 0, 10, &broadcast(60)), Err(Refusal::Image));
    assert_eq!(ledger.release(&image, 0), Err(Refusal::Image));
    for port in 0..5 {
        assert_eq!(ledger.tile(&image, port), Ok(Tile::NotLoaded));
    }
}

#[test]
fn a_refused_load_by_its_number() {
    let bytes = example("k.stream");
    let words = words_of(&bytes);
    let mut image = vec![1; IMAGE_WORDS];
    let refused = |refusal| Answer::Refused(refusal);
    // 31 and 9 leave everything as found; 31 comes first.
    let mut short = vec![1; IMAGE_WORDS - 1];
    assert_eq!(load_words(&mut short, &words), refused(Refusal::BufferShort));
    assert_eq!(load_bytes(&mut short, &bytes[1..]), refused(Refusal::BufferShort));
    assert_eq!(Load::fresh().write(&mut short, &words[..1]), refused(Refusal::BufferShort));
    assert!(short.iter().all(|&word| word == 1));
    assert_eq!(load_bytes(&mut image, &bytes[1..]), refused(Refusal::ByteCount));
    assert!(image.iter().all(|&word| word == 1));
    // 32 leaves the load as found, too: it goes on.
    let mut load = Load::fresh();
    assert_eq!(load.write(&mut image, &[]), refused(Refusal::WriteLength));
    assert_eq!(load.write(&mut image, &words[..65]), refused(Refusal::WriteLength));
    assert!(image.iter().all(|&word| word == 1));
    assert_eq!(load.write(&mut image, &words[..64]), Answer::More);
    assert_eq!(load_words(&mut image, &words[..words.len() - 1]), refused(Refusal::WordsEnd));
    assert!(image.iter().all(|&word| word == 0));
    assert_eq!(load_words(&mut image, &words[1..]), refused(Refusal::WordZero));
    assert_eq!(load_words(&mut image, &words), Answer::Loaded);
}

#[test]
fn a_refused_call_by_its_number_changes_nothing() {
    let image = k_image();
    let fresh = Ledger::fresh(&image).unwrap();
    let refused = |ledger: Ledger, port, time, bytes| {
        let mut after = ledger;
        let answer = after.judge(&image, port, time, &broadcast(bytes)).unwrap_err();
        assert_eq!(after, ledger);
        answer
    };
    assert_eq!(Ledger::fresh(&image[1..]), Err(Refusal::BufferShort));
    assert_eq!(fresh.tile(&image[1..], 9), Err(Refusal::BufferShort));
    assert_eq!(fresh.tile(&image, 5), Err(Refusal::Port));
    assert_eq!(refused(fresh, 5, 1 << 48, 4097), Refusal::Port);
    assert_eq!(refused(fresh, 4, 1 << 48, 4097), Refusal::Time);
    assert_eq!(refused(fresh, 4, (1 << 48) - 1, 4097), Refusal::FrameLength);
    let mut ledger = fresh;
    let long = Ok(Verdict::Drop(DropCause::Maxlen));
    assert_eq!(judge(&mut ledger, &image, 4, (1 << 48) - 1, &broadcast(4096)), long);
    assert_eq!(refused(ledger, 4, (1 << 48) - 2, 60), Refusal::Time);
    // One unit of partition 0 is there, and none is out.
    let mut ledger = fresh;
    assert_eq!(ledger.release(&image, 8), Err(Refusal::Partition));
    assert_eq!(ledger.release(&image, 0), Err(Refusal::NothingOut));
    assert_eq!(ledger, fresh);
    assert_eq!(judge(&mut ledger, &image, 0, 10, &broadcast(60)), Ok(Verdict::Sent(SENT)));
    assert_eq!(ledger.units(0), Some(0));
    assert_eq!(ledger.release(&image, 0), Ok(()));
    assert_eq!(ledger.units(0), Some(1));
    // Two units are above PART_SPC(0), and come before the port.
    let mut numbers = *fresh.numbers();
    numbers.units[0] = 2;
    let ledger = Ledger::of_numbers(numbers);
    assert_eq!(refused(ledger, 5, 10, 60), Refusal::Ledger);
    assert_eq!(ledger.tile(&image, 0), Err(Refusal::Ledger));
    // 2^32 - 1 frames of L 64, none dropped.
    let mut numbers = *fresh.numbers();
    numbers.frames[0] = (1 << 32) - 1;
    numbers.octets[0] = 64 * numbers.frames[0];
    let ledger = Ledger::of_numbers(numbers);
    assert_eq!(refused(ledger, 0, 10, 60), Refusal::FramesFull);
    numbers.frames[0] -= 1;
    let mut ledger = Ledger::of_numbers(numbers);
    assert_eq!(judge(&mut ledger, &image, 0, 10, &broadcast(60)), Ok(Verdict::Sent(SENT)));
}

#[test]
fn a_refused_list_by_its_number() {
    let refused = |list: &[u8]| {
        let mut records = Records::of(list);
        let refusal = records.find_map(Result::err);
        // Nothing stands behind a refusal or the end.
        assert_eq!(records.next(), None);
        refusal
    };
    let head = b"FRL\x00\x01";
    let with = |rest: &[u8]| [&head[..], rest].concat();
    assert_eq!(refused(head), None);
    assert_eq!(refused(b"FRM\x00\x01"), Some(Refusal::ListMark));
    assert_eq!(refused(b"FRL\x00\x02"), Some(Refusal::ListVersion));
    assert_eq!(refused(&head[..4]), Some(Refusal::ListCut));
    assert_eq!(refused(&[]), Some(Refusal::ListCut));
    assert_eq!(refused(&with(&[2])), Some(Refusal::ListCut));
    assert_eq!(refused(&with(&[2, 0])), None);
    assert_eq!(refused(&with(&[3])), Some(Refusal::ListKind));
    assert_eq!(refused(&with(&[2, 0, 0])), Some(Refusal::ListKind));
    let list = example("k.list");
    assert_eq!(refused(&list[..list.len() - 1]), Some(Refusal::ListCut));
    let mut long = with(&[2; 16_379]);
    // 16,384 bytes: an odd byte behind the last whole record, and it is cut. One more byte, and no record is run.
    assert_eq!(refused(&long), Some(Refusal::ListCut));
    assert_eq!(Records::of(&long).filter(|record| record.is_ok()).count(), 8189);
    long.push(2);
    assert_eq!(refused(&long), Some(Refusal::ListLength));
    assert_eq!(Records::of(&long).filter(|record| record.is_ok()).count(), 0);
}
