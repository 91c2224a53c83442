//! One bit turned over at a time: in an image's counts, mark and entries, in each number of a load state, in each number of a ledger.

use cases::damage::blocks_in;
use cases::generate::{later, random_config, random_frame, Profile};
use cases::rng::Rng;
use reference::image::{of_lists, FIRST_COUNT, IMAGE_WORDS, MARK};
use reference::ledger::Ledger;
use tailbow::raw::{FlatLoad, MORE};

use crate::frames::{frame, fresh, release, show};
use crate::pair::Pair;
use crate::states::{FRESH, TOLD};
use crate::tally::{same, Tally};

/// Bits of entries that are turned over in one image.
const ENTRY_BITS: usize = 1500;

/// Frames before a ledger is edited, so that its numbers are no longer fresh.
const FRAMES: usize = 12;

/// A loaded image near K, and a ledger that some frames have gone into.
fn used(rng: &mut Rng, tally: &mut Tally, name: &str) -> (Vec<u32>, Ledger) {
    let image = of_lists(&random_config(rng, Profile::Near));
    let mut ledger = fresh(rng, tally, name, &image).expect("lists of this profile load");
    for _ in 0..FRAMES {
        let (port, time) = (rng.place(5), later(rng, ledger.last_time));
        ledger = frame(tally, name, &image, ledger, (port, time), &random_frame(rng));
    }
    (image, ledger)
}

/// Every entry that takes an image or a ledger, once.
fn ask(rng: &mut Rng, tally: &mut Tally, name: &str, image: &[u32], ledger: Ledger) {
    let time = ledger.last_time;
    frame(tally, name, image, ledger, (rng.place(5), time), &random_frame(rng));
    release(tally, name, image, ledger, rng.place(8));
    show(tally, name, image, ledger, rng.place(5));
}

/// Each bit of the counts, the mark and the words behind it, and many of the entries'.
pub fn images(rng: &mut Rng, tally: &mut Tally) {
    let (image, ledger) = used(rng, tally, "an image to edit");
    let states = FIRST_COUNT * 32..IMAGE_WORDS * 32;
    let entries: Vec<usize> = (0..ENTRY_BITS).map(|_| rng.place(FIRST_COUNT * 32)).collect();
    for bit in states.chain(entries) {
        let name = format!("image, word {}, bit {} turned over", bit / 32, bit % 32);
        let mut edited = image.clone();
        edited[bit / 32] ^= 1 << (bit % 32);
        fresh(rng, tally, &name, &edited);
        ask(rng, tally, &name, &edited, ledger);
    }
}

/// The 119 numbers of a ledger, in the order of the flat one.
fn number(ledger: &mut Ledger, place: usize) -> &mut u64 {
    match place {
        0..=7 => &mut ledger.units[place],
        8..=52 => &mut ledger.meters[place - 8].credit,
        53..=97 => &mut ledger.meters[place - 53].time,
        98..=102 => &mut ledger.ports[place - 98].frames,
        103..=107 => &mut ledger.ports[place - 103].drops,
        108..=112 => &mut ledger.ports[place - 108].octets,
        113..=117 => &mut ledger.ports[place - 113].dropped_octets,
        _ => &mut ledger.last_time,
    }
}

/// Each bit of each of a ledger's 119 numbers.
pub fn ledgers(rng: &mut Rng, tally: &mut Tally) {
    let (image, ledger) = used(rng, tally, "a ledger to edit");
    for place in 0..119 {
        for bit in 0..64 {
            let name = format!("ledger, number {place}, bit {bit} turned over");
            let mut edited = ledger;
            *number(&mut edited, place) ^= 1 << bit;
            ask(rng, tally, &name, &image, edited);
        }
    }
}

/// A load state with one bit of one number turned over: nine numbers, 352 bits.
fn turned(flat: &FlatLoad, bit: u32) -> FlatLoad {
    let mut edited = *flat;
    let words = [
        &mut edited.phase,
        &mut edited.told,
        &mut edited.table,
        &mut edited.first,
        &mut edited.second,
        &mut edited.stream,
        &mut edited.block,
    ];
    let narrow = 32 * words.len() as u32;
    match bit {
        bit if bit < narrow => {
            *words.into_iter().nth(bit as usize / 32).unwrap() ^= 1 << (bit % 32)
        }
        bit if bit < narrow + 64 => edited.placed ^= 1 << (bit - narrow),
        bit => edited.due ^= 1 << (bit - narrow - 64),
    }
    edited
}

const STATE_BITS: u32 = 7 * 32 + 2 * 64;

/// Where a stream's load is edited: before it, at each word of its first header, inside and behind that block's data, between two
/// blocks, half way, and around its answer.
fn moments(words: &[u32]) -> Vec<usize> {
    let block = blocks_in(words)[0];
    let data = block.start + 3;
    let checksum = data + block.data;
    let header = 0..=data;
    let end = words.len() - 2..=words.len();
    let others = [data + 1, checksum - 1, checksum, checksum + 1, words.len() / 2];
    header.chain(others).chain(end).collect()
}

/// A stream's load up to a place, word after word.
fn begun(tally: &mut Tally, name: &str, buffer: &[u32], words: &[u32]) -> Pair {
    let mut pair = Pair::fresh(buffer);
    for word in words {
        pair.write(tally, name, std::slice::from_ref(word));
    }
    pair
}

/// What an edited load comes to: the next word, then the stream's rest in writes of 64, and one write more.
fn go_on(tally: &mut Tally, name: &str, pair: &mut Pair, rest: &[u32]) {
    let (next, rest) = rest.split_at(rest.len().min(1));
    for write in [next].into_iter().chain(rest.chunks(64)).filter(|write| !write.is_empty()) {
        pair.write(tally, name, write);
    }
    pair.write(tally, name, &[0x9E00_030E]);
}

/// Each bit of a load state at each moment, and each bit of the image's counts and mark.
pub fn loads(tally: &mut Tally, buffer: &[u32], words: &[u32]) {
    for place in moments(words) {
        let sound = begun(tally, "a load to edit", buffer, &words[..place]);
        let phase = sound.flat.phase;
        tally.result(same("begun", phase == FRESH, place == 0));
        tally.result(same("answered", phase == TOLD, place == words.len()));
        for bit in 0..STATE_BITS {
            let name = format!("load at word {place}, bit {bit} of its state turned over");
            let mut pair = sound.clone();
            pair.put_state(turned(&sound.flat, bit));
            go_on(tally, &name, &mut pair, &words[place..]);
        }
        for bit in FIRST_COUNT * 32..(MARK + 1) * 32 {
            let name = format!("load at word {place}, word {}, bit {}", bit / 32, bit % 32);
            let mut edited = sound.ours.clone();
            edited[bit / 32] ^= 1 << (bit % 32);
            let mut pair = sound.clone();
            pair.put_buffer(&edited);
            go_on(tally, &name, &mut pair, &words[place..]);
        }
    }
    // As it was, the load ends as it does.
    let mut pair = begun(tally, "a load left alone", buffer, &words[..words.len() - 1]);
    let last = pair.write(tally, "a load left alone", &words[words.len() - 1..]);
    tally.result(same("a load left alone", (last == 0, MORE == last), (true, false)));
}
