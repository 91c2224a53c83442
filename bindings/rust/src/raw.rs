//! The entries as the archive has them: a state, a ledger, a verdict and a tile are structs of numbers, an answer is a number.
//! A load state, a ledger and the places for replicas are lent, and brought up to date where they lie.
//!
//! Every function here takes any numbers and any slices, and refuses by number what it can't take; so all of them are safe.
//! `include/tailbow.h` has the same functions and structs for C, with each one's promise in words.

use crate::REPLICAS;

/// "More" as a number; document 01 gives it none.
pub const MORE: u32 = 0xFFFF_FFFF;

/// A load state as numbers. The default is all 0, as a fresh load is.
#[repr(C)]
#[derive(Clone, Copy, PartialEq, Eq, Debug, Default)]
pub struct FlatLoad {
    /// Which word comes next: 0 word 0, 1 to 3 a header's words, 4 data or its checksum, 5 none: an answer has been told.
    pub phase: u32,
    /// In phase 5 the answer, which is never [`MORE`]; in another phase it is not read, and left as it stood.
    pub told: u32,
    /// In phase 4 the block's table by its number, from 0 on in the order in which the header lists them. In another phase it is not
    /// read; a write that ends in one leaves it as it stood where the phase is the one before the write, and 0 where the phase has moved.
    pub table: u32,
    /// Data words of the block that stand in the image.
    pub placed: u64,
    /// Data words of the block still to come.
    pub due: u64,
    /// The header's first word.
    pub first: u32,
    /// The header's second word.
    pub second: u32,
    /// The checksum register over all words so far.
    pub stream: u32,
    /// The checksum register over the block's data so far.
    pub block: u32,
}

/// A ledger as numbers.
#[repr(C)]
#[derive(Clone, Copy, PartialEq, Eq, Debug)]
pub struct FlatLedger {
    /// Units left of each partition.
    pub units: [u64; 8],
    /// Each meter's credit, in millionths of a bit.
    pub credit: [u64; 45],
    /// When each meter was brought up to date, in µs.
    pub since: [u64; 45],
    /// Frames judged at each port.
    pub frames: [u64; 5],
    /// Frames dropped at each port.
    pub drops: [u64; 5],
    /// The sum of L over each port's frames.
    pub octets: [u64; 5],
    /// The sum of L over each port's drops.
    pub dropped: [u64; 5],
    /// The last time, in µs.
    pub last: u64,
}

/// A verdict as numbers, on a frame or on a replica. What a kind does not have is 0, and the default is 0 throughout.
#[repr(C)]
#[derive(Clone, Copy, PartialEq, Eq, Debug, Default)]
pub struct FlatVerdict {
    /// 0 refused, 1 dropped, 2 sent.
    pub kind: u32,
    /// The refusal's or the drop's number.
    pub number: u32,
    /// The ports it is sent to, port 0 the lowest bit.
    pub ports: u64,
    /// Its VLAN.
    pub vlan: u64,
    /// Its new priority.
    pub priority: u64,
    /// The sent ports that send a tag.
    pub tags: u64,
    /// Its queue at each port, 0 where it isn't sent.
    pub queues: [u64; 5],
}

/// A frame's verdict, and how many replicas it has.
#[repr(C)]
#[derive(Clone, Copy, PartialEq, Eq, Debug)]
pub struct FlatJudged {
    /// The verdict on the frame itself.
    pub verdict: FlatVerdict,
    /// 0 to [`REPLICAS`].
    pub replicas: u64,
}

/// A tile as numbers. What a kind does not have is 0.
#[repr(C)]
#[derive(Clone, Copy, PartialEq, Eq, Debug)]
pub struct FlatTile {
    /// 0 refused, 1 not-loaded, 2 no-frames, 3 shares.
    pub kind: u32,
    /// The refusal's number.
    pub number: u32,
    /// The frame share's bits.
    pub share: u64,
    /// The octet share's bits.
    pub octets: u64,
}

/// What stands at a place of a list, as numbers. What a kind does not have is 0.
#[repr(C)]
#[derive(Clone, Copy, PartialEq, Eq, Debug)]
pub struct FlatRecord {
    /// 0 refused, 1 a frame, 2 a release, 3 the list's end.
    pub kind: u32,
    /// The refusal's number.
    pub number: u32,
    /// A frame's time, in µs.
    pub time: u64,
    /// A frame's port.
    pub port: u64,
    /// A release's partition.
    pub partition: u64,
    /// Where a frame's bytes start in the list.
    pub start: u64,
    /// How many bytes the frame has.
    pub count: u64,
    /// The place after the record.
    pub next: u64,
}

mod linked {
    use super::{FlatJudged, FlatLedger, FlatLoad, FlatRecord, FlatTile, FlatVerdict};

    extern "C" {
        pub fn tailbow_fresh_load(load: *mut FlatLoad);
        pub fn tailbow_write(
            image: *mut u32,
            image_words: usize,
            load: *mut FlatLoad,
            words: *const u32,
            count: usize,
        ) -> u32;
        pub fn tailbow_load_words(
            image: *mut u32,
            image_words: usize,
            words: *const u32,
            count: usize,
        ) -> u32;
        pub fn tailbow_load_bytes(
            image: *mut u32,
            image_words: usize,
            bytes: *const u8,
            count: usize,
        ) -> u32;
        pub fn tailbow_fresh_ledger(
            image: *const u32,
            image_words: usize,
            ledger: *mut FlatLedger,
        ) -> u32;
        pub fn tailbow_judge(
            image: *const u32,
            image_words: usize,
            ledger: *mut FlatLedger,
            port: usize,
            time: u64,
            frame: *const u8,
            bytes: usize,
            replicas: *mut FlatVerdict,
        ) -> FlatJudged;
        pub fn tailbow_release(
            image: *const u32,
            image_words: usize,
            ledger: *mut FlatLedger,
            partition: usize,
        ) -> u32;
        pub fn tailbow_tile(
            image: *const u32,
            image_words: usize,
            ledger: *const FlatLedger,
            port: usize,
        ) -> FlatTile;
        pub fn tailbow_record_at(list: *const u8, bytes: usize, at: usize) -> FlatRecord;
    }
}

// Each call below passes a slice's own pointer and length, and a load state, a ledger or places for replicas that nobody else may write
// meanwhile: all that the entries ask of a caller.

/// The load state before a first write, whatever stood there.
pub fn fresh_load(load: &mut FlatLoad) {
    unsafe { linked::tailbow_fresh_load(load) }
}

/// Words for a load: 0 for loaded, [`MORE`], or a refusal's number.
pub fn write(image: &mut [u32], load: &mut FlatLoad, words: &[u32]) -> u32 {
    let (lent, length) = (image.as_mut_ptr(), image.len());
    unsafe { linked::tailbow_write(lent, length, load, words.as_ptr(), words.len()) }
}

/// A whole stream of words.
pub fn load_words(image: &mut [u32], words: &[u32]) -> u32 {
    let (lent, length) = (image.as_mut_ptr(), image.len());
    unsafe { linked::tailbow_load_words(lent, length, words.as_ptr(), words.len()) }
}

/// A whole stream of bytes, each word's most significant first.
pub fn load_bytes(image: &mut [u32], bytes: &[u8]) -> u32 {
    let (lent, length) = (image.as_mut_ptr(), image.len());
    unsafe { linked::tailbow_load_bytes(lent, length, bytes.as_ptr(), bytes.len()) }
}

/// A fresh ledger of an image, whatever stood there: the refusal's number, 0 for none. Beside a refusal the ledger is one that 39 refuses.
pub fn fresh_ledger(image: &[u32], ledger: &mut FlatLedger) -> u32 {
    unsafe { linked::tailbow_fresh_ledger(image.as_ptr(), image.len(), ledger) }
}

/// A frame that came in at a port at a time in µs. The verdicts on its replicas stand in the first places; those behind are left as found.
pub fn judge(
    image: &[u32],
    ledger: &mut FlatLedger,
    port: usize,
    time: u64,
    frame: &[u8],
    replicas: &mut [FlatVerdict; REPLICAS],
) -> FlatJudged {
    let (lent, length) = (image.as_ptr(), image.len());
    let (bytes, count) = (frame.as_ptr(), frame.len());
    let places = replicas.as_mut_ptr();
    unsafe { linked::tailbow_judge(lent, length, ledger, port, time, bytes, count, places) }
}

/// One unit of a partition comes back: the refusal's number, 0 for none.
pub fn release(image: &[u32], ledger: &mut FlatLedger, partition: usize) -> u32 {
    unsafe { linked::tailbow_release(image.as_ptr(), image.len(), ledger, partition) }
}

/// What the screen shows of a port.
pub fn tile(image: &[u32], ledger: &FlatLedger, port: usize) -> FlatTile {
    unsafe { linked::tailbow_tile(image.as_ptr(), image.len(), ledger, port) }
}

/// What stands at a place of a list.
pub fn record_at(list: &[u8], at: usize) -> FlatRecord {
    unsafe { linked::tailbow_record_at(list.as_ptr(), list.len(), at) }
}
