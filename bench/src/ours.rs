//! Tailbow: the proved entries of the archive, behind the calls that both programs have.

use crate::flat::{FlatJudged, FlatLedger, FlatLoad, FlatTile, Program, Replicas};

pub const OURS: Program =
    Program { load_words, load_bytes, write, fresh_ledger, judge, release, tile };

mod linked {
    use crate::flat::{FlatJudged, FlatLedger, FlatLoad, FlatTile, FlatVerdict};

    extern "C" {
        pub fn tailbow_write(
            image: *mut u32,
            image_words: usize,
            load: *mut FlatLoad,
            words: *const u32,
            count: usize,
        ) -> u32;
        pub fn tailbow_load_words(
            image: *mut u32,
            image_words: usize,
            words: *const u32,
            count: usize,
        ) -> u32;
        pub fn tailbow_load_bytes(
            image: *mut u32,
            image_words: usize,
            bytes: *const u8,
            count: usize,
        ) -> u32;
        pub fn tailbow_fresh_ledger(
            image: *const u32,
            words: usize,
            ledger: *mut FlatLedger,
        ) -> u32;
        pub fn tailbow_judge(
            image: *const u32,
            words: usize,
            ledger: *mut FlatLedger,
            port: usize,
            time: u64,
            frame: *const u8,
            bytes: usize,
            replicas: *mut FlatVerdict,
        ) -> FlatJudged;
        pub fn tailbow_release(
            image: *const u32,
            words: usize,
            ledger: *mut FlatLedger,
            partition: usize,
        ) -> u32;
        pub fn tailbow_tile(
            image: *const u32,
            words: usize,
            ledger: *const FlatLedger,
            port: usize,
        ) -> FlatTile;
    }
}

fn load_words(image: &mut [u32], words: &[u32]) -> u32 {
    let (lent, length) = (image.as_mut_ptr(), image.len());
    unsafe { linked::tailbow_load_words(lent, length, words.as_ptr(), words.len()) }
}

fn load_bytes(image: &mut [u32], bytes: &[u8]) -> u32 {
    let (lent, length) = (image.as_mut_ptr(), image.len());
    unsafe { linked::tailbow_load_bytes(lent, length, bytes.as_ptr(), bytes.len()) }
}

fn write(image: &mut [u32], load: &mut FlatLoad, words: &[u32]) -> u32 {
    let (lent, length) = (image.as_mut_ptr(), image.len());
    unsafe { linked::tailbow_write(lent, length, load, words.as_ptr(), words.len()) }
}

fn fresh_ledger(image: &[u32], ledger: &mut FlatLedger) -> u32 {
    unsafe { linked::tailbow_fresh_ledger(image.as_ptr(), image.len(), ledger) }
}

fn judge(
    image: &[u32],
    ledger: &mut FlatLedger,
    port: usize,
    time: u64,
    frame: &[u8],
    replicas: &mut Replicas,
) -> FlatJudged {
    let (lent, words) = (image.as_ptr(), image.len());
    let (bytes, count) = (frame.as_ptr(), frame.len());
    let places = replicas.as_mut_ptr();
    unsafe { linked::tailbow_judge(lent, words, ledger, port, time, bytes, count, places) }
}

fn release(image: &[u32], ledger: &mut FlatLedger, partition: usize) -> u32 {
    unsafe { linked::tailbow_release(image.as_ptr(), image.len(), ledger, partition) }
}

fn tile(image: &[u32], ledger: &FlatLedger, port: usize) -> FlatTile {
    unsafe { linked::tailbow_tile(image.as_ptr(), image.len(), ledger, port) }
}
