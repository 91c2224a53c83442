//! Marks over a stream's bytes: zlib's crc32, where it is linked, and memcpy.

use std::hint::black_box;

use crate::works::Side;

pub const ZLIB: &str = "zlib crc32";
pub const MEMCPY: &str = "memcpy";

pub const WITH_ZLIB: bool = cfg!(zlib);

#[cfg(zlib)]
mod linked {
    extern "C" {
        pub fn crc32(register: u64, bytes: *const u8, count: u32) -> u64;
    }
}

/// The words as they stand in memory: each word's low byte first, as the checksums take them.
fn bytes_in_memory(words: &[u32]) -> Vec<u8> {
    words.iter().flat_map(|word| word.to_le_bytes()).collect()
}

pub fn sides(words: &[u32]) -> Vec<(&'static str, Side)> {
    let mut sides: Vec<(&'static str, Side)> = Vec::new();
    let bytes = bytes_in_memory(words);
    let mut copy = vec![0u8; bytes.len()];
    #[cfg(zlib)]
    {
        let bytes = bytes.clone();
        let crc = move |times| {
            for _ in 0..times {
                let bytes = black_box(&bytes);
                black_box(unsafe { linked::crc32(0, bytes.as_ptr(), bytes.len() as u32) });
            }
        };
        sides.push((ZLIB, Box::new(crc)));
    }
    let copying = move |times| {
        for _ in 0..times {
            black_box(&mut copy[..]).copy_from_slice(black_box(&bytes));
        }
    };
    sides.push((MEMCPY, Box::new(copying)));
    sides
}

/// zlib's checksum of the words, where it is linked.
pub fn zlib_checksum(words: &[u32]) -> Option<u32> {
    #[cfg(zlib)]
    {
        let bytes = bytes_in_memory(words);
        return Some(unsafe { linked::crc32(0, bytes.as_ptr(), bytes.len() as u32) } as u32);
    }
    #[cfg(not(zlib))]
    {
        let _ = words;
        None
    }
}
