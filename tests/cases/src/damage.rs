//! Damaged and rearranged streams: bit flips, truncation, other orders, tables split.

use reference::stream::{cut_blocks, plain_blocks, stream_of, Block, End, Lists};
use reference::tables::ROWS;

use crate::rng::Rng;

/// The stream with one bit turned over.
pub fn flip(words: &[u32], word: usize, bit: u32) -> Vec<u32> {
    let mut flipped = words.to_vec();
    flipped[word] ^= 1 << bit;
    flipped
}

/// Which words a block of a stream has: its first word's place, and how many data words.
#[derive(Clone, Copy, Debug)]
pub struct Placed {
    pub start: usize,
    pub data: usize,
}

/// Where the blocks of a well-formed stream stand; the last is the end block, with no data.
pub fn blocks_in(words: &[u32]) -> Vec<Placed> {
    let mut blocks = Vec::new();
    let mut start = 1;
    while start + 1 < words.len() {
        let data = (words[start + 1] & 0x00FF_FFFF) as usize;
        blocks.push(Placed { start, data });
        if data == 0 {
            break;
        }
        start += 3 + data + 1;
    }
    blocks
}

/// By hand: which refusal one turned bit of a well-formed stream gives. CRC-32 sees every single
/// bit, so it is the first checksum that covers the bit and is asked.
pub fn refusal_of_flip(words: &[u32], word: usize, bit: u32) -> u32 {
    if word == 0 {
        return 1;
    }
    let blocks = blocks_in(words);
    for block in &blocks {
        let within = word.wrapping_sub(block.start);
        let is_end = block.data == 0;
        if within < 3 {
            let length_word = within == 1 && bit < 24;
            let becomes_end = length_word && block.data == 1 << bit;
            // An end block that gets a length is an ordinary header with a wrong checksum, and
            // a block whose length becomes 0 is an end block with a wrong global checksum.
            let asked_as_end = if is_end { !length_word } else { becomes_end };
            return if asked_as_end { 8 } else { 2 };
        }
        if !is_end && within < 3 + block.data + 1 {
            return 7;
        }
    }
    // Behind the end block nothing is read.
    0
}

/// Blocks with random free header bits.
fn free_bits(rng: &mut Rng, blocks: &mut [Block]) {
    for block in blocks {
        block.free_low = rng.word() & 0x00FF_FFFF;
        block.free_high = rng.word() as u8;
    }
}

/// Each table cut between entries at random; a table's blocks keep their order.
fn split(rng: &mut Rng, lists: &Lists) -> Vec<Vec<Block>> {
    let mut by_table = Vec::new();
    for row in ROWS {
        let entries = lists.of(row.table);
        let mut cuts = Vec::new();
        if rng.once_in(2) && !entries.is_empty() {
            for _ in 0..rng.between(1, 4) {
                cuts.push(rng.between(1, entries.len() as u64) as usize);
            }
        }
        by_table.push(cut_blocks(row.table, entries, &cuts));
    }
    by_table
}

/// Blocks of several tables in one random order that keeps each table's own.
fn interleave(rng: &mut Rng, by_table: Vec<Vec<Block>>) -> Vec<Block> {
    let mut turns = Vec::new();
    for (table, blocks) in by_table.iter().enumerate() {
        turns.extend(vec![table; blocks.len()]);
    }
    rng.shuffle(&mut turns);
    let mut waiting: Vec<_> = by_table.into_iter().map(Vec::into_iter).collect();
    let mut blocks = Vec::new();
    for table in turns {
        blocks.extend(waiting[table].next());
    }
    blocks
}

/// A stream of these lists: free bits, order, cutting and end block at random.
pub fn rearranged(rng: &mut Rng, lists: &Lists) -> Vec<u32> {
    let by_table = split(rng, lists);
    let mut blocks = interleave(rng, by_table);
    free_bits(rng, &mut blocks);
    stream_of(&blocks, random_end(rng))
}

/// The plain blocks in another order.
pub(crate) fn reordered(rng: &mut Rng, lists: &Lists) -> Vec<u32> {
    let mut blocks = plain_blocks(lists);
    rng.shuffle(&mut blocks);
    stream_of(&blocks, End::default())
}

/// Every table as blocks of one entry each.
pub fn one_entry_a_block(lists: &Lists) -> Vec<u32> {
    let mut blocks = Vec::new();
    for row in ROWS {
        let entries = lists.of(row.table);
        blocks.extend(cut_blocks(row.table, entries, &vec![1; entries.len()]));
    }
    stream_of(&blocks, End::default())
}

fn random_end(rng: &mut Rng) -> End {
    End { first: rng.word(), free_high: rng.word() as u8 }
}
