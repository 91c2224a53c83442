//! Building streams: entry lists, blocks with their free header bits, any order, any cutting.
//! Document 01, "The stream", first two paragraphs.

use crate::crc;
use crate::tables::{ascending, put_field, read_field, Field, Table, ROWS};

/// Word 0 of every stream.
pub const DEVICE_ID: u32 = 0x9E00_030E;

/// One list of entries for each table; an entry is its words, low word first.
#[derive(Clone, PartialEq, Eq, Debug, Default)]
pub struct Lists {
    entries: [Vec<Vec<u32>>; ROWS.len()],
}

impl Lists {
    pub fn of(&self, table: Table) -> &Vec<Vec<u32>> {
        &self.entries[table.place()]
    }

    pub fn of_mut(&mut self, table: Table) -> &mut Vec<Vec<u32>> {
        &mut self.entries[table.place()]
    }

    /// One more entry, all zero; gives its number.
    pub fn push_zero(&mut self, table: Table) -> usize {
        let list = self.of_mut(table);
        list.push(vec![0; table.words()]);
        list.len() - 1
    }

    pub fn put(&mut self, field: Field, number: usize, value: u64) {
        put_field(&mut self.of_mut(field.table)[number], field, value);
    }

    pub fn get(&self, field: Field, number: usize) -> u64 {
        read_field(&self.of(field.table)[number], field)
    }
}

/// A block: its ID, the free bits of its header, its data.
#[derive(Clone, PartialEq, Eq, Debug)]
pub struct Block {
    pub id: u8,
    /// Bits 23:0 of the first word.
    pub free_low: u32,
    /// Bits 31:24 of the second word.
    pub free_high: u8,
    pub data: Vec<u32>,
}

impl Block {
    /// A block whose free bits are zero.
    pub fn plain(id: u8, data: Vec<u32>) -> Block {
        Block { id, free_low: 0, free_high: 0, data }
    }

    /// The two words that the header checksum covers.
    fn header(&self) -> [u32; 2] {
        let first = u32::from(self.id) << 24 | (self.free_low & 0x00FF_FFFF);
        let second = u32::from(self.free_high) << 24 | (self.data.len() as u32 & 0x00FF_FFFF);
        [first, second]
    }

    /// Header, header checksum, data, data checksum.
    pub fn words(&self) -> Vec<u32> {
        let header = self.header();
        let mut words = header.to_vec();
        words.push(crc::of_words(&header));
        words.extend(&self.data);
        words.push(crc::of_words(&self.data));
        words
    }
}

/// The first two words of an end block: any ID and free bits, length 0.
#[derive(Clone, Copy, PartialEq, Eq, Debug, Default)]
pub struct End {
    pub first: u32,
    /// Bits 31:24 of the second word.
    pub free_high: u8,
}

/// A whole stream: word 0, the blocks, the end block with the global checksum.
pub fn stream_of(blocks: &[Block], end: End) -> Vec<u32> {
    let mut words = vec![DEVICE_ID];
    for block in blocks {
        words.extend(block.words());
    }
    words.push(end.first);
    words.push(u32::from(end.free_high) << 24);
    words.push(crc::of_words(&words));
    words
}

/// One block a table that has entries, in ascending ID as Linux's driver has them, free bits zero.
pub fn plain_blocks(lists: &Lists) -> Vec<Block> {
    let mut blocks = Vec::new();
    for row in ascending() {
        let entries = lists.of(row.table);
        if !entries.is_empty() {
            blocks.push(Block::plain(row.id, entries.concat()));
        }
    }
    blocks
}

/// A table's list as blocks of the given numbers of entries; what is left makes a last block.
pub fn cut_blocks(table: Table, entries: &[Vec<u32>], cuts: &[usize]) -> Vec<Block> {
    let mut blocks = Vec::new();
    let mut rest = entries;
    for &cut in cuts {
        let (now, later) = rest.split_at(cut.min(rest.len()));
        if !now.is_empty() {
            blocks.push(Block::plain(table.id(), now.concat()));
        }
        rest = later;
    }
    if !rest.is_empty() {
        blocks.push(Block::plain(table.id(), rest.concat()));
    }
    blocks
}

/// The plainest stream of these lists.
pub fn plain_stream(lists: &Lists) -> Vec<u32> {
    stream_of(&plain_blocks(lists), End::default())
}

/// Words as they are sent: each with its most significant byte first.
pub fn bytes_of(words: &[u32]) -> Vec<u8> {
    let mut bytes = Vec::new();
    for word in words {
        bytes.extend(word.to_be_bytes());
    }
    bytes
}

/// Whole words of some bytes; bytes beyond the last whole word are left out.
pub fn words_of(bytes: &[u8]) -> Vec<u32> {
    let mut words = Vec::new();
    for four in bytes.chunks_exact(4) {
        words.push(u32::from_be_bytes([four[0], four[1], four[2], four[3]]));
    }
    words
}
