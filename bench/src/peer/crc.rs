//! Ethernet CRC-32 by slicing: sixteen bytes a step, two registers in one pass, the copy in the same pass.

pub const START: u32 = 0xFFFF_FFFF;

const POLYNOMIAL: u32 = 0xEDB8_8320;

/// `TABLE[k][b]`: what byte b is after k more bytes of zero.
static TABLE: [[u32; 256]; 16] = table();

const fn table() -> [[u32; 256]; 16] {
    let mut table = [[0; 256]; 16];
    let mut byte = 0;
    while byte < 256 {
        let mut register = byte as u32;
        let mut bit = 0;
        while bit < 8 {
            register = (register >> 1) ^ if register & 1 == 1 { POLYNOMIAL } else { 0 };
            bit += 1;
        }
        table[0][byte] = register;
        byte += 1;
    }
    let mut row = 1;
    while row < 16 {
        let mut byte = 0;
        while byte < 256 {
            let before: u32 = table[row - 1][byte];
            table[row][byte] = (before >> 8) ^ table[0][(before & 255) as usize];
            byte += 1;
        }
        row += 1;
    }
    table
}

/// A word with `rows` more words behind it.
#[inline(always)]
fn look(word: u32, behind: usize) -> u32 {
    TABLE[4 * behind + 3][(word & 255) as usize]
        ^ TABLE[4 * behind + 2][(word >> 8 & 255) as usize]
        ^ TABLE[4 * behind + 1][(word >> 16 & 255) as usize]
        ^ TABLE[4 * behind][(word >> 24) as usize]
}

/// One word more.
#[inline(always)]
pub fn word(register: u32, word: u32) -> u32 {
    look(register ^ word, 0)
}

/// Words that a load can take: as words, or as bytes, each word's most significant first.
pub trait Words: Copy {
    fn count(self) -> usize;
    fn at(self, place: usize) -> u32;
    fn part(self, start: usize, count: usize) -> Self;
    fn fours(self) -> impl Iterator<Item = [u32; 4]>;
}

impl Words for &[u32] {
    #[inline(always)]
    fn count(self) -> usize {
        self.len()
    }

    #[inline(always)]
    fn at(self, place: usize) -> u32 {
        self[place]
    }

    #[inline(always)]
    fn part(self, start: usize, count: usize) -> Self {
        &self[start..start + count]
    }

    #[inline(always)]
    fn fours(self) -> impl Iterator<Item = [u32; 4]> {
        self.as_chunks().0.iter().copied()
    }
}

impl Words for &[[u8; 4]] {
    #[inline(always)]
    fn count(self) -> usize {
        self.len()
    }

    #[inline(always)]
    fn at(self, place: usize) -> u32 {
        u32::from_be_bytes(self[place])
    }

    #[inline(always)]
    fn part(self, start: usize, count: usize) -> Self {
        &self[start..start + count]
    }

    #[inline(always)]
    fn fours(self) -> impl Iterator<Item = [u32; 4]> {
        self.as_chunks().0.iter().map(|four: &[[u8; 4]; 4]| four.map(u32::from_be_bytes))
    }
}

/// Copies words into `to`, which is as long, and takes them into both registers.
#[inline(always)]
pub fn copy_in<W: Words>(words: W, to: &mut [u32], stream: u32, block: u32) -> (u32, u32) {
    let (mut stream, mut block) = (stream, block);
    let (fours, rest) = to.as_chunks_mut();
    for (to, four) in fours.iter_mut().zip(words.fours()) {
        *to = four;
        let others = look(four[1], 2) ^ look(four[2], 1) ^ look(four[3], 0);
        stream = look(stream ^ four[0], 3) ^ others;
        block = look(block ^ four[0], 3) ^ others;
    }
    let done = 4 * fours.len();
    for (place, to) in rest.iter_mut().enumerate() {
        *to = words.at(done + place);
        stream = word(stream, *to);
        block = word(block, *to);
    }
    (stream, block)
}
