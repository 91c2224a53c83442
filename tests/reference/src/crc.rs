//! The Ethernet CRC-32 of IEEE 802.3, one bit at a time.
//! Document 01, "The stream": each word's low byte first; 123456789 gives CBF43926.

/// The register before the first byte.
pub(crate) const START: u32 = 0xFFFF_FFFF;

/// The polynomial of IEEE 802.3, lowest power in the highest bit.
const POLYNOMIAL: u32 = 0xEDB8_8320;

/// One byte more, its low bit first.
fn add_byte(register: u32, byte: u8) -> u32 {
    let mut register = register;
    for bit in 0..8 {
        let fed_bit = u32::from(byte >> bit) & 1;
        let leaving_bit = (register & 1) ^ fed_bit;
        register >>= 1;
        if leaving_bit == 1 {
            register ^= POLYNOMIAL;
        }
    }
    register
}

/// One word more, its low byte first.
pub(crate) fn add_word(register: u32, word: u32) -> u32 {
    let mut register = register;
    for byte in word.to_le_bytes() {
        register = add_byte(register, byte);
    }
    register
}

/// The checksum that a register stands for.
pub fn finish(register: u32) -> u32 {
    !register
}

/// The checksum of some words.
pub fn of_words(words: &[u32]) -> u32 {
    let mut register = START;
    for &word in words {
        register = add_word(register, word);
    }
    finish(register)
}

#[cfg(test)]
mod tests {
    use super::*;

    /// The checksum of some bytes.
    fn of_bytes(bytes: &[u8]) -> u32 {
        finish(bytes.iter().fold(START, |register, &byte| add_byte(register, byte)))
    }

    #[test]
    fn the_check_value_of_document_01() {
        assert_eq!(of_bytes(b"123456789"), 0xCBF4_3926);
    }

    #[test]
    fn a_word_is_its_low_byte_first() {
        assert_eq!(of_words(&[0x3433_3231]), of_bytes(b"1234"));
    }

    /// Header checksums printed in the texts beside the outside vectors.
    #[test]
    fn header_checksums_packed_by_another_hand() {
        assert_eq!(of_words(&[0x0600_0000, 0x0000_005A]), 0x4ED2_C50F);
        assert_eq!(of_words(&[0x0700_0000, 0x0000_0002]), 0x7D0B_CBF2);
    }
}
