//! Loading: whole streams, and writes of 1 to 64 words.

use crate::numbers::{refusal, Refusal};
use crate::raw;

/// What a load or a write answers.
#[derive(Clone, Copy, PartialEq, Eq, Hash, Debug)]
pub enum Answer {
    /// The end block isn't complete: more words are wanted. A write alone answers this.
    More,
    /// Answer 0: the image is loaded.
    Loaded,
    /// The stream or the call is refused.
    Refused(Refusal),
}

impl Answer {
    fn of(number: u32) -> Answer {
        match number {
            raw::MORE => Answer::More,
            0 => Answer::Loaded,
            number => Answer::Refused(refusal(number)),
        }
    }
}

/// A load under way: what is carried from one write to the next. The words that have come stand in the image.
///
/// A load belongs to one image. Where that was changed between two writes the next one may be refused with 30; nothing outside
/// the image is written in any case.
#[derive(Clone, Copy, PartialEq, Eq, Debug)]
pub struct Load {
    flat: raw::FlatLoad,
}

impl Load {
    /// A load before its first write.
    pub fn fresh() -> Load {
        let mut flat = raw::FlatLoad::default();
        raw::fresh_load(&mut flat);
        Load { flat }
    }

    /// A write of 1 to 64 words; the first one zeroes the image.
    ///
    /// Refusals of the call, in this order, leave the image and the load as found: 31 for a buffer below
    /// [`IMAGE_WORDS`](crate::IMAGE_WORDS), 30 for a load already begun whose image holds a count above its limit or that has more
    /// words due than the block's table has room for, 32 for 0 words or more than 64. Once an answer has been told it is repeated, and
    /// nothing is written. 1 to 8 and a loading rule's number leave the image zero; words behind an answer are ignored.
    pub fn write(&mut self, image: &mut [u32], words: &[u32]) -> Answer {
        Answer::of(raw::write(image, &mut self.flat, words))
    }

    /// The load's answer, once it has been told: loaded, or the first broken rule.
    pub fn answer(&self) -> Option<Answer> {
        const TOLD: u32 = 5;
        (self.flat.phase == TOLD).then(|| Answer::of(self.flat.told))
    }
}

impl Default for Load {
    fn default() -> Load {
        Load::fresh()
    }
}

/// Loads a whole stream of words into a buffer's first [`IMAGE_WORDS`](crate::IMAGE_WORDS) words; its rest is never written.
///
/// 31 leaves the buffer as found. Otherwise the answer is [`Answer::Loaded`], or 1 to 8, 10 or a loading rule's number with a zero
/// image. It is never [`Answer::More`].
pub fn load_words(image: &mut [u32], words: &[u32]) -> Answer {
    Answer::of(raw::load_words(image, words))
}

/// Loads a whole stream of bytes, each word's most significant byte first.
///
/// 31, then 9, leave the buffer as found; otherwise as [`load_words`].
pub fn load_bytes(image: &mut [u32], bytes: &[u8]) -> Answer {
    Answer::of(raw::load_bytes(image, bytes))
}
