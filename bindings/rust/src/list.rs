//! Frame lists, record by record.

use crate::numbers::{refusal, Refusal};
use crate::raw;

/// Where a list's first record stands, behind the mark FRL and the version.
const FIRST: usize = 5;

/// A record of a list.
#[derive(Clone, Copy, PartialEq, Eq, Hash, Debug)]
pub enum Record<'a> {
    /// A frame came in.
    Frame {
        /// At this port, which may be above 4: [`Ledger::judge`](crate::Ledger::judge) then refuses it.
        port: usize,
        /// At this time, in µs.
        time: u64,
        /// Its bytes without the checksum.
        bytes: &'a [u8],
    },
    /// One unit comes back.
    Release {
        /// To this partition, which may be above 7.
        partition: usize,
    },
}

/// A walk over a list: the list, and the place of its next record.
///
/// It hands on record after record, and ends with the list or behind a refusal: 54, 50, 51 or 52 for the list itself, 53 or 52 for the
/// record that stands at its place. A list that is refused itself has no record.
#[derive(Clone, Debug)]
pub struct Records<'a> {
    list: &'a [u8],
    place: usize,
    over: bool,
}

impl<'a> Records<'a> {
    /// A walk from the first record.
    pub fn of(list: &'a [u8]) -> Records<'a> {
        Records { list, place: FIRST, over: false }
    }
}

impl<'a> Iterator for Records<'a> {
    type Item = Result<Record<'a>, Refusal>;

    fn next(&mut self) -> Option<Self::Item> {
        if self.over {
            return None;
        }
        let record = raw::record_at(self.list, self.place);
        match record.kind {
            1 => {
                self.place = record.next as usize;
                let start = record.start as usize;
                let bytes = &self.list[start..start + record.count as usize];
                Some(Ok(Record::Frame { port: record.port as usize, time: record.time, bytes }))
            }
            2 => {
                self.place = record.next as usize;
                Some(Ok(Record::Release { partition: record.partition as usize }))
            }
            kind => {
                self.over = true;
                (kind == 0).then(|| Err(refusal(record.number)))
            }
        }
    }
}

impl core::iter::FusedIterator for Records<'_> {}
