//! The image: the first words of a lent buffer, and where everything stands in it, from the rows.
//! Document 01, "The stream", last paragraph: entries, counts, the mark, zeros; document 02, request 2.

use crate::rules;
use crate::tables::{read_field, Field, Row, Table, ROWS};

/// Words for counts and state, behind those of entries.
const COUNTS_AND_STATE: usize = 26;

/// Words of the image; a buffer's words beyond are never written.
pub const IMAGE_WORDS: usize = FIRST_COUNT + COUNTS_AND_STATE;

/// The counts stand behind the entries, in row order.
pub const FIRST_COUNT: usize = entry_words(ROWS);

/// The mark stands behind the counts.
pub const MARK: usize = FIRST_COUNT + ROWS.len();

/// The mark of a loaded image; any other word is "not marked".
pub(crate) const LOADED: u32 = 1;

/// Words that the entries of these tables have at most.
const fn entry_words(rows: &[Row]) -> usize {
    let mut words = 0;
    let mut place = 0;
    while place < rows.len() {
        words += rows[place].words * rows[place].most;
        place += 1;
    }
    words
}

/// Refusal 31 asks this.
pub fn too_short(image: &[u32]) -> bool {
    image.len() < IMAGE_WORDS
}

/// All zero; the rest of the buffer is left.
pub fn make_zero(image: &mut [u32]) {
    for word in &mut image[..IMAGE_WORDS] {
        *word = 0;
    }
}

/// Where a table's entries begin: behind those of the rows before it.
pub const fn start_of(table: Table) -> usize {
    entry_words(ROWS.split_at(table.place()).0)
}

/// Where a table's count stands.
pub const fn count_place(table: Table) -> usize {
    FIRST_COUNT + table.place()
}

/// How many entries of a table the image says it holds.
pub fn count(image: &[u32], table: Table) -> usize {
    image[count_place(table)] as usize
}

/// Some count is above its table's most entries.
pub(crate) fn some_count_above_limit(image: &[u32]) -> bool {
    ROWS.iter().any(|row| count(image, row.table) > row.most)
}

/// Marked, and with counts that a load can give. Where this fails, frames are refused with 30.
pub(crate) fn is_loaded(image: &[u32]) -> bool {
    image[MARK] == LOADED && !some_count_above_limit(image) && !rules::rule_20_broken(image)
}

/// The words of one entry, low word first.
pub fn entry(image: &[u32], table: Table, number: usize) -> &[u32] {
    let first = start_of(table) + number * table.words();
    &image[first..first + table.words()]
}

/// A field of one entry.
pub(crate) fn value(image: &[u32], field: Field, number: usize) -> u64 {
    read_field(entry(image, field.table, number), field)
}

/// A field of every entry that is loaded.
pub(crate) fn values(image: &[u32], field: Field) -> Vec<u64> {
    let loaded = 0..count(image, field.table);
    loaded.map(|number| value(image, field, number)).collect()
}

/// The image that a load of these lists gives, with its mark: used to say what is expected.
pub fn of_lists(lists: &crate::stream::Lists) -> Vec<u32> {
    let mut image = vec![0; IMAGE_WORDS];
    for row in ROWS {
        let entries = lists.of(row.table);
        image[count_place(row.table)] = entries.len() as u32;
        for (number, words) in entries.iter().enumerate() {
            let first = start_of(row.table) + number * row.words;
            image[first..first + row.words].copy_from_slice(words);
        }
    }
    image[MARK] = LOADED;
    image
}

#[cfg(test)]
mod tests {
    use super::*;

    /// A pin: document 01's own numbers and 64 words more, which are computed everywhere else.
    #[test]
    fn the_image_is_as_long_as_the_documents_say() {
        assert_eq!(start_of(Table::Retagging), 11_430);
        assert_eq!(FIRST_COUNT, 11_430 + 64);
        assert_eq!(MARK, 11_504);
        assert_eq!(IMAGE_WORDS, 11_456 + 64);
        assert_eq!(IMAGE_WORDS - FIRST_COUNT, 26);
    }

    #[test]
    fn each_table_begins_where_the_one_before_it_ends() {
        let mut start = 0;
        for row in ROWS {
            assert_eq!(start_of(row.table), start);
            start += row.words * row.most;
        }
        assert_eq!(start, FIRST_COUNT);
    }
}
