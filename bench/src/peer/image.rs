//! The tables' rows, where by them everything stands in the image, and the fields, with the manual's bit numbers.

/// Each table's number, block ID, words an entry and most entries, by its name.
macro_rules! rows {
    ($($name:ident = $id:literal, $size:literal, $most:literal;)*) => {
        const IDS: [u32; TABLES] = [$($id),*];

        pub const TABLES: usize = [$($id),*].len();
        pub const SIZE: [usize; TABLES] = [$($size),*];
        pub const MOST: [u32; TABLES] = [$($most),*];

        $(pub const $name: usize = place($id);)*

        /// Not in table 2 of 001 (3), in it and not carried (4), or the table.
        #[inline(always)]
        pub fn table_of(id: u32) -> Result<usize, u32> {
            match id {
                $($id => Ok($name),)*
                0x00..=0x12 => Err(4),
                _ => Err(3),
            }
        }
    };
}

// Entries and counts stand in the image in this order, which need not be that of the IDs: a new table comes last.
rows! {
    ADDRESSES = 0x05, 3, 1024;
    POLICING = 0x06, 2, 45;
    VLANS = 0x07, 2, 4096;
    FORWARDING = 0x08, 2, 13;
    MAC = 0x09, 7, 5;
    LOOKUP = 0x0D, 1, 1;
    FORWARDING_PARAMETERS = 0x0E, 3, 1;
    GENERAL = 0x11, 10, 1;
    XMII = 0x4E, 1, 1;
    RETAGGING = 0x12, 2, 32;
}

const fn place(id: u32) -> usize {
    let mut table = 0;
    while IDS[table] != id {
        table += 1;
    }
    table
}

/// Where a table begins.
pub const BASE: [usize; TABLES] = bases();

/// The counts stand behind the last table, the mark behind them, and zeros up to 26 words.
pub const COUNTS: usize = behind(&BASE, TABLES - 1);
pub const MARK: usize = COUNTS + TABLES;
const IMAGE_WORDS: usize = COUNTS + 26;

pub type Image = [u32; IMAGE_WORDS];

const fn bases() -> [usize; TABLES] {
    let mut bases = [0; TABLES];
    let mut table = 1;
    while table < TABLES {
        bases[table] = behind(&bases, table - 1);
        table += 1;
    }
    bases
}

/// Behind a table's most entries.
const fn behind(bases: &[usize; TABLES], table: usize) -> usize {
    bases[table] + SIZE[table] * MOST[table] as usize
}

/// The image of a lent buffer that is long enough.
#[inline(always)]
pub fn image_of(buffer: &[u32]) -> Option<&Image> {
    buffer.first_chunk()
}

#[inline(always)]
pub fn image_in(buffer: &mut [u32]) -> Option<&mut Image> {
    buffer.first_chunk_mut()
}

#[inline(always)]
fn counts(image: &Image) -> &[u32; TABLES] {
    image[COUNTS..].first_chunk().unwrap()
}

#[inline(always)]
pub fn count(image: &Image, table: usize) -> usize {
    image[COUNTS + table] as usize
}

/// Some count is above its limit.
#[inline(always)]
pub fn above_limit(image: &Image) -> bool {
    let mut above = false;
    for (count, most) in counts(image).iter().zip(&MOST) {
        above |= count > most;
    }
    above
}

#[inline(always)]
pub fn rule_20_broken(image: &Image) -> bool {
    let counts = counts(image);
    (counts[POLICING] == 0)
        | (counts[VLANS] == 0)
        | (counts[FORWARDING] != 13)
        | (counts[MAC] != 5)
        | (counts[FORWARDING_PARAMETERS] != 1)
        | (counts[GENERAL] != 1)
        | (counts[XMII] != 1)
}

/// Refusal 30 of a frame asks this.
#[inline(always)]
pub fn is_loaded(image: &Image) -> bool {
    (image[MARK] == 1) & !above_limit(image) & !rule_20_broken(image)
}

/// The loaded entries of a table whose count is within its limit.
#[inline(always)]
pub fn entries<const N: usize>(image: &Image, table: usize) -> &[[u32; N]] {
    image[BASE[table]..BASE[table] + N * count(image, table)].as_chunks().0
}

/// Where an entry begins.
#[inline(always)]
pub fn place_of(table: usize, number: usize) -> usize {
    BASE[table] + SIZE[table] * number
}

/// An entry of two words.
#[inline(always)]
fn pair(image: &Image, table: usize, number: usize) -> u64 {
    let place = place_of(table, number);
    u64::from(image[place]) | u64::from(image[place + 1]) << 32
}

#[inline(always)]
pub fn policing(image: &Image, number: usize) -> u64 {
    pair(image, POLICING, number)
}

#[inline(always)]
pub fn forwarding(image: &Image, number: usize) -> u64 {
    pair(image, FORWARDING, number)
}

#[inline(always)]
pub fn vlan_entry(image: &Image, number: usize) -> u64 {
    pair(image, VLANS, number)
}

/// The word of MAC Configuration that has every field used.
#[inline(always)]
pub fn mac(image: &Image, port: usize) -> u32 {
    image[place_of(MAC, port)]
}

#[inline(always)]
pub fn port_vlan(mac: u32) -> u32 {
    mac >> 10 & 0xFFF
}

/// VLANID 38:27 of 07.
#[inline(always)]
pub fn vlan_id(entry: &[u32; 2]) -> u32 {
    entry[0] >> 27 | (entry[1] & 0x7F) << 5
}

/// VLAN_ING 53:42 of 12.
#[inline(always)]
pub fn vlan_ing(entry: &[u32; 2]) -> u32 {
    entry[1] >> 10 & 0xFFF
}

/// VLAN_EGR 41:30 of 12.
#[inline(always)]
pub fn vlan_egr(entry: &[u32; 2]) -> u32 {
    entry[0] >> 30 | (entry[1] & 0x3FF) << 2
}

/// PART_SPC(i): ten bits up from 13 + 10i.
#[inline(always)]
pub fn part_spc(image: &Image) -> [u64; 8] {
    let entry: &[u32; 3] = image[BASE[FORWARDING_PARAMETERS]..].first_chunk().unwrap();
    let whole = u128::from(entry[0]) | u128::from(entry[1]) << 32 | u128::from(entry[2]) << 64;
    std::array::from_fn(|i| (whole >> (13 + 10 * i)) as u64 & 0x3FF)
}
