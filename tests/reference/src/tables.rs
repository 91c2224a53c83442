//! The tables that are carried, their sizes, and the fields that are used, with the manual's bits.
//! Document 01, "The stream": the table of IDs and "Fields used"; document 02, request 2; 001, tables
//! 2 and 10 to 24.

/// A table that is carried.
#[derive(Clone, Copy, PartialEq, Eq, Debug)]
pub enum Table {
    L2AddressLookup,
    L2Policing,
    VlanLookup,
    L2Forwarding,
    MacConfiguration,
    L2LookupParameters,
    L2ForwardingParameters,
    GeneralParameters,
    XmiiModeParameters,
    Retagging,
}

/// One row of document 01's table of IDs.
pub struct Row {
    pub table: Table,
    pub id: u8,
    pub words: usize,
    pub most: usize,
}

const fn row(id: u8, table: Table, words: usize, most: usize) -> Row {
    Row { table, id, words, most }
}

/// ID, table, words an entry, most entries. Entries and counts stand in the image in this order,
/// and a table's number is its place here. A new table comes last, so that it moves no other: the
/// order need not be that of the IDs.
pub const ROWS: &[Row] = &[
    row(0x05, Table::L2AddressLookup, 3, 1024),
    row(0x06, Table::L2Policing, 2, 45),
    row(0x07, Table::VlanLookup, 2, 4096),
    row(0x08, Table::L2Forwarding, 2, 13),
    row(0x09, Table::MacConfiguration, 7, 5),
    row(0x0D, Table::L2LookupParameters, 1, 1),
    row(0x0E, Table::L2ForwardingParameters, 3, 1),
    row(0x11, Table::GeneralParameters, 10, 1),
    row(0x4E, Table::XmiiModeParameters, 1, 1),
    row(0x12, Table::Retagging, 2, 32),
];

/// The IDs of table 2 of document 001.
pub const IDS_OF_TABLE_2: [u8; 20] = [
    0x00, 0x01, 0x02, 0x03, 0x04, 0x05, 0x06, 0x07, 0x08, 0x09, 0x0A, 0x0B, 0x0C, 0x0D, 0x0E, 0x0F,
    0x10, 0x11, 0x12, 0x4E,
];

impl Table {
    /// Its place in the rows, from 0.
    pub const fn place(self) -> usize {
        let mut place = 0;
        // As numbers: a const fn cannot ask whether two enums are equal.
        while ROWS[place].table as usize != self as usize {
            place += 1;
        }
        place
    }

    pub const fn id(self) -> u8 {
        ROWS[self.place()].id
    }

    /// Words an entry.
    pub const fn words(self) -> usize {
        ROWS[self.place()].words
    }

    /// Most entries.
    pub const fn most(self) -> usize {
        ROWS[self.place()].most
    }

    /// The carried table of a block ID.
    pub fn of_id(id: u8) -> Option<Table> {
        for row in ROWS {
            if row.id == id {
                return Some(row.table);
            }
        }
        None
    }
}

/// The rows in ascending block ID, for who sends their blocks in that order.
pub(crate) fn ascending() -> Vec<&'static Row> {
    let mut rows: Vec<&Row> = ROWS.iter().collect();
    rows.sort_by_key(|row| row.id);
    rows
}

/// A field: bits top to bottom of the number that an entry's words make, low word first.
#[derive(Clone, Copy, PartialEq, Eq, Debug)]
pub struct Field {
    pub table: Table,
    top: usize,
    bottom: usize,
}

const fn field(table: Table, top: usize, bottom: usize) -> Field {
    Field { table, top, bottom }
}

/// Table 10: L2 Address Lookup.
pub mod address_lookup {
    use super::*;
    pub const VLANID: Field = field(Table::L2AddressLookup, 95, 84);
    pub const MACADDR: Field = field(Table::L2AddressLookup, 83, 36);
    pub const DESTPORTS: Field = field(Table::L2AddressLookup, 35, 31);
    pub const ENFPORT: Field = field(Table::L2AddressLookup, 30, 30);
    pub const INDEX: Field = field(Table::L2AddressLookup, 29, 20);
}

/// Table 11: L2 Policing.
pub mod policing {
    use super::*;
    pub const SHARINDX: Field = field(Table::L2Policing, 63, 58);
    pub const SMAX: Field = field(Table::L2Policing, 57, 42);
    pub const RATE: Field = field(Table::L2Policing, 41, 26);
    pub const MAXLEN: Field = field(Table::L2Policing, 25, 15);
    pub const PARTITION: Field = field(Table::L2Policing, 14, 12);
}

/// Table 12: VLAN Lookup.
pub mod vlan_lookup {
    use super::*;
    pub const VMEMB_PORT: Field = field(Table::VlanLookup, 53, 49);
    pub const VLAN_BC: Field = field(Table::VlanLookup, 48, 44);
    pub const TAG_PORT: Field = field(Table::VlanLookup, 43, 39);
    pub const VLANID: Field = field(Table::VlanLookup, 38, 27);
}

/// Table 13: L2 Forwarding.
pub mod forwarding {
    use super::*;
    pub const BC_DOMAIN: Field = field(Table::L2Forwarding, 63, 59);
    pub const REACH_PORT: Field = field(Table::L2Forwarding, 58, 54);
    pub const FL_DOMAIN: Field = field(Table::L2Forwarding, 53, 49);

    /// VLAN_PMAP(i): three bits up from 25 + 3i.
    pub const fn vlan_pmap(i: usize) -> Field {
        field(Table::L2Forwarding, 25 + 3 * i + 2, 25 + 3 * i)
    }
}

/// Table 14: MAC Configuration.
pub mod mac_configuration {
    use super::*;
    pub const VLANPRIO: Field = field(Table::MacConfiguration, 24, 22);
    pub const VLANID: Field = field(Table::MacConfiguration, 21, 10);
    pub const DRPUNTAG: Field = field(Table::MacConfiguration, 5, 5);
    pub const EGRESS: Field = field(Table::MacConfiguration, 2, 2);
    pub const INGRESS: Field = field(Table::MacConfiguration, 1, 1);
}

/// Table 18: L2 Lookup Parameters.
pub mod lookup_parameters {
    use super::*;
    pub const SHARED_LEARN: Field = field(Table::L2LookupParameters, 5, 5);
}

/// Table 19: L2 Forwarding Parameters.
pub mod forwarding_parameters {
    use super::*;

    /// PART_SPC(i): ten bits up from 13 + 10i.
    pub const fn part_spc(i: usize) -> Field {
        field(Table::L2ForwardingParameters, 13 + 10 * i + 9, 13 + 10 * i)
    }
}

/// Table 23: Retagging.
pub mod retagging {
    use super::*;
    pub const ING_PORT: Field = field(Table::Retagging, 58, 54);
    pub const VLAN_ING: Field = field(Table::Retagging, 53, 42);
    pub const VLAN_EGR: Field = field(Table::Retagging, 41, 30);
}

/// Bit number `bit` of an entry: word 0 holds bits 31 to 0.
fn bit_of(entry: &[u32], bit: usize) -> u64 {
    u64::from((entry[bit / 32] >> (bit % 32)) & 1)
}

/// The number in bits top to bottom, highest bit first.
pub fn read_field(entry: &[u32], field: Field) -> u64 {
    let mut value = 0;
    for bit in (field.bottom..=field.top).rev() {
        value = value * 2 + bit_of(entry, bit);
    }
    value
}

/// Puts a number into bits top to bottom; higher bits of the number are left out.
pub fn put_field(entry: &mut [u32], field: Field, value: u64) {
    for bit in field.bottom..=field.top {
        let mask = 1 << (bit % 32);
        entry[bit / 32] &= !mask;
        if (value >> (bit - field.bottom)) & 1 == 1 {
            entry[bit / 32] |= mask;
        }
    }
}

#[cfg(test)]
mod tests {
    use super::*;

    /// Row (a) of document 01: VLAN 1, all members, all VLAN_BC, no tags.
    #[test]
    fn row_a() {
        let mut entry = [0, 0];
        put_field(&mut entry, vlan_lookup::VLANID, 1);
        put_field(&mut entry, vlan_lookup::VMEMB_PORT, 31);
        put_field(&mut entry, vlan_lookup::VLAN_BC, 31);
        assert_eq!(entry, [0x0800_0000, 0x003F_F000]);
        assert_eq!(read_field(&entry, vlan_lookup::VLANID), 1);
        assert_eq!(read_field(&entry, vlan_lookup::VMEMB_PORT), 31);
        assert_eq!(read_field(&entry, vlan_lookup::VLAN_BC), 31);
        assert_eq!(read_field(&entry, vlan_lookup::TAG_PORT), 0);
    }

    /// Row (b) of document 01: VLANID 4095 alone.
    #[test]
    fn row_b() {
        let mut entry = [0, 0];
        put_field(&mut entry, vlan_lookup::VLANID, 4095);
        assert_eq!(entry, [0xF800_0000, 0x0000_007F]);
        assert_eq!(read_field(&entry, vlan_lookup::VLANID), 4095);
    }

    /// Fields of the first address entry of 06_rand, as its text prints them.
    #[test]
    fn an_address_entry_packed_by_another_hand() {
        let entry = [0xCD80_0000, 0xD684_0D35, 0xDFC6_9C90];
        assert_eq!(read_field(&entry, address_lookup::VLANID), 3580);
        assert_eq!(read_field(&entry, address_lookup::MACADDR), 0x69C9_0D68_40D3);
        assert_eq!(read_field(&entry, address_lookup::DESTPORTS), 11);
        assert_eq!(read_field(&entry, address_lookup::ENFPORT), 1);
        assert_eq!(read_field(&entry, address_lookup::INDEX), 216);
    }

    /// The retagging entries whose words the decisions give: one by one, and each field at its most.
    #[test]
    fn retagging_entries() {
        for (entry, expected) in [
            ([0x8000_0000, 0x0040_0400], [1, 1, 2]),
            ([0xC000_0000, 0x07FF_FFFF], [31, 4095, 4095]),
        ] {
            let fields = [retagging::ING_PORT, retagging::VLAN_ING, retagging::VLAN_EGR];
            assert_eq!(fields.map(|field| read_field(&entry, field)), expected);
            let mut put = [0, 0];
            for (field, value) in fields.into_iter().zip(expected) {
                put_field(&mut put, field, value);
            }
            assert_eq!(put, entry);
        }
    }

    /// A table's number in a flat load state is its row's place; of no number above 9 is there one.
    #[test]
    fn the_retagging_table_is_number_9_and_the_last() {
        assert_eq!(Table::Retagging.place(), 9);
        assert_eq!(ROWS.len(), 10);
    }

    /// The IDs of table 2 that are 4, by hand: 12 is no longer one of them.
    #[test]
    fn ids_that_are_not_carried() {
        let mut ids = IDS_OF_TABLE_2.to_vec();
        ids.retain(|&id| Table::of_id(id).is_none());
        assert_eq!(ids, [0x00, 0x01, 0x02, 0x03, 0x04, 0x0A, 0x0B, 0x0C, 0x0F, 0x10]);
    }

    /// A second row of an ID or of a table would never be found.
    #[test]
    fn every_row_is_found_by_its_id_and_by_its_table() {
        for (place, row) in ROWS.iter().enumerate() {
            assert!(IDS_OF_TABLE_2.contains(&row.id));
            assert_eq!(Table::of_id(row.id), Some(row.table));
            assert_eq!(row.table.place(), place);
        }
    }
}
