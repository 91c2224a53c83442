//! What the cases know of refusals, by hand: the loading rules' numbers, the entries that a table
//! needs, and every number there is. Document 01, "Numbers for a refused load" and later; document 02,
//! request 2.

use reference::tables::Table;

/// The rules' numbers, in the order in which they are asked.
pub const RULES: &[u32] = &[20, 21, 22, 23, 24, 25, 28];

/// Rule 20: the tables that must have entries, and how many at least. Any other may be absent.
pub(crate) const NEEDED: &[(Table, usize)] = &[
    (Table::L2Policing, 1),
    (Table::VlanLookup, 1),
    (Table::L2Forwarding, 13),
    (Table::MacConfiguration, 5),
    (Table::L2ForwardingParameters, 1),
    (Table::GeneralParameters, 1),
    (Table::XmiiModeParameters, 1),
];

/// The least entries of a table in a configuration that loads.
pub fn least_entries(table: Table) -> usize {
    NEEDED.iter().find(|(needed, _)| *needed == table).map_or(0, |(_, least)| *least)
}

/// Every refusal: framing, the loading rules, calls, lists.
pub fn refusals() -> Vec<u32> {
    (1..=10).chain(RULES.iter().copied()).chain(30..=39).chain(50..=54).collect()
}
