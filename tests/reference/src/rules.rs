//! The loading rules, run in their order once the end block has passed.
//! Document 01, "Numbers for a refused load", second table; 28 is document 02's, request 2.

use crate::image::{count, value, values};
use crate::tables::{address_lookup, forwarding_parameters, mac_configuration, policing};
use crate::tables::{retagging, vlan_lookup, Table};

/// The most units that the eight partitions may have together.
const MOST_UNITS: u64 = 929;

/// The number of the first rule that the image breaks. Counts must be within their limits.
pub fn first_broken_rule(image: &[u32]) -> Option<u32> {
    if rule_20_broken(image) {
        return Some(20);
    }
    if rule_21_broken(image) {
        return Some(21);
    }
    if rule_22_broken(image) {
        return Some(22);
    }
    if rule_23_broken(image) {
        return Some(23);
    }
    if rule_24_broken(image) {
        return Some(24);
    }
    if rule_25_broken(image) {
        return Some(25);
    }
    if rule_28_broken(image) {
        return Some(28);
    }
    None
}

/// 06 or 07 has no entry, or 08 not 13, 09 not 5, 0E, 11 or 4E not 1.
pub fn rule_20_broken(image: &[u32]) -> bool {
    count(image, Table::L2Policing) == 0
        || count(image, Table::VlanLookup) == 0
        || count(image, Table::L2Forwarding) != 13
        || count(image, Table::MacConfiguration) != 5
        || count(image, Table::L2ForwardingParameters) != 1
        || count(image, Table::GeneralParameters) != 1
        || count(image, Table::XmiiModeParameters) != 1
}

/// Two entries of 07 have one VLANID.
fn rule_21_broken(image: &[u32]) -> bool {
    two_are_equal(&values(image, vlan_lookup::VLANID))
}

/// Some port's VLANID in 09 has no entry in 07; all five ports are asked.
fn rule_22_broken(image: &[u32]) -> bool {
    let vlans = values(image, vlan_lookup::VLANID);
    let of_ports = values(image, mac_configuration::VLANID);
    of_ports.iter().any(|vlan| !vlans.contains(vlan))
}

/// Some SHARINDX is not below the count of 06.
fn rule_23_broken(image: &[u32]) -> bool {
    let loaded = count(image, Table::L2Policing) as u64;
    let shared = values(image, policing::SHARINDX);
    shared.iter().any(|&sharindx| sharindx >= loaded)
}

/// The eight PART_SPC add up to more than 929.
fn rule_24_broken(image: &[u32]) -> bool {
    let mut sum = 0;
    for partition in 0..8 {
        sum += value(image, forwarding_parameters::part_spc(partition), 0);
    }
    sum > MOST_UNITS
}

/// Two entries of 05 have one INDEX.
fn rule_25_broken(image: &[u32]) -> bool {
    two_are_equal(&values(image, address_lookup::INDEX))
}

/// Some entry of 12, whatever its ING_PORT, has a VLAN_ING or a VLAN_EGR that no entry of 07 has.
fn rule_28_broken(image: &[u32]) -> bool {
    let vlans = values(image, vlan_lookup::VLANID);
    let mut named = values(image, retagging::VLAN_ING);
    named.extend(values(image, retagging::VLAN_EGR));
    named.iter().any(|vlan| !vlans.contains(vlan))
}

/// Every pair is compared.
fn two_are_equal(numbers: &[u64]) -> bool {
    for second in 0..numbers.len() {
        for first in 0..second {
            if numbers[first] == numbers[second] {
                return true;
            }
        }
    }
    false
}
