//! The loading rules: the first broken one's number.

use super::image::*;

const MOST_UNITS: u64 = 929;

/// 0 where none is broken. Counts are within their limits.
pub fn first_broken_rule(image: &Image) -> u32 {
    if rule_20_broken(image) {
        return 20;
    }
    // A mark a VLAN: as many marks as entries where no two are equal.
    let mut known = [0u8; 4096];
    let vlans = entries::<2>(image, VLANS);
    for entry in vlans {
        known[vlan_id(entry) as usize] = 1;
    }
    if marked(&known) != vlans.len() {
        return 21;
    }
    for port in 0..5 {
        if known[port_vlan(mac(image, port)) as usize] == 0 {
            return 22;
        }
    }
    let policing = entries::<2>(image, POLICING);
    let mut outside = false;
    for entry in policing {
        outside |= (entry[1] >> 26) as usize >= policing.len();
    }
    if outside {
        return 23;
    }
    if part_spc(image).iter().sum::<u64>() > MOST_UNITS {
        return 24;
    }
    let mut marks = [0u8; 1024];
    let addresses = entries::<3>(image, ADDRESSES);
    for entry in addresses {
        marks[(entry[0] >> 20 & 0x3FF) as usize] = 1;
    }
    if marked(&marks) != addresses.len() {
        return 25;
    }
    for entry in entries::<2>(image, RETAGGING) {
        if known[vlan_ing(entry) as usize] == 0 || known[vlan_egr(entry) as usize] == 0 {
            return 28;
        }
    }
    0
}

/// How many marks are set. Lanes of a byte hold up to 64 rows of ones.
fn marked<const N: usize>(marks: &[u8; N]) -> usize {
    let mut sum = 0;
    for rows in marks.as_chunks::<1024>().0 {
        let mut lanes = [0u8; 16];
        for row in rows.as_chunks::<16>().0 {
            for (lane, mark) in lanes.iter_mut().zip(row) {
                *lane += mark;
            }
        }
        sum += lanes.iter().map(|&lane| usize::from(lane)).sum::<usize>();
    }
    sum
}
