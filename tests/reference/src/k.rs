//! Configuration K, its list and its whole output, as document 01 gives them.

use crate::stream::Lists;
use crate::tables::Table;
use crate::tables::{forwarding, forwarding_parameters, mac_configuration, policing, vlan_lookup};

/// Configuration K.
pub fn lists() -> Lists {
    let mut lists = Lists::default();
    for number in 0..45 {
        lists.push_zero(Table::L2Policing);
        lists.put(policing::SHARINDX, number, number as u64);
        lists.put(policing::SMAX, number, 65_535);
        lists.put(policing::RATE, number, 64_000);
        lists.put(policing::MAXLEN, number, 1_518);
    }
    lists.push_zero(Table::VlanLookup);
    lists.put(vlan_lookup::VLANID, 0, 1);
    lists.put(vlan_lookup::VMEMB_PORT, 0, 31);
    lists.put(vlan_lookup::VLAN_BC, 0, 31);
    put_forwarding(&mut lists);
    for port in 0..5 {
        lists.push_zero(Table::MacConfiguration);
        lists.put(mac_configuration::VLANID, port, 1);
        lists.put(mac_configuration::EGRESS, port, 1);
        lists.put(mac_configuration::INGRESS, port, 1);
    }
    lists.push_zero(Table::L2ForwardingParameters);
    lists.put(forwarding_parameters::part_spc(0), 0, 1);
    lists.push_zero(Table::GeneralParameters);
    lists.push_zero(Table::XmiiModeParameters);
    lists
}

/// Entries 0 to 4: masks of the other four, p to p. Entry 5 + q: queue q at every output.
fn put_forwarding(lists: &mut Lists) {
    for port in 0..5 {
        let others = 31 & !(1 << port);
        lists.push_zero(Table::L2Forwarding);
        lists.put(forwarding::BC_DOMAIN, port, others);
        lists.put(forwarding::REACH_PORT, port, others);
        lists.put(forwarding::FL_DOMAIN, port, others);
        for priority in 0..8 {
            lists.put(forwarding::vlan_pmap(priority), port, priority as u64);
        }
    }
    for q in 0..8 {
        let entry = lists.push_zero(Table::L2Forwarding);
        for output in 0..8 {
            lists.put(forwarding::vlan_pmap(output), entry, q);
        }
    }
}

/// K's list: broadcasts of 60 bytes on port 0 at 10 and 20, release of 0, 59 bytes on port 1 at 30.
pub fn list() -> Vec<u8> {
    let mut list = b"FRL\x00\x01".to_vec();
    for (port, time, length) in [(0, 10, 60), (0, 20, 60), (1, 30, 59)] {
        if time == 30 {
            list.extend([2, 0]);
        }
        list.extend([1, port, 0, 0, 0, 0, 0, 0, 0, time, 0, length]);
        list.extend([0xFF; 6]);
        list.extend(vec![0; usize::from(length) - 6]);
    }
    list
}

/// K's whole output, copied from document 01.
pub const OUTPUT: &str = "\
config loaded
frame 1 sent 30 vlan 1 prio 0 tags 0 queues 0 0 0 0 0
frame 2 drop 11
release 3 ok
frame 4 drop 1
tile 0 frames 2 drops 1 share 3fe0000000000000 octets 3fe0000000000000
tile 1 frames 1 drops 1 share 3ff0000000000000 octets 3ff0000000000000
tile 2 no-frames
tile 3 no-frames
tile 4 no-frames
";
