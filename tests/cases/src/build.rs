//! Small words for building by hand: frames, lists of records, and configurations near K.

use reference::k;
use reference::list::HEAD;
use reference::stream::Lists;
use reference::tables::{address_lookup, forwarding_parameters, lookup_parameters, vlan_lookup};
use reference::tables::{retagging, Field, Table, IDS_OF_TABLE_2};

/// Addresses that frames and tables have in common.
pub const A: u64 = 0x0200_0000_000A;
pub const B: u64 = 0x0200_0000_000B;
pub(crate) const C: u64 = 0x0200_0000_000C;
pub const BROADCAST: u64 = 0xFFFF_FFFF_FFFF;

/// A frame's bytes in the making, without the checksum.
#[derive(Clone, Debug)]
pub struct Frame {
    destination: u64,
    source: u64,
    /// Tag protocol and tag, where there is one.
    tag: Option<(u16, u16)>,
    length: usize,
}

impl Frame {
    /// 60 bytes from B, untagged.
    pub fn to(destination: u64) -> Frame {
        Frame { destination, source: B, tag: None, length: 60 }
    }

    pub(crate) fn broadcast() -> Frame {
        Frame::to(BROADCAST)
    }

    pub fn from(self, source: u64) -> Frame {
        Frame { source, ..self }
    }

    /// Priority in bits 15:13, DEI clear, VLAN in bits 11:0.
    pub fn tagged(self, priority: u16, vlan: u16) -> Frame {
        self.with_tag(0x8100, priority << 13 | vlan)
    }

    pub(crate) fn with_tag(self, protocol: u16, tag: u16) -> Frame {
        Frame { tag: Some((protocol, tag)), ..self }
    }

    /// All bytes of the frame, a tag's too.
    pub fn length(self, length: usize) -> Frame {
        Frame { length, ..self }
    }

    pub fn bytes(&self) -> Vec<u8> {
        let mut bytes = self.destination.to_be_bytes()[2..].to_vec();
        bytes.extend(&self.source.to_be_bytes()[2..]);
        if let Some((protocol, tag)) = self.tag {
            bytes.extend(protocol.to_be_bytes());
            bytes.extend(tag.to_be_bytes());
        }
        bytes.extend([0x08, 0x00]);
        bytes.resize(self.length, 0);
        bytes
    }
}

/// A list in the making.
#[derive(Clone, Debug)]
pub(crate) struct List {
    pub bytes: Vec<u8>,
}

impl List {
    pub(crate) fn new() -> List {
        List { bytes: HEAD.to_vec() }
    }

    pub(crate) fn frame(self, port: u8, time: u64, frame: &Frame) -> List {
        self.frame_of(port, time, &frame.bytes())
    }

    pub(crate) fn frame_of(mut self, port: u8, time: u64, frame: &[u8]) -> List {
        self.bytes.extend([1, port]);
        self.bytes.extend(time.to_be_bytes());
        self.bytes.extend((frame.len() as u16).to_be_bytes());
        self.bytes.extend(frame);
        self
    }

    pub(crate) fn release(self, partition: u8) -> List {
        self.raw(&[2, partition])
    }

    pub(crate) fn raw(mut self, bytes: &[u8]) -> List {
        self.bytes.extend(bytes);
        self
    }
}

/// K with 100 units in partition 0, so that partitions do not end what is asked.
pub(crate) fn open() -> Lists {
    let mut lists = k::lists();
    lists.put(forwarding_parameters::part_spc(0), 0, 100);
    lists
}

/// `open` with some fields put to other values: field, entry, value.
pub(crate) fn open_with(changes: &[(Field, usize, u64)]) -> Lists {
    with(open(), changes)
}

pub fn with(lists: Lists, changes: &[(Field, usize, u64)]) -> Lists {
    let mut lists = lists;
    for &(field, number, value) in changes {
        lists.put(field, number, value);
    }
    lists
}

/// One more address entry.
#[derive(Clone, Copy, Debug)]
pub struct Address {
    pub vlan: u64,
    pub address: u64,
    pub ports: u64,
    pub enforced: bool,
    pub index: u64,
}

pub fn with_address(lists: Lists, address: Address) -> Lists {
    let mut lists = lists;
    let number = lists.push_zero(Table::L2AddressLookup);
    lists.put(address_lookup::VLANID, number, address.vlan);
    lists.put(address_lookup::MACADDR, number, address.address);
    lists.put(address_lookup::DESTPORTS, number, address.ports);
    lists.put(address_lookup::ENFPORT, number, u64::from(address.enforced));
    lists.put(address_lookup::INDEX, number, address.index);
    lists
}

/// One more VLAN entry: members, broadcast ports, tagging ports.
pub fn with_vlan(lists: Lists, vlan: u64, members: u64, broadcast: u64, tags: u64) -> Lists {
    let mut lists = lists;
    let number = lists.push_zero(Table::VlanLookup);
    lists.put(vlan_lookup::VLANID, number, vlan);
    lists.put(vlan_lookup::VMEMB_PORT, number, members);
    lists.put(vlan_lookup::VLAN_BC, number, broadcast);
    lists.put(vlan_lookup::TAG_PORT, number, tags);
    lists
}

/// One more retagging entry: ports, the frame's VLAN, the replica's.
pub fn with_retagging(lists: Lists, ing_port: u64, vlan_ing: u64, vlan_egr: u64) -> Lists {
    let mut lists = lists;
    let number = lists.push_zero(Table::Retagging);
    lists.put(retagging::ING_PORT, number, ing_port);
    lists.put(retagging::VLAN_ING, number, vlan_ing);
    lists.put(retagging::VLAN_EGR, number, vlan_egr);
    lists
}

/// With 0D loaded and SHARED_LEARN set.
pub(crate) fn with_shared_learn(lists: Lists) -> Lists {
    let mut lists = lists;
    let number = lists.push_zero(Table::L2LookupParameters);
    lists.put(lookup_parameters::SHARED_LEARN, number, 1);
    lists
}

/// What a right header with this ID is told where no data follows: 3, 4, or 10 if it is carried.
pub(crate) fn refusal_of_id(id: u8) -> u32 {
    let in_table_2 = id <= 0x12 || id == 0x4E;
    match (in_table_2, Table::of_id(id)) {
        (false, _) => 3,
        (true, None) => 4,
        (true, Some(_)) => 10,
    }
}

/// The first ID of table 2 whose table is not carried, one in the middle, and the last.
pub fn not_carried() -> [u8; 3] {
    let ids: Vec<u8> =
        IDS_OF_TABLE_2.into_iter().filter(|&id| Table::of_id(id).is_none()).collect();
    [ids[0], ids[ids.len() / 2], ids[ids.len() - 1]]
}
