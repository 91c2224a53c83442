//! Linear searches in groups: the flags of a group are or-ed, and only a group that hits is looked at one by one.

/// VLANID 38:27 of 07, where it stands.
const VLAN_MASK: u64 = 0xFFF << 27;

/// The first VLAN entry with this VLANID. The top bit of a sum says "some difference was 0": a difference is below 2^39.
#[inline(always)]
pub fn first_vlan(entries: &[[u32; 2]], vlan: u32) -> Option<usize> {
    let key = u64::from(vlan) << 27;
    let difference =
        |entry: &[u32; 2]| ((u64::from(entry[0]) | u64::from(entry[1]) << 32) ^ key) & VLAN_MASK;
    let is = |entry: &[u32; 2]| difference(entry) == 0;
    let (groups, rest) = entries.as_chunks::<16>();
    for (number, group) in groups.iter().enumerate() {
        let mut some = 0;
        for entry in group {
            some |= difference(entry).wrapping_sub(1);
        }
        if some >> 63 == 1 {
            return Some(16 * number + group.iter().position(is)?);
        }
    }
    Some(16 * groups.len() + rest.iter().position(is)?)
}

/// What an address and a VLAN look like in words 1 and 2 of an 05 entry.
#[derive(Clone, Copy)]
pub struct Key {
    low: u32,
    high: u32,
    mask: u32,
}

impl Key {
    /// The VLAN is not compared under SHARED_LEARN.
    #[inline(always)]
    pub fn new(address: u64, vlan: u32, shared_learn: bool) -> Key {
        let mask = if shared_learn { 0x000F_FFFF } else { 0xFFFF_FFFF };
        let low = (address as u32) << 4;
        Key { low, high: ((address >> 28) as u32 | vlan << 20) & mask, mask }
    }

    /// The address's low 28 bits.
    #[inline(always)]
    fn low_is(&self, entry: &[u32; 3]) -> bool {
        entry[1] & 0xFFFF_FFF0 == self.low
    }

    #[inline(always)]
    fn is(&self, entry: &[u32; 3]) -> bool {
        self.low_is(entry) && entry[2] & self.mask == self.high
    }
}

/// Calls `seen` with each matching entry, in order, until it says stop.
#[inline(always)]
pub fn each_match(entries: &[[u32; 3]], key: Key, mut seen: impl FnMut(&[u32; 3]) -> bool) {
    let (groups, rest) = entries.as_chunks::<16>();
    for group in groups {
        let mut hit = false;
        for entry in group {
            hit |= key.low_is(entry);
        }
        if hit {
            for entry in group {
                if key.is(entry) && seen(entry) {
                    return;
                }
            }
        }
    }
    for entry in rest {
        if key.is(entry) && seen(entry) {
            return;
        }
    }
}

/// What a VLAN in VLAN_ING 53:42 and a port in ING_PORT 58:54 look like in word 1 of a 12 entry.
#[derive(Clone, Copy)]
pub struct Retag {
    bits: u32,
    mask: u32,
}

impl Retag {
    #[inline(always)]
    pub fn new(vlan: u32, port: usize) -> Retag {
        let port = 1 << (22 + port);
        Retag { bits: vlan << 10 | port, mask: 0xFFF << 10 | port }
    }

    #[inline(always)]
    pub fn is(&self, entry: &[u32; 2]) -> bool {
        entry[1] & self.mask == self.bits
    }

    /// Some entry matches. Without any entry this is all that a frame pays for replicas.
    #[inline(always)]
    pub fn some(&self, entries: &[[u32; 2]]) -> bool {
        let mut some = false;
        for entry in entries {
            some |= self.is(entry);
        }
        some
    }
}
