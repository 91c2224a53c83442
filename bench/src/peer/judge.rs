//! One frame with its replicas, and a release, the ledger lent by `&mut`.

use crate::flat::{FlatJudged, FlatLedger, FlatVerdict, Replicas};

use super::image::*;
use super::ledger::{most_credit, out_of_range, CREDIT_A_BYTE, LAST_TIME};
use super::search::{each_match, first_vlan, Key, Retag};

const BROADCAST: u64 = 0xFFFF_FFFF_FFFF;
const MOST_BYTES: usize = 4_096;
const MOST_FRAMES: u64 = (1 << 32) - 1;

#[inline(always)]
fn verdict(kind: u32, number: u32) -> FlatVerdict {
    FlatVerdict { kind, number, ports: 0, vlan: 0, priority: 0, tags: 0, queues: [0; 5] }
}

#[inline(always)]
fn refused(number: u32) -> FlatJudged {
    FlatJudged { verdict: verdict(0, number), replicas: 0 }
}

/// Refusals 31, 30, 39, 33, 34, 35, 38; then the first drop, or where the frame is sent, and the same of its replicas.
#[inline(never)]
pub fn judge(
    image: &[u32],
    ledger: &mut FlatLedger,
    port: usize,
    time: u64,
    frame: &[u8],
    replicas: &mut Replicas,
) -> FlatJudged {
    let Some(image) = image_of(image) else {
        return refused(31);
    };
    if !is_loaded(image) {
        return refused(30);
    }
    if out_of_range(image, ledger) {
        return refused(39);
    }
    if port > 4 {
        return refused(33);
    }
    if time < ledger.last || time > LAST_TIME {
        return refused(34);
    }
    if frame.len() > MOST_BYTES {
        return refused(35);
    }
    if ledger.frames[port] >= MOST_FRAMES {
        return refused(38);
    }
    let octets = frame.len() as u64 + 4;
    ledger.last = time;
    ledger.frames[port] += 1;
    ledger.octets[port] += octets;
    let passed = receive(image, port, frame);
    let past_6 = passed.as_ref().ok().map(|passed| (passed.vlan, passed.priority));
    let verdict = match passed.and_then(|passed| go_on(image, ledger, port, time, &passed)) {
        Ok(sent) => sent,
        Err(drop) => {
            ledger.drops[port] += 1;
            ledger.dropped[port] += octets;
            verdict(1, drop)
        }
    };
    let mut judged = FlatJudged { verdict, replicas: 0 };
    if let Some((vlan, priority)) = past_6 {
        if Retag::new(vlan, port).some(entries(image, RETAGGING)) {
            judged.replicas =
                replicate(image, ledger, port, time, frame, (vlan, priority), replicas);
        }
    }
    judged
}

/// Six bytes as a number, the first highest.
#[inline(always)]
fn address(bytes: &[u8; 6]) -> u64 {
    let [a, b, c, d, e, f] = *bytes;
    u64::from_be_bytes([0, 0, a, b, c, d, e, f])
}

/// What steps 7 to 11 need of a frame that steps 1 to 6 let by, or of its replica.
struct Passed<'a> {
    octets: u64,
    priority: usize,
    vlan: u32,
    members: u32,
    broadcasts: u32,
    tags: u32,
    destination: u64,
    addresses: &'a [[u32; 3]],
    shared_learn: bool,
}

/// Drops 7 to 11, or where it is sent.
#[inline(always)]
fn go_on(
    image: &Image,
    ledger: &mut FlatLedger,
    port: usize,
    time: u64,
    passed: &Passed,
) -> Result<FlatVerdict, u32> {
    let entry = police(image, ledger, port, time, passed)?;
    send(image, ledger, port, entry, passed)
}

/// A replica for each entry that matches, on what the one before left. It is given the frame's bytes, so that a frame without replicas
/// keeps what it has come to in registers.
#[inline(never)]
fn replicate(
    image: &Image,
    ledger: &mut FlatLedger,
    port: usize,
    time: u64,
    frame: &[u8],
    (vlan, priority): (u32, usize),
    replicas: &mut Replicas,
) -> u64 {
    // Past drop 1 it has them.
    let Some(destination) = frame.first_chunk() else {
        return 0;
    };
    let (destination, octets) = (address(destination), frame.len() as u64 + 4);
    let retag = Retag::new(vlan, port);
    let mut many = 0;
    let matching = entries(image, RETAGGING).iter().filter(|entry| retag.is(entry));
    for (place, entry) in replicas.iter_mut().zip(matching) {
        let replica = on_vlan(image, vlan_egr(entry), octets, priority, destination);
        *place = match replica.and_then(|replica| go_on(image, ledger, port, time, &replica)) {
            Ok(sent) => sent,
            Err(drop) => verdict(1, drop),
        };
        many += 1;
    }
    many
}

/// What steps 7 to 11 need on this VLAN; drop 4.
#[inline(always)]
fn on_vlan(
    image: &Image,
    vlan: u32,
    octets: u64,
    priority: usize,
    destination: u64,
) -> Result<Passed<'_>, u32> {
    let [members, broadcasts, tags] = masks(image, vlan)?;
    let (addresses, shared_learn) = (entries(image, ADDRESSES), shared_learn(image));
    Ok(Passed {
        octets,
        priority,
        vlan,
        members,
        broadcasts,
        tags,
        destination,
        addresses,
        shared_learn,
    })
}

/// SHARED_LEARN of 0D; absent means clear.
#[inline(always)]
fn shared_learn(image: &Image) -> bool {
    count(image, LOOKUP) == 1 && image[BASE[LOOKUP]] >> 5 & 1 == 1
}

/// VMEMB_PORT, VLAN_BC and TAG_PORT of a VLAN, each in the low five bits; drop 4.
#[inline(always)]
fn masks(image: &Image, vlan: u32) -> Result<[u32; 3], u32> {
    let Some(place) = first_vlan(entries(image, VLANS), vlan) else {
        return Err(4);
    };
    let tags = (vlan_entry(image, place) >> 39) as u32;
    Ok([tags >> 10, tags >> 5, tags])
}

/// Drops 1 to 6.
#[inline(always)]
fn receive<'a>(image: &'a Image, port: usize, frame: &[u8]) -> Result<Passed<'a>, u32> {
    let octets = frame.len() as u64 + 4;
    let Some(head) = frame.first_chunk::<60>() else {
        return Err(1);
    };
    let mac_word = mac(image, port);
    if mac_word & 2 == 0 {
        return Err(2);
    }
    let tagged = head[12] == 0x81 && head[13] == 0;
    let (mut priority, mut vlan) = ((mac_word >> 22 & 7) as usize, port_vlan(mac_word));
    if tagged {
        let tag = u32::from(u16::from_be_bytes([head[14], head[15]]));
        priority = (tag >> 13) as usize;
        if tag & 0xFFF != 0 {
            vlan = tag & 0xFFF;
        }
    } else if mac_word & 32 != 0 {
        return Err(3);
    }
    let [members, broadcasts, tags] = masks(image, vlan)?;
    if tagged && members >> port & 1 == 0 {
        return Err(5);
    }
    let addresses = entries::<3>(image, ADDRESSES);
    let shared_learn = shared_learn(image);
    let source = address(head[6..].first_chunk().unwrap());
    if enforced_elsewhere(addresses, Key::new(source, vlan, shared_learn), port) {
        return Err(6);
    }
    let destination = address(head.first_chunk().unwrap());
    Ok(Passed {
        octets,
        priority,
        vlan,
        members,
        broadcasts,
        tags,
        destination,
        addresses,
        shared_learn,
    })
}

/// Some entry enforces this source and lacks the port.
#[inline(always)]
fn enforced_elsewhere(addresses: &[[u32; 3]], source: Key, port: usize) -> bool {
    let mut elsewhere = false;
    each_match(addresses, source, |entry| {
        elsewhere = entry[0] >> 30 & 1 == 1 && dest_ports(entry) >> port & 1 == 0;
        elsewhere
    });
    elsewhere
}

/// Drops 7 to 9; gives policing entry k.
#[inline(always)]
fn police(
    image: &Image,
    ledger: &mut FlatLedger,
    port: usize,
    time: u64,
    passed: &Passed,
) -> Result<u64, u32> {
    let broadcast = passed.destination == BROADCAST;
    let k = if broadcast { 40 + port } else { 8 * port + passed.priority };
    let loaded = count(image, POLICING);
    let entry = policing(image, k);
    let meter = (entry >> 58) as usize;
    if k >= loaded || meter >= loaded {
        return Err(7);
    }
    if passed.octets > entry >> 15 & 0x7FF {
        return Err(8);
    }
    if !pays(policing(image, meter), ledger, meter, time, passed.octets) {
        return Err(9);
    }
    Ok(entry)
}

/// Before any cut but VLAN_BC: the broadcast domain, the match's ports, or flooding.
#[inline(always)]
fn wanted(own: u64, passed: &Passed) -> u32 {
    if passed.destination == BROADCAST {
        return (own >> 59) as u32 & passed.broadcasts;
    }
    let (mut ports, mut lowest) = ((own >> 49) as u32, u32::MAX);
    let key = Key::new(passed.destination, passed.vlan, passed.shared_learn);
    each_match(passed.addresses, key, |entry| {
        let index = entry[0] >> 20 & 0x3FF;
        if index < lowest {
            (ports, lowest) = (dest_ports(entry), index);
        }
        false
    });
    ports
}

/// Drops 10 and 11; a sent frame takes a unit.
#[inline(always)]
fn send(
    image: &Image,
    ledger: &mut FlatLedger,
    port: usize,
    entry: u64,
    passed: &Passed,
) -> Result<FlatVerdict, u32> {
    let own = forwarding(image, port);
    let mut egress = 0;
    for output in 0..5 {
        egress |= (mac(image, output) >> 2 & 1) << output;
    }
    let reach = (own >> 54) as u32;
    let ports = wanted(own, passed) & reach & passed.members & egress & !(1 << port) & 31;
    if ports == 0 {
        return Err(10);
    }
    let units = &mut ledger.units[(entry >> 12 & 7) as usize];
    if *units == 0 {
        return Err(11);
    }
    *units -= 1;
    let q = own >> (25 + 3 * passed.priority) & 7;
    let outputs = forwarding(image, 5 + q as usize);
    let queue = |output: usize| {
        let sent = u64::from((ports >> output & 1).wrapping_neg());
        outputs >> (25 + 3 * output) & 7 & sent
    };
    Ok(FlatVerdict {
        kind: 2,
        number: 0,
        ports: ports.into(),
        vlan: passed.vlan.into(),
        priority: q,
        tags: (ports & passed.tags).into(),
        queues: std::array::from_fn(queue),
    })
}

/// DESTPORTS 35:31 of 05.
#[inline(always)]
fn dest_ports(entry: &[u32; 3]) -> u32 {
    entry[0] >> 31 | (entry[1] & 15) << 1
}

/// Brings the meter up to date and spends where it can.
#[inline(always)]
fn pays(entry: u64, ledger: &mut FlatLedger, meter: usize, time: u64, octets: u64) -> bool {
    let most = most_credit((entry >> 32) as u32);
    let rate = (entry >> 26 & 0xFFFF) * 15_625;
    let elapsed = time - ledger.since[meter];
    let credit = elapsed.saturating_mul(rate).saturating_add(ledger.credit[meter]).min(most);
    let price = octets * CREDIT_A_BYTE;
    let pays = credit >= price;
    ledger.credit[meter] = if pays { credit - price } else { credit };
    ledger.since[meter] = time;
    pays
}

/// Refusals 31, 30, 39, 36, 37; 0 where a unit came back.
#[inline(never)]
pub fn release(image: &[u32], ledger: &mut FlatLedger, partition: usize) -> u32 {
    let Some(image) = image_of(image) else {
        return 31;
    };
    if !is_loaded(image) {
        return 30;
    }
    if out_of_range(image, ledger) {
        return 39;
    }
    if partition > 7 {
        return 36;
    }
    if ledger.units[partition] == part_spc(image)[partition] {
        return 37;
    }
    ledger.units[partition] += 1;
    0
}
