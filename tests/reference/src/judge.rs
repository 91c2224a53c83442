//! One frame with its replicas, step by step, and a release.
//! Document 01, "One frame, step by step": call refusals, drops 1 to 11, ports, releases; document 02,
//! request 2: replicas.

use crate::image::{count, is_loaded, too_short, value};
use crate::ledger::{
    most_units, out_of_range, Ledger, CREDIT_A_BYTE, LAST_TIME, PARTITIONS, PORTS,
};
use crate::tables::{address_lookup, forwarding, lookup_parameters, mac_configuration, policing};
use crate::tables::{retagging, vlan_lookup, Table};

/// Bytes of the checksum that a frame comes without.
const CHECKSUM_BYTES: u64 = 4;
const LEAST_LENGTH: u64 = 64;
const MOST_BYTES: usize = 4_096;
const MOST_FRAMES: u64 = (1 << 32) - 1;
const BROADCAST: u64 = 0xFFFF_FFFF_FFFF;

/// Elapsed microseconds x RATE x this is credit in millionths of a bit.
const CREDIT_A_RATE_AND_MICROSECOND: u128 = 15_625;

/// What the switch does with a frame or a replica, or why it was not asked. No replica is refused.
#[derive(Clone, Copy, PartialEq, Eq, Debug)]
pub enum Verdict {
    Refused(u32),
    Drop(u32),
    Sent(Sent),
}

/// A frame's verdict and its replicas', in the order of their entries; a refused frame has none.
#[derive(Clone, PartialEq, Eq, Debug)]
pub struct Judged {
    pub verdict: Verdict,
    pub replicas: Vec<Verdict>,
}

/// Ports and tags are masks, port 0 the lowest bit; queues are 0 where not sent.
#[derive(Clone, Copy, PartialEq, Eq, Debug)]
pub struct Sent {
    pub ports: u32,
    pub vlan: u32,
    pub prio: u32,
    pub tags: u32,
    pub queues: [u32; PORTS],
}

#[derive(Clone, Copy, PartialEq, Eq, Debug)]
pub enum ReleaseAnswer {
    Refused(u32),
    Released,
}

/// Judges one frame to its end, then its replicas; a refused one changes nothing.
pub fn judge(
    image: &[u32],
    ledger: Ledger,
    port: u32,
    time: u64,
    frame: &[u8],
) -> (Judged, Ledger) {
    if let Some(number) = call_refusal(image, &ledger, port, time, frame) {
        return (Judged { verdict: Verdict::Refused(number), replicas: Vec::new() }, ledger);
    }
    let port = port as usize;
    let mut after = ledger;
    let received = receive(image, port, frame);
    let steps = received.and_then(|original| go_on(image, &mut after, port, time, &original));
    let verdict = verdict_of(steps);
    after.last_time = time;
    count_frame(&mut after, port, length_of(frame), verdict);
    // A frame that is past drop 6 has replicas, whatever becomes of it afterwards.
    let replicas = match received {
        Ok(original) => replicate(image, &mut after, port, time, &original),
        Err(_) => Vec::new(),
    };
    (Judged { verdict, replicas }, after)
}

/// 31, 30, 39, 33, 34, 35, 38: the first that applies.
fn call_refusal(image: &[u32], ledger: &Ledger, port: u32, time: u64, frame: &[u8]) -> Option<u32> {
    if let Some(number) = image_or_ledger_refusal(image, ledger) {
        return Some(number);
    }
    if port as usize >= PORTS {
        return Some(33);
    }
    if time < ledger.last_time || time > LAST_TIME {
        return Some(34);
    }
    if frame.len() > MOST_BYTES {
        return Some(35);
    }
    if ledger.ports[port as usize].frames >= MOST_FRAMES {
        return Some(38);
    }
    None
}

/// 31, 30, 39: what a frame and a release ask first.
fn image_or_ledger_refusal(image: &[u32], ledger: &Ledger) -> Option<u32> {
    if too_short(image) {
        return Some(31);
    }
    if !is_loaded(image) {
        return Some(30);
    }
    if out_of_range(image, ledger) {
        return Some(39);
    }
    None
}

/// L: the frame's bytes plus 4.
fn length_of(frame: &[u8]) -> u64 {
    frame.len() as u64 + CHECKSUM_BYTES
}

/// Every frame's verdict counts in its port's tile; a replica's does not.
fn count_frame(ledger: &mut Ledger, port: usize, length: u64, verdict: Verdict) {
    let counts = &mut ledger.ports[port];
    counts.frames += 1;
    counts.octets += length;
    if let Verdict::Drop(_) = verdict {
        counts.drops += 1;
        counts.dropped_octets += length;
    }
}

/// A frame that drops 1 to 6 have let by, or a replica of one that drop 4 has let by.
#[derive(Clone, Copy)]
struct Received {
    length: u64,
    destination: u64,
    priority: usize,
    vlan: u64,
    vlan_entry: usize,
}

/// The first drop that applied, or where it is sent.
fn verdict_of(steps: Result<Sent, u32>) -> Verdict {
    match steps {
        Ok(sent) => Verdict::Sent(sent),
        Err(drop) => Verdict::Drop(drop),
    }
}

/// The replicas, one for each entry of 12 that matches, each on the ledger that the one before left.
fn replicate(
    image: &[u32],
    ledger: &mut Ledger,
    port: usize,
    time: u64,
    original: &Received,
) -> Vec<Verdict> {
    let mut replicas = Vec::new();
    for number in 0..count(image, Table::Retagging) {
        if retagging_matches(image, number, port, original.vlan) {
            let vlan = value(image, retagging::VLAN_EGR, number);
            let steps = replica(image, original, vlan)
                .and_then(|replica| go_on(image, ledger, port, time, &replica));
            replicas.push(verdict_of(steps));
        }
    }
    replicas
}

/// An entry of 12 names this port and this VLAN.
fn retagging_matches(image: &[u32], number: usize, port: usize, vlan: u64) -> bool {
    value(image, retagging::VLAN_ING, number) == vlan
        && has_port(value(image, retagging::ING_PORT, number), port)
}

/// Drop 4: the frame on another VLAN. Nothing else of it changes, and steps 1, 2, 3, 5, 6 are not run.
fn replica(image: &[u32], original: &Received, vlan: u64) -> Result<Received, u32> {
    let Some(vlan_entry) = first_vlan_entry(image, vlan) else {
        return Err(4);
    };
    Ok(Received { vlan, vlan_entry, ..*original })
}

/// Drops 7 to 11, of a frame or of a replica; spends credit and takes a unit.
fn go_on(
    image: &[u32],
    ledger: &mut Ledger,
    port: usize,
    time: u64,
    received: &Received,
) -> Result<Sent, u32> {
    let k = police(image, ledger, port, time, received)?;
    send(image, ledger, port, k, received)
}

/// Drops 1 to 6.
fn receive(image: &[u32], port: usize, frame: &[u8]) -> Result<Received, u32> {
    let length = length_of(frame);
    if length < LEAST_LENGTH {
        return Err(1);
    }
    if value(image, mac_configuration::INGRESS, port) == 0 {
        return Err(2);
    }
    if !is_tagged(frame) && value(image, mac_configuration::DRPUNTAG, port) == 1 {
        return Err(3);
    }
    let (priority, vlan) = priority_and_vlan(image, port, frame);
    let Some(vlan_entry) = first_vlan_entry(image, vlan) else {
        return Err(4);
    };
    if is_tagged(frame) && !has_port(value(image, vlan_lookup::VMEMB_PORT, vlan_entry), port) {
        return Err(5);
    }
    if source_is_enforced_elsewhere(image, source(frame), vlan, port) {
        return Err(6);
    }
    let destination = destination(frame);
    Ok(Received { length, destination, priority, vlan, vlan_entry })
}

/// Drops 7 to 9; gives the policing entry k.
fn police(
    image: &[u32],
    ledger: &mut Ledger,
    port: usize,
    time: u64,
    received: &Received,
) -> Result<usize, u32> {
    let k = policing_entry(port, received.priority, received.destination);
    let Some(shared) = shared_policing_entry(image, k) else {
        return Err(7);
    };
    if received.length > value(image, policing::MAXLEN, k) {
        return Err(8);
    }
    if !meter_pays(image, ledger, shared, time, received.length) {
        return Err(9);
    }
    Ok(k)
}

/// Drops 10 and 11; a sent frame takes one unit.
fn send(
    image: &[u32],
    ledger: &mut Ledger,
    port: usize,
    k: usize,
    received: &Received,
) -> Result<Sent, u32> {
    let ports = ports_to_send(image, port, received);
    if ports == 0 {
        return Err(10);
    }
    let partition = value(image, policing::PARTITION, k) as usize;
    if ledger.units[partition] == 0 {
        return Err(11);
    }
    ledger.units[partition] -= 1;
    Ok(sent(image, port, received, ports))
}

/// Port 0 is the lowest bit of a mask.
fn has_port(mask: u64, port: usize) -> bool {
    (mask >> port) & 1 == 1
}

/// An address as a number, its first byte on the wire highest.
fn address(six_bytes: &[u8]) -> u64 {
    let mut number = 0;
    for &byte in six_bytes {
        number = number * 256 + u64::from(byte);
    }
    number
}

fn destination(frame: &[u8]) -> u64 {
    address(&frame[0..6])
}

fn source(frame: &[u8]) -> u64 {
    address(&frame[6..12])
}

/// Bytes 12 and 13 are 81 00.
fn is_tagged(frame: &[u8]) -> bool {
    frame[12] == 0x81 && frame[13] == 0x00
}

/// Priority p and VLAN, from the tag or from the port.
fn priority_and_vlan(image: &[u32], port: usize, frame: &[u8]) -> (usize, u64) {
    let port_vlan = value(image, mac_configuration::VLANID, port);
    if !is_tagged(frame) {
        let priority = value(image, mac_configuration::VLANPRIO, port);
        return (priority as usize, port_vlan);
    }
    // IEEE 802.1Q: priority in the top three bits, VLAN in the low twelve; DEI is not read.
    let tag = u64::from(frame[14]) * 256 + u64::from(frame[15]);
    let priority = (tag >> 13) as usize;
    let vlan = tag & 0xFFF;
    if vlan == 0 {
        return (priority, port_vlan);
    }
    (priority, vlan)
}

/// The first of two entries with one VLANID counts.
fn first_vlan_entry(image: &[u32], vlan: u64) -> Option<usize> {
    let mut loaded = 0..count(image, Table::VlanLookup);
    loaded.find(|&number| value(image, vlan_lookup::VLANID, number) == vlan)
}

/// Absent means clear, whatever the word holds.
fn shared_learn(image: &[u32]) -> bool {
    count(image, Table::L2LookupParameters) == 1
        && value(image, lookup_parameters::SHARED_LEARN, 0) == 1
}

/// An 05 entry has this address and, unless SHARED_LEARN, this VLAN.
fn address_matches(image: &[u32], number: usize, address: u64, vlan: u64) -> bool {
    let same_vlan = value(image, address_lookup::VLANID, number) == vlan;
    value(image, address_lookup::MACADDR, number) == address && (same_vlan || shared_learn(image))
}

/// Drop 6: any entry that enforces this source and lacks the port, even beside one that allows it.
fn source_is_enforced_elsewhere(image: &[u32], source: u64, vlan: u64, port: usize) -> bool {
    let mut loaded = 0..count(image, Table::L2AddressLookup);
    loaded.any(|number| {
        value(image, address_lookup::ENFPORT, number) == 1
            && address_matches(image, number, source, vlan)
            && !has_port(value(image, address_lookup::DESTPORTS, number), port)
    })
}

/// k: 40 + port for a broadcast, else 8 x port + p.
fn policing_entry(port: usize, priority: usize, destination: u64) -> usize {
    if destination == BROADCAST {
        return 40 + port;
    }
    8 * port + priority
}

/// The entry that k's SHARINDX names, where both are loaded; followed once.
fn shared_policing_entry(image: &[u32], k: usize) -> Option<usize> {
    let loaded = count(image, Table::L2Policing);
    if k >= loaded {
        return None;
    }
    let shared = value(image, policing::SHARINDX, k) as usize;
    if shared >= loaded {
        return None;
    }
    Some(shared)
}

/// Brings the meter up to date and spends L x 8,000,000 if it reaches that.
fn meter_pays(image: &[u32], ledger: &mut Ledger, number: usize, time: u64, length: u64) -> bool {
    let meter = &mut ledger.meters[number];
    let most = u128::from(value(image, policing::SMAX, number) * CREDIT_A_BYTE);
    let rate = u128::from(value(image, policing::RATE, number));
    let elapsed = u128::from(time - meter.time);
    let grown = u128::from(meter.credit) + elapsed * rate * CREDIT_A_RATE_AND_MICROSECOND;
    // The lesser is at most SMAX x 8,000,000, so it fits.
    let credit = grown.min(most) as u64;
    let price = length * CREDIT_A_BYTE;
    let pays = credit >= price;
    meter.credit = if pays { credit - price } else { credit };
    meter.time = time;
    pays
}

/// The 05 match on destination with the lowest INDEX, the first of equal ones.
fn best_destination_entry(image: &[u32], destination: u64, vlan: u64) -> Option<usize> {
    let mut best: Option<usize> = None;
    for number in 0..count(image, Table::L2AddressLookup) {
        if !address_matches(image, number, destination, vlan) {
            continue;
        }
        let index = |entry| value(image, address_lookup::INDEX, entry);
        if best.is_none_or(|sofar| index(number) < index(sofar)) {
            best = Some(number);
        }
    }
    best
}

/// Before any cut but VLAN_BC: the broadcast domain, the match's ports, or flooding.
fn wanted_ports(image: &[u32], port: usize, received: &Received) -> u64 {
    if received.destination == BROADCAST {
        let domain = value(image, forwarding::BC_DOMAIN, port);
        return domain & value(image, vlan_lookup::VLAN_BC, received.vlan_entry);
    }
    match best_destination_entry(image, received.destination, received.vlan) {
        Some(number) => value(image, address_lookup::DESTPORTS, number),
        None => value(image, forwarding::FL_DOMAIN, port),
    }
}

/// The ports with EGRESS.
fn egress_ports(image: &[u32]) -> u64 {
    let mut mask = 0;
    for port in 0..PORTS {
        mask |= value(image, mac_configuration::EGRESS, port) << port;
    }
    mask
}

/// Cut with REACH_PORT, VMEMB_PORT and EGRESS; the reception port is taken out.
fn ports_to_send(image: &[u32], port: usize, received: &Received) -> u64 {
    wanted_ports(image, port, received)
        & value(image, forwarding::REACH_PORT, port)
        & value(image, vlan_lookup::VMEMB_PORT, received.vlan_entry)
        & egress_ports(image)
        & !(1 << port)
}

/// New priority q, tags, and the queue at each output: VLAN_PMAP of entry 5 + q.
fn sent(image: &[u32], port: usize, received: &Received, ports: u64) -> Sent {
    let q = value(image, forwarding::vlan_pmap(received.priority), port) as usize;
    let mut queues = [0; PORTS];
    for (output, queue) in queues.iter_mut().enumerate() {
        if has_port(ports, output) {
            *queue = value(image, forwarding::vlan_pmap(output), 5 + q) as u32;
        }
    }
    let tag_port = value(image, vlan_lookup::TAG_PORT, received.vlan_entry);
    Sent {
        ports: ports as u32,
        vlan: received.vlan as u32,
        prio: q as u32,
        tags: (ports & tag_port) as u32,
        queues,
    }
}

/// Gives back one unit: 31, 30, 39, then 36 and 37.
pub fn release(image: &[u32], ledger: Ledger, partition: u32) -> (ReleaseAnswer, Ledger) {
    if let Some(number) = image_or_ledger_refusal(image, &ledger) {
        return (ReleaseAnswer::Refused(number), ledger);
    }
    let partition = partition as usize;
    if partition >= PARTITIONS {
        return (ReleaseAnswer::Refused(36), ledger);
    }
    if ledger.units[partition] == most_units(image, partition) {
        return (ReleaseAnswer::Refused(37), ledger);
    }
    let mut after = ledger;
    after.units[partition] += 1;
    (ReleaseAnswer::Released, after)
}
