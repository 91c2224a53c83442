//! Wrong programs, in tests only: each has one fault in what becomes of replicas or in rule 28, and a
//! named case must tell it apart by what it expects.
//!
//! They are a program of their own, which runs no step of a replica: it asks for the verdict on an
//! ordinary frame that goes the replica's way. That is an untagged one on an image where its port has
//! the replica's VLAN and priority, drops nothing untagged, and no source is enforced. With no fault it
//! prints what the reference prints.

use reference::image::{count, count_place, entry, start_of, IMAGE_WORDS};
use reference::judge::{judge, release, Judged, ReleaseAnswer, Verdict};
use reference::ledger::{fresh_ledger, Ledger, PortCounts};
use reference::list::{Next, Reader, Record};
use reference::load::{load_bytes, LoadAnswer};
use reference::program::output_for;
use reference::stream::{bytes_of, stream_of, words_of, Block, End};
use reference::tables::{address_lookup, forwarding, mac_configuration, read_field, retagging};
use reference::tables::{vlan_lookup, Field, Table};
use reference::tile::{tile, TileAnswer};

use crate::case::Case;
use crate::check::{generated, named};
use crate::damage::blocks_in;
use crate::edit::put_value;
use crate::rng::Rng;

#[derive(Clone, Copy, PartialEq, Eq, Debug)]
enum Wrong {
    /// No fault.
    Nothing,
    /// A replica is replicated, once.
    ReplicatedAgain,
    NotedInTheTile,
    /// Step 5 is asked of the replica of a tagged frame.
    MembershipAsked,
    /// Step 6 is asked.
    SourceAsked,
    /// q for p.
    PriorityMapped,
    /// VLAN_ING for VLAN_EGR.
    IngressVlan,
    /// Step 3 is run on VLAN_EGR: 0 takes the port's VLANID.
    EgressZeroIsThePorts,
    /// VLAN_ING is compared with the port's VLANID, whatever the frame's VLAN.
    MatchedByThePortsVlan,
    /// L of an untagged frame's replica has a tag's four bytes.
    LengthWithATag,
    /// A replica takes no unit.
    TakesNoUnit,
    /// A replica spends no credit.
    SpendsNothing,
    /// Behind a replica that is dropped there is no other.
    StopsAtADrop,
    /// ING_PORT is not asked.
    AnyPort,
    LastToFirst,
    FirstMatchOnly,
    LastMatchOnly,
    OfSentFramesOnly,
    OfTaggedFramesOnly,
    JudgedBeforeTheFrame,
    PrintedBeforeTheFrame,
    /// 28 asks VLAN_EGR only.
    VlanIngNotAsked,
    /// 28 asks VLAN_ING only.
    VlanEgrNotAsked,
    /// 28 lets an entry without ports by.
    EntryWithoutPortsNotAsked,
    /// 28 is told before 25.
    Rule28Before25,
}

/// Each fault, and the case that must tell it apart.
const FAULTS: [(Wrong, &str); 24] = [
    (Wrong::ReplicatedAgain, "replica_is_not_replicated"),
    (Wrong::NotedInTheTile, "tile_without_sent_replicas"),
    (Wrong::MembershipAsked, "replica_not_asked_5"),
    (Wrong::SourceAsked, "replica_not_asked_6"),
    (Wrong::PriorityMapped, "replica_not_policed_by_q"),
    (Wrong::IngressVlan, "replica_untagged"),
    (Wrong::EgressZeroIsThePorts, "replica_to_0"),
    (Wrong::MatchedByThePortsVlan, "replica_tagged_elsewhere"),
    (Wrong::LengthWithATag, "replica_has_the_frames_l"),
    (Wrong::TakesNoUnit, "units_2_for_three"),
    (Wrong::SpendsNothing, "credit_for_two_of_three"),
    (Wrong::StopsAtADrop, "units_left_by_a_dropped_replica"),
    (Wrong::AnyPort, "replica_port_not_named"),
    (Wrong::LastToFirst, "replicas_2"),
    (Wrong::FirstMatchOnly, "replicas_2"),
    (Wrong::LastMatchOnly, "replicas_2"),
    (Wrong::OfSentFramesOnly, "replica_of_drop_10"),
    (Wrong::OfTaggedFramesOnly, "replica_untagged"),
    (Wrong::JudgedBeforeTheFrame, "units_1_for_two"),
    (Wrong::PrintedBeforeTheFrame, "replica_untagged"),
    (Wrong::VlanIngNotAsked, "28_vlan_ing"),
    (Wrong::VlanEgrNotAsked, "28_vlan_egr"),
    (Wrong::EntryWithoutPortsNotAsked, "28_ing_port_0_vlan_ing"),
    (Wrong::Rule28Before25, "28_behind_25"),
];

#[test]
fn every_fault_is_told_apart_by_its_named_case() {
    let named = named();
    for (wrong, name) in FAULTS {
        let case = named.iter().find(|case| case.name == name).expect(name);
        case.run().expect(name);
        let printed = output(wrong, case);
        assert!(case.held_to(printed).is_err(), "{wrong:?} is not told apart by {name}");
    }
}

#[test]
fn without_a_fault_it_prints_what_the_reference_prints() {
    let mut rng = Rng::new(2);
    let seeded = (0..300).map(|number| generated(&mut rng, number));
    for case in named().into_iter().chain(seeded) {
        let expected = output_for(&case.stream, &case.list);
        assert_eq!(output(Wrong::Nothing, &case), expected, "{}", case.name);
    }
}

fn get(image: &[u32], field: Field, number: usize) -> u64 {
    read_field(entry(image, field.table, number), field)
}

/// The entries of a table in a stream that framing lets by.
fn entries_in(words: &[u32], table: Table) -> Vec<Vec<u32>> {
    let mut entries = Vec::new();
    for block in blocks_in(words) {
        if words[block.start] >> 24 == u32::from(table.id()) {
            let data = &words[block.start + 3..block.start + 3 + block.data];
            entries.extend(data.chunks(table.words()).map(<[u32]>::to_vec));
        }
    }
    entries
}

/// Some entry of 12, of those that are asked, has in one of these fields a VLAN that no entry of 07 has.
fn names_no_vlan(wrong: Wrong, words: &[u32], fields: &[Field]) -> bool {
    let vlans: Vec<u64> = entries_in(words, Table::VlanLookup)
        .iter()
        .map(|entry| read_field(entry, vlan_lookup::VLANID))
        .collect();
    let mut named = entries_in(words, Table::Retagging);
    if wrong == Wrong::EntryWithoutPortsNotAsked {
        named.retain(|entry| read_field(entry, retagging::ING_PORT) != 0);
    }
    named.iter().any(|entry| fields.iter().any(|&field| !vlans.contains(&read_field(entry, field))))
}

/// Loads a stream, with the fault where it is one of rule 28.
fn load(wrong: Wrong, image: &mut [u32], stream: &[u8]) -> LoadAnswer {
    let answer = load_bytes(image, stream);
    let words = words_of(stream);
    let both = [retagging::VLAN_ING, retagging::VLAN_EGR];
    let fields = match wrong {
        Wrong::VlanIngNotAsked => &both[1..],
        Wrong::VlanEgrNotAsked => &both[..1],
        _ => &both[..],
    };
    match answer {
        LoadAnswer::Refused(28) if !names_no_vlan(wrong, &words, fields) => {
            load_without_28(image, &words)
        }
        LoadAnswer::Refused(25)
            if wrong == Wrong::Rule28Before25 && names_no_vlan(wrong, &words, fields) =>
        {
            LoadAnswer::Refused(28)
        }
        _ => answer,
    }
}

/// A stream that 28 alone refuses: loaded without 12, whose entries are then put in place.
fn load_without_28(image: &mut [u32], words: &[u32]) -> LoadAnswer {
    let mut blocks = Vec::new();
    for block in blocks_in(words) {
        let id = (words[block.start] >> 24) as u8;
        if block.data > 0 && id != Table::Retagging.id() {
            let data = words[block.start + 3..block.start + 3 + block.data].to_vec();
            blocks.push(Block::plain(id, data));
        }
    }
    let answer = load_bytes(image, &bytes_of(&stream_of(&blocks, End::default())));
    let data = entries_in(words, Table::Retagging).concat();
    let first = start_of(Table::Retagging);
    image[first..first + data.len()].copy_from_slice(&data);
    image[count_place(Table::Retagging)] = (data.len() / Table::Retagging.words()) as u32;
    answer
}

/// A frame's VLAN and priority, where it is past drop 3.
fn vlan_and_priority(image: &[u32], port: usize, frame: &[u8]) -> (u64, u64) {
    let of_port = get(image, mac_configuration::VLANID, port);
    if !is_tagged(frame) {
        return (of_port, get(image, mac_configuration::VLANPRIO, port));
    }
    let vlan = u64::from(frame[14] & 15) * 256 + u64::from(frame[15]);
    (if vlan == 0 { of_port } else { vlan }, u64::from(frame[14] >> 5))
}

fn is_tagged(frame: &[u8]) -> bool {
    frame[12..14] == [0x81, 0x00]
}

/// The VLANs of the replicas of a frame on this VLAN.
fn replica_vlans(wrong: Wrong, image: &[u32], port: usize, vlan: u64) -> Vec<u64> {
    let mut vlans = Vec::new();
    for number in 0..count(image, Table::Retagging) {
        let has_port = get(image, retagging::ING_PORT, number) >> port & 1 == 1;
        let same_vlan = get(image, retagging::VLAN_ING, number) == vlan;
        if same_vlan && (has_port || wrong == Wrong::AnyPort) {
            vlans.push(match (wrong, get(image, retagging::VLAN_EGR, number)) {
                (Wrong::IngressVlan, _) => vlan,
                (Wrong::EgressZeroIsThePorts, 0) => get(image, mac_configuration::VLANID, port),
                (_, egress) => egress,
            });
        }
    }
    match wrong {
        Wrong::LastToFirst => vlans.reverse(),
        Wrong::FirstMatchOnly => vlans.truncate(1),
        Wrong::LastMatchOnly => vlans = vlans.pop().into_iter().collect(),
        Wrong::ReplicatedAgain => {
            let again =
                |&vlan: &u64| [vec![vlan], replica_vlans(Wrong::Nothing, image, port, vlan)];
            vlans = vlans.iter().flat_map(again).flatten().collect();
        }
        _ => {}
    }
    vlans
}

/// The image on which an ordinary frame goes the way of a replica that was received on this port.
fn image_for(wrong: Wrong, image: &[u32], port: usize, vlan: u64, priority: u64) -> Vec<u32> {
    let mut edited = image.to_vec();
    put_value(&mut edited, mac_configuration::VLANID, port, vlan);
    put_value(&mut edited, mac_configuration::VLANPRIO, port, priority);
    put_value(&mut edited, mac_configuration::DRPUNTAG, port, 0);
    if wrong != Wrong::SourceAsked {
        for number in 0..count(image, Table::L2AddressLookup) {
            put_value(&mut edited, address_lookup::ENFPORT, number, 0);
        }
    }
    edited
}

/// One replica: the verdict on the frame that goes its way. The tile is put back.
fn replica(
    wrong: Wrong,
    image: &[u32],
    ledger: &mut Ledger,
    (port, time, frame): (u32, u64, &[u8]),
    vlan: u64,
) -> Verdict {
    let place = port as usize;
    let (_, p) = vlan_and_priority(image, place, frame);
    let q = get(image, forwarding::vlan_pmap(p as usize), place);
    let priority = if wrong == Wrong::PriorityMapped { q } else { p };
    let mut bytes = frame.to_vec();
    if wrong == Wrong::MembershipAsked && is_tagged(frame) {
        let tag = (priority << 13 | vlan) as u16;
        bytes[14..16].copy_from_slice(&tag.to_be_bytes());
    } else {
        bytes[12..14].copy_from_slice(&[0x08, 0x00]);
    }
    if wrong == Wrong::LengthWithATag && !is_tagged(frame) {
        bytes.extend([0; 4]);
    }
    let Ledger { ports: tiles, units, meters, .. } = *ledger;
    if wrong != Wrong::NotedInTheTile {
        ledger.ports[place] = PortCounts { frames: 0, drops: 0, octets: 0, dropped_octets: 0 };
    }
    let edited = image_for(wrong, image, place, vlan, priority);
    let (judged, after) = judge(&edited, *ledger, port, time, &bytes);
    *ledger = after;
    if wrong != Wrong::NotedInTheTile {
        ledger.ports = tiles;
    }
    match wrong {
        Wrong::TakesNoUnit => ledger.units = units,
        Wrong::SpendsNothing => ledger.meters = meters,
        _ => {}
    }
    judged.verdict
}

/// A frame with its replicas.
fn judge_wrongly(
    wrong: Wrong,
    image: &[u32],
    ledger: Ledger,
    asked: (u32, u64, &[u8]),
) -> (Judged, Ledger) {
    let (port, time, frame) = asked;
    let mut without_12 = image.to_vec();
    without_12[count_place(Table::Retagging)] = 0;
    let (original, after) = judge(&without_12, ledger, port, time, frame);
    let has_replicas = match original.verdict {
        Verdict::Refused(_) | Verdict::Drop(1..=6) => false,
        Verdict::Drop(_) => wrong != Wrong::OfSentFramesOnly,
        Verdict::Sent(_) => true,
    };
    if !has_replicas || wrong == Wrong::OfTaggedFramesOnly && !is_tagged(frame) {
        return (original, after);
    }
    let vlan = match wrong {
        Wrong::MatchedByThePortsVlan => get(image, mac_configuration::VLANID, port as usize),
        _ => vlan_and_priority(image, port as usize, frame).0,
    };
    let vlans = replica_vlans(wrong, image, port as usize, vlan);
    let replicas = |ledger: &mut Ledger| {
        let mut verdicts = Vec::new();
        for &vlan in &vlans {
            verdicts.push(replica(wrong, &without_12, ledger, asked, vlan));
            if let (Wrong::StopsAtADrop, Some(Verdict::Drop(_))) = (wrong, verdicts.last()) {
                break;
            }
        }
        verdicts
    };
    if wrong == Wrong::JudgedBeforeTheFrame {
        let mut before = ledger;
        let replicas = replicas(&mut before);
        let (original, after) = judge(&without_12, before, port, time, frame);
        return (Judged { replicas, ..original }, after);
    }
    let mut after = after;
    let replicas = replicas(&mut after);
    (Judged { replicas, ..original }, after)
}

fn verdict_line(what: &str, number: usize, verdict: Verdict) -> String {
    match verdict {
        Verdict::Refused(refusal) => format!("refused {refusal}"),
        Verdict::Drop(drop) => format!("{what} {number} drop {drop}"),
        Verdict::Sent(sent) => {
            let queues = sent.queues.map(|queue| queue.to_string()).join(" ");
            let (ports, vlan, prio, tags) = (sent.ports, sent.vlan, sent.prio, sent.tags);
            format!(
                "{what} {number} sent {ports} vlan {vlan} prio {prio} tags {tags} queues {queues}"
            )
        }
    }
}

fn run_record(
    wrong: Wrong,
    image: &[u32],
    ledger: &mut Ledger,
    number: usize,
    record: Record<'_>,
) -> Vec<String> {
    match record {
        Record::Release { partition } => {
            let (answer, after) = release(image, *ledger, u32::from(partition));
            *ledger = after;
            vec![match answer {
                ReleaseAnswer::Refused(refusal) => format!("refused {refusal}"),
                ReleaseAnswer::Released => format!("release {number} ok"),
            }]
        }
        Record::Frame { port, time, bytes } => {
            let asked = (u32::from(port), time, bytes);
            let (judged, after) = judge_wrongly(wrong, image, *ledger, asked);
            *ledger = after;
            let mut lines = vec![verdict_line("frame", number, judged.verdict)];
            let of_replicas = judged.replicas.iter();
            lines.extend(of_replicas.map(|&verdict| verdict_line("replica", number, verdict)));
            if wrong == Wrong::PrintedBeforeTheFrame {
                lines.rotate_left(1);
            }
            lines
        }
    }
}

/// The records' lines, and the refusal of the list where there is one.
fn run_list(wrong: Wrong, image: &[u32], ledger: &mut Ledger, list: &[u8]) -> Vec<String> {
    let mut reader = match Reader::open(list, false) {
        Ok(reader) => reader,
        Err(number) => return vec![format!("list refused {number}")],
    };
    let mut lines = Vec::new();
    for number in 1.. {
        match reader.next_record() {
            Next::End => break,
            Next::Refused(refusal) => {
                lines.push(format!("list refused {refusal}"));
                break;
            }
            Next::Record(record) => lines.extend(run_record(wrong, image, ledger, number, record)),
        }
    }
    lines
}

fn tile_line(image: &[u32], ledger: &Ledger, port: usize) -> String {
    match tile(image, ledger, port as u32) {
        TileAnswer::NoFrames => format!("tile {port} no-frames"),
        TileAnswer::Shares { frames, octets } => {
            let (share, of_octets) = (frames.to_bits(), octets.to_bits());
            let PortCounts { frames, drops, .. } = ledger.ports[port];
            format!("tile {port} frames {frames} drops {drops} share {share:016x} octets {of_octets:016x}")
        }
        other => format!("tile {port} {other:?}"),
    }
}

/// The whole output for a case.
fn output(wrong: Wrong, case: &Case) -> String {
    let mut image = vec![0; IMAGE_WORDS];
    let mut lines = Vec::new();
    match (load(wrong, &mut image, &case.stream), fresh_ledger(&image)) {
        (LoadAnswer::Loaded, Ok(mut ledger)) => {
            lines.push("config loaded".to_string());
            lines.extend(run_list(wrong, &image, &mut ledger, &case.list));
            lines.extend((0..5).map(|port| tile_line(&image, &ledger, port)));
        }
        (answer, _) => {
            let LoadAnswer::Refused(number) = answer else {
                panic!("{}: {answer:?}", case.name);
            };
            lines.push(format!("config refused {number}"));
            lines.extend((0..5).map(|port| format!("tile {port} not-loaded")));
        }
    }
    lines.push(String::new());
    lines.join("\n")
}
