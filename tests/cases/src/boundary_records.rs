//! Boundaries of records and lists: refusals 33 to 37 and 50 to 54.

use reference::list::MOST_BYTES;
use reference::stream::Lists;
use reference::tables::{forwarding_parameters, policing};

use crate::build::{open, open_with, Frame, List, A};
use crate::case::{Case, Expect};
use crate::rng::Rng;

pub fn cases(rng: &mut Rng) -> Vec<Case> {
    let mut cases = frame_refusals(rng);
    cases.extend(release_refusals(rng));
    cases.extend(list_refusals(rng));
    cases.extend(list_sizes());
    cases
}

/// What `open` does with an unknown unicast of VLAN `vlan` and new priority `q` on a port.
pub fn flooded(number: usize, port: u8, vlan: u64, q: u16) -> String {
    let ports = 31 & !(1 << port);
    let mut line = format!("frame {number} sent {ports} vlan {vlan} prio {q} tags 0 queues");
    for output in 0..5 {
        let queue = if output == port { 0 } else { q };
        line.push_str(&format!(" {queue}"));
    }
    line
}

/// A case for a list on a configuration, with its lines.
pub fn listed(name: &str, lists: &Lists, list: List, lines: &[String]) -> Case {
    let lines = lines.to_vec();
    Case::of_lists(name, "document 01, frames and records", lists)
        .list(list)
        .expecting(Expect::Lines(lines))
}

fn refused(number: u32) -> String {
    format!("refused {number}")
}

/// 33, 34 and 35, on a random port at a random time.
fn frame_refusals(rng: &mut Rng) -> Vec<Case> {
    let frame = Frame::to(A);
    let time = rng.between(1, (1 << 48) - 2);
    let port = rng.below(5) as u8;
    let last = (1 << 48) - 1;
    let first = flooded(1, port, 1, 0);
    let second = flooded(2, port, 1, 0);
    let one = |port, time| List::new().frame(port, time, &frame);
    let two = |times: [u64; 2]| one(port, times[0]).frame(port, times[1], &frame);
    let of_length = |length| List::new().frame_of(port, time, &vec![0; length]);
    let high_port = rng.pick(&[5, 6, 7, 8, 128, 255]);
    let case = |name, list, lines: &[String]| listed(name, &open(), list, lines);
    vec![
        case("port_4", one(4, time), &[flooded(1, 4, 1, 0)]).passes("33 port"),
        case("port_5", one(5, time), &[refused(33)]).beyond("33 port"),
        case("high_port", one(high_port, time), &[refused(33)]).beyond("33 port"),
        case("equal_time", two([time, time]), &[first.clone(), second.clone()])
            .passes("34 before the last time"),
        case("one_less", two([time, time - 1]), &[first.clone(), refused(34)])
            .beyond("34 before the last time"),
        case("last_time", two([time, last]), &[first.clone(), second]).passes("34 above 2^48 - 1"),
        case("2_to_48", two([time, last + 1]), &[first, refused(34)]).beyond("34 above 2^48 - 1"),
        case("4096_bytes", of_length(4096), &["frame 1 drop 8".to_string()])
            .passes("35 bytes of a frame"),
        case("4097_bytes", of_length(4097), &[refused(35)]).beyond("35 bytes of a frame"),
    ]
}

/// 36 and 37.
fn release_refusals(rng: &mut Rng) -> Vec<Case> {
    let port = rng.below(5) as u8;
    let high_partition = rng.pick(&[8, 9, 16, 255]);
    let out = open_with(&[
        (forwarding_parameters::part_spc(7), 0, 1),
        (policing::PARTITION, usize::from(port) * 8, 7),
    ]);
    let first = flooded(1, port, 1, 0);
    let ok = "release 2 ok".to_string();
    let release = |partition| List::new().release(partition);
    let give_back = List::new().frame(port, 0, &Frame::to(A)).release(7);
    let twice = give_back.clone().release(7);
    let case = |name, list, lines: &[String]| listed(name, &open(), list, lines);
    vec![
        // Partition 7 has nothing out, so it is 37 and not 36.
        case("partition_7", release(7), &[refused(37)]).passes("36 partition"),
        case("partition_8", release(8), &[refused(36)]).beyond("36 partition"),
        case("high_partition", release(high_partition), &[refused(36)]).beyond("36 partition"),
        listed("one_unit_out", &out, give_back, &[first.clone(), ok.clone()])
            .passes("37 units out"),
        listed("no_unit_out", &out, twice, &[first, ok, refused(37)]).beyond("37 units out"),
    ]
}

/// 50 to 53, around a list of one release of which nothing is out.
fn list_refusals(rng: &mut Rng) -> Vec<Case> {
    let whole = List::new().release(rng.below(8) as u8).bytes;
    let case = |name, list: &[u8], line: String| {
        listed(name, &open(), List { bytes: list.to_vec() }, &[line])
    };
    let run = || refused(37);
    let list_refused = |number: u32| format!("list refused {number}");
    let bit = 1 << rng.below(8);
    let mut mark = whole.clone();
    mark[rng.place(3)] ^= bit;
    let mut version = whole.clone();
    version[3 + rng.place(2)] ^= bit;
    let mut kind = whole.clone();
    kind[5] = rng.pick(&[0, 3, 4, 255]);
    // A list of 5 bytes is whole, with no record.
    let cut = rng.pick(&[0, 1, 2, 3, 4, 6]);
    vec![
        case("mark_right", &whole, run()).passes("50 mark"),
        case("mark_wrong", &mark, list_refused(50)).beyond("50 mark"),
        case("version_1", &whole, run()).passes("51 version"),
        case("version_other", &version, list_refused(51)).beyond("51 version"),
        case("record_whole", &whole, run()).passes("52 cut record"),
        case("record_cut", &whole[..cut], list_refused(52)).beyond("52 cut record"),
        case("kind_2", &whole, run()).passes("53 kind"),
        case("kind_unknown", &kind, list_refused(53)).beyond("53 kind"),
    ]
}

/// 54: 16,384 bytes are 5 of head, 8,182 releases of 2 bytes, and a frame record of 12 + 3.
fn list_sizes() -> Vec<Case> {
    let mut list = List::new();
    let mut lines = Vec::new();
    for _ in 0..8182 {
        list = list.release(0);
        lines.push(refused(37));
    }
    let most = list.frame_of(0, 0, &[0; 3]);
    lines.push("frame 8183 drop 1".to_string());
    assert_eq!(most.bytes.len(), MOST_BYTES);
    let above = most.clone().raw(&[2]);
    vec![
        listed("list_16384", &open(), most, &lines).passes("54 bytes of a list"),
        listed("list_16385", &open(), above, &["list refused 54".to_string()])
            .beyond("54 bytes of a list"),
    ]
}
