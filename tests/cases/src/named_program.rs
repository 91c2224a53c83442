//! Named cases of the verdict program: lists, numbering, refused records, what is printed.
//! Files that are missing or endless are tested beside the program itself.

use reference::k;
use reference::list::MOST_BYTES;
use reference::stream::{bytes_of, plain_stream};
use reference::tables::{forwarding_parameters, policing};

use crate::build::{open, open_with, Frame, List, A};
use crate::case::Case;

const K: &str = "document 01, The verdict program: K's whole output";
const HEAD: &str = "decisions, The program: below 5 bytes each byte must agree";
const CUT: &str = "decisions, The program: a cut record is 52 and not run, an unknown kind 53";
const SIZE: &str = "decisions, The program: 54 looks at the size alone, first";
const RECORDS: &str = "decisions, The program: a refused record prints `refused N` and counts";
const REFUSALS: &str = "document 01: call refusals 33, 34, 35 and 36, 37 in their order";
const SHARES: &str = "document 01: the exact bits of one division";

pub fn cases() -> Vec<Case> {
    let mut cases =
        vec![Case::of_lists("k", K, &k::lists()).output(k::OUTPUT), refused_stream_reads_no_list()];
    cases.extend(heads());
    cases.extend(cuts());
    cases.extend(sizes());
    cases.extend(records());
    cases.extend(call_refusals());
    cases.extend(shares());
    cases
}

fn refused_stream_reads_no_list() -> Case {
    let mut stream = bytes_of(&plain_stream(&k::lists()));
    stream[0] = 0;
    let clause = "document 01: a refused stream prints five tiles not-loaded, the list is not read";
    Case::of_bytes("refused_stream_reads_no_list", clause, stream)
        .list_bytes(b"XYZ".to_vec())
        .refused(1)
}

/// K's output up to `list refused N` where no record was run.
fn nothing_run(number: u32) -> String {
    let mut output = format!("config loaded\nlist refused {number}\n");
    for port in 0..5 {
        output.push_str(&format!("tile {port} no-frames\n"));
    }
    output
}

fn heads() -> Vec<Case> {
    let heads: [(&str, &[u8], u32); 17] = [
        ("empty", b"", 52),
        ("f", b"F", 52),
        ("fr", b"FR", 52),
        ("frl", b"FRL", 52),
        ("frl_0", b"FRL\x00", 52),
        ("x", b"X", 50),
        ("fx", b"FX", 50),
        ("frx", b"FRX", 50),
        ("lower_case", b"frl\x00\x01", 50),
        ("frl_1", b"FRL\x01", 51),
        ("frl_ff", b"FRL\xFF", 51),
        ("version_0", b"FRL\x00\x00", 51),
        ("version_2", b"FRL\x00\x02", 51),
        ("version_257", b"FRL\x01\x01", 51),
        ("version_256", b"FRL\x01\x00", 51),
        ("mark_before_version", b"FRX\x00\x02", 50),
        ("version_before_kind", b"FRL\x00\x02\x09", 51),
    ];
    let mut cases = Vec::new();
    for (name, list, number) in heads {
        cases.push(
            Case::of_lists(&format!("head_{name}"), HEAD, &k::lists())
                .list_bytes(list.to_vec())
                .output(&nothing_run(number)),
        );
    }
    cases.push(Case::of_lists("head_alone", HEAD, &k::lists()).list(List::new()).lines(&[]));
    cases
}

fn cuts() -> Vec<Case> {
    let case = |name, list: List, lines: &[&str]| {
        Case::of_lists(name, CUT, &open()).list(list).lines(lines)
    };
    let sent = "frame 1 sent 30 vlan 1 prio 0 tags 0 queues 0 0 0 0 0";
    let first = List::new().frame(0, 1, &Frame::to(A));
    let mut cut_frame = first.clone().frame(0, 1, &Frame::to(A));
    cut_frame.bytes.pop();
    let no_bytes_yet = first.clone().raw(&[1, 0, 0, 0, 0, 0, 0, 0, 0, 1, 0, 60]);
    let output = "\
config loaded
frame 1 sent 30 vlan 1 prio 0 tags 0 queues 0 0 0 0 0
list refused 53
tile 0 frames 1 drops 0 share 0000000000000000 octets 0000000000000000
tile 1 no-frames
tile 2 no-frames
tile 3 no-frames
tile 4 no-frames
";
    vec![
        case("kind_0", List::new().raw(&[0]), &["list refused 53"]),
        case("kind_3", List::new().raw(&[3, 0]), &["list refused 53"]),
        case("kind_1_alone", List::new().raw(&[1]), &["list refused 52"]),
        case("kind_2_alone", List::new().raw(&[2]), &["list refused 52"]),
        case("frame_cut_by_a_byte", cut_frame, &[sent, "list refused 52"]),
        case("frame_without_bytes", no_bytes_yet, &[sent, "list refused 52"]),
        case("kind_9_behind_a_frame", first.clone().raw(&[9]), &[sent, "list refused 53"]),
        case(
            "kind_9_ends_the_walk",
            first.clone().raw(&[9]).release(0),
            &[sent, "list refused 53"],
        ),
        Case::of_lists("tiles_behind_53", CUT, &open()).list(first.raw(&[3])).output(output),
        // A cut record that would be refused is 52 all the same.
        case("cut_with_port_9", List::new().raw(&[1, 9, 0]), &["list refused 52"]),
    ]
}

/// A list of this many bytes: K's one frame, then releases of partition 7, cut where it must be.
fn list_of(bytes: usize) -> Vec<u8> {
    let mut list = List::new().frame(0, 1, &Frame::to(A)).bytes;
    while list.len() + 2 <= bytes {
        list.extend([2, 7]);
    }
    list.resize(bytes, 2);
    list
}

fn sizes() -> Vec<Case> {
    let sent = "frame 1 sent 30 vlan 1 prio 0 tags 0 queues 0 0 0 0 0";
    // 5 + 72 bytes of head and frame, 8,153 releases of 2 bytes, and one byte of a cut one.
    let mut most = vec![sent];
    most.extend(vec!["refused 37"; 8153]);
    most.push("list refused 52");
    let garbage = vec![0; MOST_BYTES + 1];
    vec![
        Case::of_lists("16384_bytes_run", SIZE, &open())
            .list_bytes(list_of(MOST_BYTES))
            .lines(&most),
        Case::of_lists("16385_bytes_run_nothing", SIZE, &open())
            .list_bytes(list_of(MOST_BYTES + 1))
            .output(&nothing_run(54)),
        Case::of_lists("54_before_50", SIZE, &open())
            .list_bytes(garbage.clone())
            .output(&nothing_run(54)),
        Case::of_lists("16384_bytes_of_garbage", SIZE, &open())
            .list_bytes(garbage[1..].to_vec())
            .output(&nothing_run(50)),
    ]
}

fn records() -> Vec<Case> {
    let list = List::new()
        .frame(5, 1, &Frame::to(A))
        .release(8)
        .frame(0, 1, &Frame::to(A))
        .release(0)
        .release(0)
        .frame(0, 1, &Frame::to(A));
    vec![Case::of_lists("refused_records_count", RECORDS, &open()).list(list).lines(&[
        "refused 33",
        "refused 36",
        "frame 3 sent 30 vlan 1 prio 0 tags 0 queues 0 0 0 0 0",
        "release 4 ok",
        "refused 37",
        "frame 6 sent 30 vlan 1 prio 0 tags 0 queues 0 0 0 0 0",
    ])]
}

fn call_refusals() -> Vec<Case> {
    let case = |name, list: List, lines: &[&str]| {
        Case::of_lists(name, REFUSALS, &open()).list(list).lines(lines)
    };
    let last = (1 << 48) - 1;
    let (short, long) = (vec![0; 60], vec![0; 4097]);
    // The last 2^48 - 1 µs give K's meters nothing more than SMAX.
    let at_the_end = List::new()
        .frame(0, last, &Frame::to(A))
        .frame(0, last + 1, &Frame::to(A))
        .frame(0, u64::MAX, &Frame::to(A));
    let partitions =
        open_with(&[(forwarding_parameters::part_spc(7), 0, 1), (policing::PARTITION, 0, 7)]);
    vec![
        case(
            "33_before_34_and_35",
            List::new().frame_of(0, 5, &short).frame_of(5, 1 << 48, &long).frame_of(255, 4, &long),
            &["frame 1 sent 30 vlan 1 prio 0 tags 0 queues 0 0 0 0 0", "refused 33", "refused 33"],
        ),
        case(
            "34_before_35",
            List::new().frame_of(0, 1 << 48, &long).frame_of(0, 7, &long),
            &["refused 34", "refused 35"],
        ),
        case(
            "4096_bytes_are_judged",
            List::new().frame_of(0, 0, &long[1..]).frame_of(0, 0, &long),
            &["frame 1 drop 8", "refused 35"],
        ),
        case(
            "last_time",
            at_the_end,
            &["frame 1 sent 30 vlan 1 prio 0 tags 0 queues 0 0 0 0 0", "refused 34", "refused 34"],
        ),
        case("36_before_37", List::new().release(8).release(255), &["refused 36", "refused 36"]),
        Case::of_lists("37_is_of_that_partition", REFUSALS, &partitions)
            .list(List::new().frame(0, 0, &Frame::to(A)).release(0).release(7).release(7))
            .lines(&[
                "frame 1 sent 30 vlan 1 prio 0 tags 0 queues 0 0 0 0 0",
                "refused 37",
                "release 3 ok",
                "refused 37",
            ]),
    ]
}

/// Shares whose bits have letters: 1/3 of the frames; 63 of 63 + 2 x 64 octets.
fn shares() -> Vec<Case> {
    let list = List::new().frame(2, 0, &Frame::to(A)).frame(2, 0, &Frame::to(A).length(59)).frame(
        2,
        0,
        &Frame::to(A),
    );
    // 1/3 is 1.0101..b x 2^-2, rounded down; 63/191 comes from long division in whole numbers.
    let output = format!(
        "\
config loaded
frame 1 sent 27 vlan 1 prio 0 tags 0 queues 0 0 0 0 0
frame 2 drop 1
frame 3 sent 27 vlan 1 prio 0 tags 0 queues 0 0 0 0 0
tile 0 no-frames
tile 1 no-frames
tile 2 frames 3 drops 1 share 3fd5555555555555 octets {:016x}
tile 3 no-frames
tile 4 no-frames
",
        nearest_share(63, 191)
    );
    vec![Case::of_lists("shares_of_three", SHARES, &open()).list(list).output(&output)]
}

/// The bits of part / whole by long division in whole numbers, rounded to nearest, ties to even.
/// For 0 < part <= whole; made without any f64.
pub fn nearest_share(part: u128, whole: u128) -> u64 {
    let mut exponent = 1023;
    let mut scaled = part;
    while scaled < whole {
        scaled *= 2;
        exponent -= 1;
    }
    // 1 <= scaled / whole < 2: 52 bits behind the point.
    let quotient = (scaled << 52) / whole;
    let remainder = (scaled << 52) % whole;
    let above_half = 2 * remainder > whole;
    let tie_to_even = 2 * remainder == whole && quotient % 2 == 1;
    let rounded = quotient + u128::from(above_half || tie_to_even);
    // A carry out of the fraction raises the exponent, as it must.
    ((exponent as u128 - 1) * (1 << 52) + rounded) as u64
}
