//! What is stated outright: K's whole output and the rows (c) to (k) of document 01, and the output that
//! is worked for request 2 of document 02. Rows (a) and (b) stand beside the fields, in `tables.rs`.

use reference::image::{self, IMAGE_WORDS};
use reference::judge::{judge, Verdict};
use reference::k;
use reference::ledger::{fresh_ledger, Ledger};
use reference::load::{load_words, LoadAnswer};
use reference::program::output_for;
use reference::stream::{bytes_of, plain_stream, stream_of, Block, End, Lists, DEVICE_ID};
use reference::tables::{forwarding_parameters, policing, Table};

fn answer_to(words: &[u32]) -> LoadAnswer {
    load_words(&mut vec![0xAAAA_AAAA; IMAGE_WORDS], words)
}

fn image_of(lists: &Lists) -> Vec<u32> {
    let mut image = vec![0xAAAA_AAAA; IMAGE_WORDS];
    assert_eq!(load_words(&mut image, &plain_stream(lists)), LoadAnswer::Loaded);
    image
}

#[test]
fn the_whole_output_for_k() {
    let stream = bytes_of(&plain_stream(&k::lists()));
    assert_eq!(output_for(&stream, &k::list()), k::OUTPUT);
}

/// K with VLAN 2, three units and one retagging entry, by the words that the decisions give.
fn k_with_retagging() -> Lists {
    let mut lists = k::lists();
    lists.of_mut(Table::VlanLookup).push(vec![0x1000_0000, 0x003F_FF80]);
    lists.put(forwarding_parameters::part_spc(0), 0, 3);
    lists.of_mut(Table::Retagging).push(vec![0x8000_0000, 0x0040_0400]);
    lists
}

/// Broadcasts of 60 bytes on port 0 at 10 and 20, release of 0, the same on port 1 at 30, 59 bytes on
/// port 0 at 40.
fn list_with_replicas() -> Vec<u8> {
    let mut list = b"FRL\x00\x01".to_vec();
    for (port, time, length) in [(0, 10, 60), (0, 20, 60), (1, 30, 60), (0, 40, 59)] {
        if time == 30 {
            list.extend([2, 0]);
        }
        list.extend([1, port, 0, 0, 0, 0, 0, 0, 0, time, 0, length]);
        list.extend([0xFF; 6]);
        list.extend(vec![0; usize::from(length) - 6]);
    }
    list
}

/// Copied from the decisions on request 2.
#[test]
fn the_whole_output_for_k_with_retagging() {
    let expected = "\
config loaded
frame 1 sent 30 vlan 1 prio 0 tags 0 queues 0 0 0 0 0
replica 1 sent 30 vlan 2 prio 0 tags 30 queues 0 0 0 0 0
frame 2 sent 30 vlan 1 prio 0 tags 0 queues 0 0 0 0 0
replica 2 drop 11
release 3 ok
frame 4 sent 29 vlan 1 prio 0 tags 0 queues 0 0 0 0 0
frame 5 drop 1
tile 0 frames 3 drops 1 share 3fd5555555555555 octets 3fd51c25875f298d
tile 1 frames 1 drops 0 share 0000000000000000 octets 0000000000000000
tile 2 no-frames
tile 3 no-frames
tile 4 no-frames
";
    let stream = bytes_of(&plain_stream(&k_with_retagging()));
    assert_eq!(output_for(&stream, &list_with_replicas()), expected);
}

#[test]
fn a_loaded_image_is_fixed_by_the_lists() {
    for lists in [k::lists(), k_with_retagging()] {
        assert_eq!(image_of(&lists), image::of_lists(&lists));
    }
}

/// Word 0 and one whole header for 07; no data follows.
fn header_for_07(length: usize) -> Vec<u32> {
    let block = Block::plain(0x07, vec![0; length]);
    let mut words = vec![DEVICE_ID];
    words.extend(&block.words()[..3]);
    words
}

#[test]
fn row_c_length_3_is_5() {
    assert_eq!(answer_to(&header_for_07(3)), LoadAnswer::Refused(5));
}

#[test]
fn row_d_length_8192_fits() {
    // The header passes: what is missing is the data.
    assert_eq!(answer_to(&header_for_07(8192)), LoadAnswer::Refused(10));
    let block = Block::plain(0x07, vec![0; 8192]);
    // Whole, it passes all framing; the other tables are absent.
    let words = stream_of(&[block], End::default());
    assert_eq!(answer_to(&words), LoadAnswer::Refused(20));
}

#[test]
fn row_e_length_8194_is_6() {
    assert_eq!(answer_to(&header_for_07(8194)), LoadAnswer::Refused(6));
}

fn k_with_partition_sum(sum: u64) -> Lists {
    let mut lists = k::lists();
    lists.put(forwarding_parameters::part_spc(0), 0, sum - 7 * 50);
    for partition in 1..8 {
        lists.put(forwarding_parameters::part_spc(partition), 0, 50);
    }
    lists
}

#[test]
fn rows_f_and_g_929_passes_930_is_24() {
    let passes = plain_stream(&k_with_partition_sum(929));
    let refused = plain_stream(&k_with_partition_sum(930));
    assert_eq!(answer_to(&passes), LoadAnswer::Loaded);
    assert_eq!(answer_to(&refused), LoadAnswer::Refused(24));
}

/// The verdict on a broadcast with L 64 on port 0, after so long, from credit 0.
fn verdict_from_credit_0(smax: u64, rate: u64, elapsed: u64) -> Verdict {
    let mut lists = k::lists();
    lists.put(policing::SMAX, 40, smax);
    lists.put(policing::RATE, 40, rate);
    let image = image_of(&lists);
    let mut ledger: Ledger = fresh_ledger(&image).unwrap();
    ledger.meters[40].credit = 0;
    judge(&image, ledger, 0, elapsed, &[0xFF; 60]).0.verdict
}

#[test]
fn rows_h_and_i_512_microseconds_pay_64_bytes() {
    assert_eq!(verdict_from_credit_0(64, 64, 511), Verdict::Drop(9));
    assert!(matches!(verdict_from_credit_0(64, 64, 512), Verdict::Sent(_)));
}

#[test]
fn row_j_smax_63_never_passes_64() {
    for elapsed in [0, 511, 512, 513, 1 << 20, (1 << 48) - 1] {
        assert_eq!(verdict_from_credit_0(63, 64, elapsed), Verdict::Drop(9));
        assert_eq!(verdict_from_credit_0(63, 65_535, elapsed), Verdict::Drop(9));
    }
}

#[test]
fn row_k_63_drops_64_goes_on() {
    let image = image_of(&k::lists());
    let ledger = fresh_ledger(&image).unwrap();
    let (short, _) = judge(&image, ledger, 0, 0, &[0xFF; 59]);
    let (enough, _) = judge(&image, ledger, 0, 0, &[0xFF; 60]);
    assert_eq!(short.verdict, Verdict::Drop(1));
    assert!(matches!(enough.verdict, Verdict::Sent(_)));
}

#[test]
fn an_absent_table_is_not_one_zero_entry() {
    let mut lists = k::lists();
    lists.of_mut(Table::XmiiModeParameters).clear();
    assert_eq!(answer_to(&plain_stream(&lists)), LoadAnswer::Refused(20));
}
