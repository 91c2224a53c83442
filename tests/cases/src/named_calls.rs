//! Named cases that only calls can tell apart: writes and load states, edited images and ledgers.
//! Each gives Ok, or says what came out otherwise than its clause has it.

use reference::image::{count_place, make_zero, start_of, IMAGE_WORDS, MARK};
use reference::judge::{judge, release, ReleaseAnswer, Verdict};
use reference::k;
use reference::ledger::{fresh_ledger, no_ledger, Ledger, METERS};
use reference::load::{load_bytes, load_words, write, LoadAnswer, LoadState};
use reference::stream::{plain_stream, Lists};
use reference::tables::{address_lookup, forwarding_parameters, mac_configuration, policing};
use reference::tables::{vlan_lookup, Table};
use reference::tile::{tile, TileAnswer};

use crate::build::{open, with_address, with_vlan, Address, Frame, A, B, C};
use crate::edit::put_value;

pub type CallCase = (&'static str, &'static str, fn() -> Result<(), String>);

const WRITES: &str = "decisions, Writes and the load state";
const FRAMES: &str = "decisions, Frames";

pub const CASES: [CallCase; 27] = [
    ("count_rises_with_the_checksum", WRITES, count_rises_with_the_checksum),
    ("data_stands_behind_the_counted_entries", WRITES, data_stands_in_place),
    ("first_write_zeroes", WRITES, first_write_zeroes),
    ("refused_first_writes_begin_nothing", WRITES, refused_first_writes_begin_nothing),
    ("order_31_30_32", WRITES, order_31_30_32),
    ("30_leaves_all_and_goes_on", WRITES, refusal_30_goes_on),
    ("30_comes_before_a_repeated_answer", WRITES, refusals_before_a_repeated_answer),
    ("30_is_not_for_first_writes_and_whole_loads", WRITES, no_30_at_the_start),
    ("repeated_answer_writes_nothing", WRITES, repeated_answer_writes_nothing),
    ("words_behind_the_answer", WRITES, words_behind_the_answer),
    ("state_behind_an_answer", WRITES, state_behind_an_answer),
    ("more_is_never_marked", WRITES, more_is_never_marked),
    ("refused_leaves_zeros_and_the_rest", WRITES, refused_leaves_zeros),
    ("9_and_31_leave_all", WRITES, refusals_9_and_31_leave_all),
    ("layout_of_the_image", WRITES, layout_of_the_image),
    ("mark_is_exactly_1", WRITES, mark_is_exactly_1),
    ("an_edit_in_range_is_believed", WRITES, an_edit_in_range_is_believed),
    ("30_looks_at_mark_and_counts_only", FRAMES, rules_21_to_25_are_not_asked_again),
    ("drops_1_to_8_leave_the_meters", FRAMES, early_drops_leave_the_meters),
    ("first_of_twin_vlans", FRAMES, first_of_twin_vlans),
    ("first_of_twin_indexes", FRAMES, first_of_twin_indexes),
    ("sharindx_63_is_drop_7", FRAMES, sharindx_63_is_drop_7),
    ("entries_beyond_a_count", FRAMES, entries_beyond_a_count),
    ("0d_beyond_its_count", FRAMES, lookup_parameters_beyond_their_count),
    ("order_of_frame_refusals", FRAMES, order_of_frame_refusals),
    ("order_of_tile_answers", FRAMES, order_of_tile_answers),
    ("no_ledger_is_39_everywhere", FRAMES, no_ledger_is_39),
];

/// Ok where they are equal.
pub fn same<T: PartialEq + std::fmt::Debug>(what: &str, got: T, expected: T) -> Result<(), String> {
    if got == expected {
        return Ok(());
    }
    Err(format!("{what}: got {got:?}, expected {expected:?}"))
}

fn dirty() -> Vec<u32> {
    vec![0xA5A5_A5A5; IMAGE_WORDS + 2]
}

fn loaded(lists: &Lists) -> Vec<u32> {
    let mut image = vec![0; IMAGE_WORDS];
    load_words(&mut image, &plain_stream(lists));
    image
}

/// The image and state behind the first words of K's stream, from a dirty buffer.
fn begun(words: usize) -> (Vec<u32>, LoadState) {
    let stream = plain_stream(&k::lists());
    let mut image = dirty();
    let mut state = LoadState::fresh();
    for chunk in stream[..words].chunks(64) {
        state = write(&mut image, state, chunk).1;
    }
    (image, state)
}

const POLICING_COUNT: usize = count_place(Table::L2Policing);

/// K's first block is 06 with 45 entries: words 1 to 3 header, 4 to 93 data, 94 checksum.
fn count_rises_with_the_checksum() -> Result<(), String> {
    let (image, state) = begun(94);
    same("count before the checksum", image[POLICING_COUNT], 0)?;
    same("placed", state.placed, 90)?;
    same("due", state.due, 0)?;
    let (image, _) = begun(95);
    same("count behind the checksum", image[POLICING_COUNT], 45)
}

fn data_stands_in_place() -> Result<(), String> {
    let (image, state) = begun(6);
    let place = start_of(Table::L2Policing);
    same("words placed", &image[place..place + 3], &[0x02F7_0000, 0x03FF_FFE8, 0])?;
    same("placed", state.placed, 2)?;
    same("due", state.due, 88)
}

fn first_write_zeroes() -> Result<(), String> {
    let (image, _) = begun(1);
    same("image", &image[..IMAGE_WORDS], &vec![0; IMAGE_WORDS][..])?;
    same("rest", &image[IMAGE_WORDS..], &[0xA5A5_A5A5; 2])
}

fn refused_first_writes_begin_nothing() -> Result<(), String> {
    let fresh = LoadState::fresh();
    let mut short = vec![7; IMAGE_WORDS - 1];
    same("31", write(&mut short, fresh, &[1]), (LoadAnswer::Refused(31), fresh))?;
    same("short image", short, vec![7; IMAGE_WORDS - 1])?;
    let mut image = dirty();
    for words in [vec![], vec![0x9E00_030E; 65]] {
        let told = write(&mut image, fresh, &words);
        same("32", told, (LoadAnswer::Refused(32), fresh))?;
    }
    same("image", image, dirty())
}

fn order_31_30_32() -> Result<(), String> {
    let (mut image, state) = begun(10);
    image[POLICING_COUNT] = 46;
    let mut short = image[..IMAGE_WORDS - 1].to_vec();
    same("31 first", write(&mut short, state, &[]).0, LoadAnswer::Refused(31))?;
    same("30 before 32", write(&mut image, state, &[]).0, LoadAnswer::Refused(30))?;
    image[POLICING_COUNT] = 0;
    same("32 last", write(&mut image, state, &[]).0, LoadAnswer::Refused(32))
}

fn refusal_30_goes_on() -> Result<(), String> {
    let stream = plain_stream(&k::lists());
    let (mut image, state) = begun(10);
    image[POLICING_COUNT] = u32::MAX;
    let before = image.clone();
    let told = write(&mut image, state, &stream[10..20]);
    same("30", told, (LoadAnswer::Refused(30), state))?;
    same("image", &image, &before)?;
    image[POLICING_COUNT] = 0;
    let mut state = state;
    for chunk in stream[10..198].chunks(47) {
        let (answer, after) = write(&mut image, state, chunk);
        same("more", answer, LoadAnswer::More)?;
        state = after;
    }
    let told = write(&mut image, state, &stream[198..]).0;
    same("goes on", told, LoadAnswer::Loaded)?;
    same("loaded", &image[..IMAGE_WORDS], &loaded(&k::lists())[..])
}

fn refusals_before_a_repeated_answer() -> Result<(), String> {
    for words in [1, 199] {
        let mut image = dirty();
        let mut stream = plain_stream(&k::lists());
        if words == 1 {
            stream = vec![0];
        }
        let mut state = LoadState::fresh();
        for chunk in stream.chunks(64) {
            state = write(&mut image, state, chunk).1;
        }
        let answer = state.answer.ok_or("no answer")?;
        let mut short = image[..IMAGE_WORDS - 1].to_vec();
        same("31", write(&mut short, state, &[1]).0, LoadAnswer::Refused(31))?;
        same("32", write(&mut image, state, &[]).0, LoadAnswer::Refused(32))?;
        same("repeated", write(&mut image, state, &[1]), (answer, state))?;
        image[count_place(Table::L2AddressLookup)] = 1025;
        same("30", write(&mut image, state, &[1]).0, LoadAnswer::Refused(30))?;
    }
    Ok(())
}

fn no_30_at_the_start() -> Result<(), String> {
    // Every count word of the dirty buffer is far above its limit.
    let mut image = dirty();
    let stream = plain_stream(&k::lists());
    let told = write(&mut image, LoadState::fresh(), &stream[..64]).0;
    same("first write", told, LoadAnswer::More)?;
    let mut image = dirty();
    same("whole load", load_words(&mut image, &stream), LoadAnswer::Loaded)
}

fn repeated_answer_writes_nothing() -> Result<(), String> {
    for stream in [plain_stream(&k::lists()), vec![1]] {
        let mut image = dirty();
        let mut state = LoadState::fresh();
        for chunk in stream.chunks(64) {
            state = write(&mut image, state, chunk).1;
        }
        image[5] = 0x1234_5678;
        let before = image.clone();
        let again = write(&mut image, state, &plain_stream(&k::lists())[..64]);
        same("answer", again, (state.answer.ok_or("no answer")?, state))?;
        same("image", image, before)?;
    }
    Ok(())
}

fn words_behind_the_answer() -> Result<(), String> {
    let stream = plain_stream(&k::lists());
    let (mut image, state) = begun(192);
    let mut last = stream[192..].to_vec();
    last.extend([0xFFFF_FFFF; 20]);
    same("loaded", write(&mut image, state, &last).0, LoadAnswer::Loaded)?;
    same("image", &image[..IMAGE_WORDS], &loaded(&k::lists())[..])
}

fn state_behind_an_answer() -> Result<(), String> {
    let stream = plain_stream(&k::lists());
    let (mut image, state) = begun(192);
    let (_, after) = write(&mut image, state, &stream[192..]);
    let expected = |answer| LoadState { begun: true, answer: Some(answer), ..LoadState::fresh() };
    same("behind 0", after, expected(LoadAnswer::Loaded))?;
    let (mut image, state) = begun(192);
    let (_, after) = write(&mut image, state, &[1, 1, 1, 1]);
    // Word 192 is 4E's length: 1 is right, 1 is no header checksum.
    same("behind 2", after, expected(LoadAnswer::Refused(2)))
}

fn more_is_never_marked() -> Result<(), String> {
    for words in 1..199 {
        let (image, state) = begun(words);
        same("mark", image[MARK], 0)?;
        same("answer", state.answer, None)?;
    }
    Ok(())
}

fn refused_leaves_zeros() -> Result<(), String> {
    let mut stream = plain_stream(&k::lists());
    stream[150] ^= 1;
    let mut image = dirty();
    same("7", load_words(&mut image, &stream), LoadAnswer::Refused(7))?;
    let mut expected = dirty();
    make_zero(&mut expected);
    same("zeros", &image, &expected)?;
    let mut image = dirty();
    same("10", load_words(&mut image, &stream[..120]), LoadAnswer::Refused(10))?;
    same("zeros behind 10", &image, &expected)?;
    let mut image = dirty();
    same("10", load_words(&mut image, &[]), LoadAnswer::Refused(10))?;
    same("zeros behind no words", &image, &expected)
}

fn refusals_9_and_31_leave_all() -> Result<(), String> {
    let mut image = dirty();
    same("9", load_bytes(&mut image, &[0; 5]), LoadAnswer::Refused(9))?;
    same("image", &image, &dirty())?;
    let mut short = vec![3; IMAGE_WORDS - 1];
    same("31 before 9", load_bytes(&mut short, &[0; 5]), LoadAnswer::Refused(31))?;
    same("31", load_words(&mut short, &[]), LoadAnswer::Refused(31))?;
    same("short image", short, vec![3; IMAGE_WORDS - 1])
}

/// The pin of all positions, the only one: everywhere else they follow from the rows.
/// By hand: 05 at 0, 06 at 3072, 07 at 3162, 08 at 11354, 09 at 11380, 0D at 11415, 0E at 11416,
/// 11 at 11419, 4E at 11429, 12 at 11430; counts from 11494, mark at 11504, zeros to 11519.
fn layout_of_the_image() -> Result<(), String> {
    let mut lists = with_address(open(), address(A, 4, 9));
    lists.push_zero(Table::L2LookupParameters);
    lists.of_mut(Table::L2LookupParameters)[0][0] = 0x1111_1111;
    lists.of_mut(Table::GeneralParameters)[0][9] = 0x2222_2222;
    lists.of_mut(Table::XmiiModeParameters)[0][0] = 0x3333_3333;
    // VLAN 1 for VLAN 1, without the bits that are not read and with them: 63:59 and 29:0.
    let retagging = [vec![0x4000_0000, 0x0000_0400], vec![0x7FFF_FFFF, 0xF800_0400]];
    lists.of_mut(Table::Retagging).extend(retagging);
    let image = loaded(&lists);
    let expected = [
        // INDEX 9 in bits 29:20, DESTPORTS 4 has its bit 2 at bit 33.
        (0, 0x0090_0000),
        (1, 0x0000_00A2),
        (3072, 0x02F7_0000),
        (3162, 0x0800_0000),
        (3163, 0x003F_F000),
        (11354, 0x1000_0000),
        (11380, 0x0000_0406),
        (11387, 0x0000_0406),
        (11415, 0x1111_1111),
        (11416, 100 << 13),
        (11428, 0x2222_2222),
        (11429, 0x3333_3333),
        (11430, 0x4000_0000),
        (11431, 0x0000_0400),
        (11432, 0x7FFF_FFFF),
        (11433, 0xF800_0400),
        (11434, 0),
    ];
    for (place, word) in expected {
        same(&format!("word {place}"), image[place], word)?;
    }
    let counts = [1, 45, 1, 13, 5, 1, 1, 1, 1, 2];
    same("counts", &image[11494..11504], &counts)?;
    same("mark", image[11504], 1)?;
    same("zeros", &image[11505..], &[0; 15])
}

fn address(address: u64, ports: u64, index: u64) -> Address {
    Address { vlan: 1, address, ports, enforced: false, index }
}

fn mark_is_exactly_1() -> Result<(), String> {
    let mut image = loaded(&k::lists());
    let ledger = fresh_ledger(&image).map_err(|number| format!("refused {number}"))?;
    for mark in [0, 2, 3, 0x0100_0000, u32::MAX] {
        image[MARK] = mark;
        same("fresh", fresh_ledger(&image), Err(30))?;
        let (told, after) = judge(&image, ledger, 0, 0, &[0; 60]);
        same("frame", (told.verdict, after), (Verdict::Refused(30), ledger))?;
        let told = release(&image, ledger, 0);
        same("release", told, (ReleaseAnswer::Refused(30), ledger))?;
        same("tile", tile(&image, &ledger, 0), TileAnswer::NotLoaded)?;
    }
    Ok(())
}

/// A count of 07 put to 1 before its block comes: VLAN 1 then stands second, behind a zero entry.
fn an_edit_in_range_is_believed() -> Result<(), String> {
    let stream = plain_stream(&k::lists());
    let (mut image, mut state) = begun(95);
    image[count_place(Table::VlanLookup)] = 1;
    for chunk in stream[95..].chunks(64) {
        state = write(&mut image, state, chunk).1;
    }
    same("answer", state.answer, Some(LoadAnswer::Loaded))?;
    same("count", image[count_place(Table::VlanLookup)], 2)?;
    let first = start_of(Table::VlanLookup);
    let expected = [0, 0, 0x0800_0000, 0x003F_F000];
    same("entries", &image[first..first + 4], &expected)
}

/// An edited image that rules 21 to 25 would refuse is judged: 30 asks the mark and the counts.
fn rules_21_to_25_are_not_asked_again() -> Result<(), String> {
    let lists = with_address(open(), address(C, 1, 3));
    let mut image = loaded(&with_address(lists, address(C, 1, 4)));
    for partition in 0..8 {
        put_value(&mut image, forwarding_parameters::part_spc(partition), 0, 1023);
    }
    put_value(&mut image, address_lookup::INDEX, 1, 3);
    put_value(&mut image, mac_configuration::VLANID, 4, 99);
    put_value(&mut image, policing::SHARINDX, 44, 63);
    same("judged", ports_or_drop(&image, &Frame::to(A))?, 30)?;
    let ledger = fresh_ledger(&image).map_err(|number| format!("refused {number}"))?;
    same("units", ledger.units, [1023; 8])?;
    // Port 4's VLAN has no entry now, and its broadcasts' SHARINDX none either.
    let told = judge(&image, ledger, 4, 0, &Frame::to(A).bytes()).0;
    same("VLAN 99", told.verdict, Verdict::Drop(4))?;
    let told = judge(&image, ledger, 4, 0, &Frame::broadcast().tagged(0, 1).bytes()).0;
    same("SHARINDX 63", told.verdict, Verdict::Drop(7))
}

/// Drops 1, 2, 3, 4, 5, 6, 7, 8: meters and units are as before, the last time and tile are not.
fn early_drops_leave_the_meters() -> Result<(), String> {
    let mut lists = with_address(open(), address(B, 0b00010, 0));
    lists.put(address_lookup::ENFPORT, 0, 1);
    lists.put(mac_configuration::INGRESS, 1, 0);
    lists.put(mac_configuration::DRPUNTAG, 2, 1);
    lists.put(vlan_lookup::VMEMB_PORT, 0, 0b11011);
    lists.put(policing::MAXLEN, 24, 63);
    lists.of_mut(Table::L2Policing).truncate(40);
    let image = loaded(&lists);
    let mut ledger = fresh_ledger(&image).map_err(|number| format!("refused {number}"))?;
    ledger.meters[24].credit = 5;
    let from_c = |destination| Frame::to(destination).from(C);
    let asked = [
        (1, 3, from_c(A).length(59)),
        (2, 1, from_c(A)),
        (3, 2, from_c(A)),
        (4, 0, from_c(A).tagged(0, 9)),
        (5, 2, from_c(A).tagged(0, 1)),
        (6, 3, Frame::to(A)),
        (7, 3, Frame::broadcast().from(C)),
        (8, 3, from_c(A)),
    ];
    for (drop, port, frame) in asked {
        let (told, after) = judge(&image, ledger, port, 77, &frame.bytes());
        same("drop", told.verdict, Verdict::Drop(drop))?;
        same("meters", after.meters, ledger.meters)?;
        same("units", after.units, ledger.units)?;
        same("last time", after.last_time, 77)?;
        same("frames", after.ports[port as usize].frames, 1)?;
        same("drops", after.ports[port as usize].drops, 1)?;
    }
    Ok(())
}

/// The ports a frame is sent to, or the drop as a negative number.
fn ports_or_drop(image: &[u32], frame: &Frame) -> Result<i64, String> {
    let ledger = fresh_ledger(image).map_err(|number| format!("refused {number}"))?;
    match judge(image, ledger, 0, 0, &frame.bytes()).0.verdict {
        Verdict::Sent(sent) => Ok(i64::from(sent.ports)),
        Verdict::Drop(drop) => Ok(-i64::from(drop)),
        Verdict::Refused(number) => Err(format!("refused {number}")),
    }
}

/// A second VLAN 1 that lets only port 1 send, put behind the first by an edit.
fn first_of_twin_vlans() -> Result<(), String> {
    let mut image = loaded(&with_vlan(open(), 2, 0b00010, 0b00010, 0));
    put_value(&mut image, vlan_lookup::VLANID, 1, 1);
    same("first counts", ports_or_drop(&image, &Frame::to(A))?, 30)
}

fn first_of_twin_indexes() -> Result<(), String> {
    let lists = with_address(open(), address(A, 0b00010, 8));
    let lists = with_address(lists, address(A, 0b00100, 9));
    let mut image = loaded(&lists);
    put_value(&mut image, address_lookup::INDEX, 1, 8);
    same("first counts", ports_or_drop(&image, &Frame::to(A))?, 2)
}

fn sharindx_63_is_drop_7() -> Result<(), String> {
    let mut image = loaded(&open());
    for (sharindx, expected) in [(44, 30), (45, -7), (63, -7)] {
        put_value(&mut image, policing::SHARINDX, 0, sharindx);
        same("SHARINDX", ports_or_drop(&image, &Frame::to(A))?, expected)?;
    }
    Ok(())
}

/// VLAN 2 and address A stand in the image behind the counts.
fn entries_beyond_a_count() -> Result<(), String> {
    let lists = with_vlan(open(), 2, 31, 31, 0);
    let mut image = loaded(&with_address(lists, address(A, 0b00010, 0)));
    let tagged = Frame::to(C).tagged(0, 2);
    same("VLAN 2 loaded", ports_or_drop(&image, &tagged)?, 30)?;
    same("A loaded", ports_or_drop(&image, &Frame::to(A))?, 2)?;
    image[count_place(Table::VlanLookup)] = 1;
    image[count_place(Table::L2AddressLookup)] = 0;
    same("VLAN 2 not counted", ports_or_drop(&image, &tagged)?, -4)?;
    same("A not counted", ports_or_drop(&image, &Frame::to(A))?, 30)?;
    image[count_place(Table::L2Policing)] = 40;
    same("40 not counted", ports_or_drop(&image, &Frame::broadcast())?, -7)
}

fn lookup_parameters_beyond_their_count() -> Result<(), String> {
    let elsewhere = Address { vlan: 2, ..address(A, 0b00010, 0) };
    let mut image = loaded(&with_address(open(), elsewhere));
    image[start_of(Table::L2LookupParameters)] = u32::MAX;
    same("count 0", ports_or_drop(&image, &Frame::to(A))?, 30)?;
    image[count_place(Table::L2LookupParameters)] = 1;
    same("count 1", ports_or_drop(&image, &Frame::to(A))?, 2)
}

/// 31, 30, 39, 33, 34, 35, 38: everything wrong at once, mended one by one.
fn order_of_frame_refusals() -> Result<(), String> {
    let mut image = loaded(&open());
    let mut ledger = fresh_ledger(&image).map_err(|number| format!("refused {number}"))?;
    ledger.units[0] = 101;
    ledger.ports[0].frames = (1 << 32) - 1;
    ledger.ports[0].octets = 64 * ((1 << 32) - 1);
    ledger.last_time = 10;
    let long = vec![0; 4097];
    let short = image[..IMAGE_WORDS - 1].to_vec();
    let ask = |image: &[u32], ledger: Ledger, port, time, frame: &[u8]| {
        let (judged, after) = judge(image, ledger, port, time, frame);
        (judged.verdict, after == ledger)
    };
    let told = |number| (Verdict::Refused(number), true);
    same("31", ask(&short, ledger, 5, 9, &long), told(31))?;
    image[MARK] = 0;
    same("30", ask(&image, ledger, 5, 9, &long), told(30))?;
    image[MARK] = 1;
    same("39", ask(&image, ledger, 5, 9, &long), told(39))?;
    ledger.units[0] = 100;
    same("33", ask(&image, ledger, 5, 9, &long), told(33))?;
    same("34", ask(&image, ledger, 0, 9, &long), told(34))?;
    same("35", ask(&image, ledger, 0, 10, &long), told(35))?;
    same("38", ask(&image, ledger, 0, 10, &[]), told(38))?;
    // Another port's count does not refuse.
    same("port 1", ask(&image, ledger, 1, 10, &[]), (Verdict::Drop(1), false))
}

/// 31, 33, not-loaded, 39: with a bad ledger and port 9 a frame gets 39 and a tile 33.
fn order_of_tile_answers() -> Result<(), String> {
    let mut image = loaded(&open());
    let mut ledger = fresh_ledger(&image).map_err(|number| format!("refused {number}"))?;
    ledger.last_time = 1 << 48;
    let short = image[..IMAGE_WORDS - 1].to_vec();
    same("31", tile(&short, &ledger, 9), TileAnswer::Refused(31))?;
    same("33", tile(&image, &ledger, 9), TileAnswer::Refused(33))?;
    let frame = judge(&image, ledger, 9, 0, &[0; 60]).0;
    same("a frame's 39", frame.verdict, Verdict::Refused(39))?;
    image[MARK] = 0;
    same("33 before not-loaded", tile(&image, &ledger, 5), TileAnswer::Refused(33))?;
    same("not-loaded", tile(&image, &ledger, 4), TileAnswer::NotLoaded)?;
    image[MARK] = 1;
    same("39", tile(&image, &ledger, 4), TileAnswer::Refused(39))?;
    ledger.last_time = 0;
    same("no-frames", tile(&image, &ledger, 4), TileAnswer::NoFrames)
}

/// Under every image that is loaded; here under two that differ in everything 39 compares with.
fn no_ledger_is_39() -> Result<(), String> {
    let mut zero = open();
    for number in 0..METERS {
        zero.put(policing::SMAX, number, 0);
    }
    for image in [loaded(&open()), loaded(&zero)] {
        let told = judge(&image, no_ledger(), 0, 1 << 48, &[0; 60]).0;
        same("frame", told.verdict, Verdict::Refused(39))?;
        let told = release(&image, no_ledger(), 0).0;
        same("release", told, ReleaseAnswer::Refused(39))?;
        same("tile", tile(&image, &no_ledger(), 0), TileAnswer::Refused(39))?;
    }
    same("fresh of zeros", fresh_ledger(&[0; IMAGE_WORDS]), Err(30))?;
    same("fresh of few", fresh_ledger(&[0; IMAGE_WORDS - 1]), Err(31))
}
