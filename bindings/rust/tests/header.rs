//! The header for C and this crate say the same: names with their numbers, functions, and the layout of each struct.

use std::collections::BTreeMap;
use std::mem::{offset_of, size_of};
use std::path::Path;

use tailbow::raw::{FlatJudged, FlatLedger, FlatLoad, FlatRecord, FlatTile, FlatVerdict};
use tailbow::{DropCause, Refusal};

fn text(name: &str) -> String {
    let file = Path::new(env!("CARGO_MANIFEST_DIR")).join(name);
    std::fs::read_to_string(&file).unwrap_or_else(|error| panic!("{}: {error}", file.display()))
}

fn header() -> String {
    text("../../include/tailbow.h")
}

/// The numbers of the header's names that begin so, without that beginning.
fn defined(beginning: &str) -> BTreeMap<String, u32> {
    let mut numbers = BTreeMap::new();
    for line in header().lines() {
        let mut parts = line.split_whitespace();
        let (Some("#define"), Some(name), Some(value)) = (parts.next(), parts.next(), parts.next())
        else {
            continue;
        };
        if let Some(rest) = name.strip_prefix(beginning) {
            let number = value.trim_end_matches('u').parse().unwrap();
            assert_eq!(numbers.insert(rest.to_string(), number), None, "{name} twice");
        }
    }
    numbers
}

/// `WordZero` as `WORD_ZERO`.
fn upper(name: &str) -> String {
    let mut upper = String::new();
    for letter in name.chars() {
        if letter.is_uppercase() && !upper.is_empty() {
            upper.push('_');
        }
        upper.push(letter.to_ascii_uppercase());
    }
    upper
}

#[test]
fn refusals_have_the_same_names_and_numbers() {
    let ours: BTreeMap<String, u32> = Refusal::ALL
        .iter()
        .map(|refusal| (upper(&format!("{refusal:?}")), refusal.number()))
        .collect();
    assert_eq!(defined("TAILBOW_REFUSED_"), ours);
    // Document 01's numbers, 28 of document 02, and no other.
    let numbers: Vec<u32> = Refusal::ALL.iter().map(|refusal| refusal.number()).collect();
    let expected: Vec<u32> =
        (1..=10).chain(20..=25).chain([28]).chain(30..=39).chain(50..=54).collect();
    assert_eq!(numbers, expected);
    for number in 0..100 {
        let found = Refusal::of_number(number).map(Refusal::number);
        assert_eq!(found, expected.contains(&number).then_some(number));
    }
}

#[test]
fn drops_have_the_same_names_and_numbers() {
    let ours: BTreeMap<String, u32> =
        DropCause::ALL.iter().map(|cause| (upper(&format!("{cause:?}")), cause.number())).collect();
    assert_eq!(defined("TAILBOW_DROP_"), ours);
    let numbers: Vec<u32> = DropCause::ALL.iter().map(|cause| cause.number()).collect();
    assert_eq!(numbers, (1..=11).collect::<Vec<u32>>());
    for number in 0..100 {
        let found = DropCause::of_number(number).map(DropCause::number);
        assert_eq!(found, (1..=11).contains(&number).then_some(number));
    }
}

/// The names in front of a parenthesis that begin like an entry's, outside comments.
fn functions(text: &str) -> Vec<String> {
    let mut names = Vec::new();
    for line in text.lines() {
        let line = line.trim_start();
        if line.starts_with('*') || line.starts_with("/*") || line.starts_with("//") {
            continue;
        }
        let before = line.split('(').next().unwrap_or("");
        let name = before.split([' ', '*']).next_back().unwrap_or("");
        if line.contains('(') && name.starts_with("tailbow_") {
            names.push(name.to_string());
        }
    }
    names.sort();
    names
}

#[test]
fn both_declare_the_same_functions() {
    let ours = text("src/raw.rs");
    let declared =
        &ours[ours.find("extern \"C\"").unwrap()..ours.find("// Each call below").unwrap()];
    let theirs = functions(&header());
    assert_eq!(theirs.len(), 9, "{theirs:?}");
    assert_eq!(theirs, functions(declared));
}

/// The bytes of the field that is read so.
fn length_of<Struct, Field>(_: fn(&Struct) -> &Field) -> usize {
    size_of::<Field>()
}

/// The places and lengths of a struct's fields, and its own length, as the header asserts them.
macro_rules! layout {
    ($lines:ident, $name:literal, $struct:ident, $($field:ident),*) => {
        $($lines.push(format!(
            "TAILBOW_AT({}, {}, {}, {});",
            $name,
            stringify!($field),
            offset_of!($struct, $field),
            length_of(|whole: &$struct| &whole.$field)
        ));)*
        $lines.push(format!("TAILBOW_LONG({}, {});", $name, size_of::<$struct>()));
    };
}

#[test]
fn structs_have_the_same_layout() {
    let mut ours = Vec::new();
    layout!(
        ours,
        "tailbow_load",
        FlatLoad,
        phase,
        told,
        table,
        placed,
        due,
        first,
        second,
        stream,
        block
    );
    layout!(
        ours,
        "tailbow_ledger",
        FlatLedger,
        units,
        credit,
        since,
        frames,
        drops,
        octets,
        dropped,
        last
    );
    layout!(
        ours,
        "tailbow_verdict",
        FlatVerdict,
        kind,
        number,
        ports,
        vlan,
        priority,
        tags,
        queues
    );
    layout!(ours, "tailbow_judged", FlatJudged, verdict, replicas);
    layout!(ours, "tailbow_port_tile", FlatTile, kind, number, share, octets);
    layout!(
        ours,
        "tailbow_record",
        FlatRecord,
        kind,
        number,
        time,
        port,
        partition,
        start,
        count,
        next
    );
    let header = header();
    let asserted: Vec<&str> = header
        .lines()
        .filter(|line| line.starts_with("TAILBOW_AT(") || line.starts_with("TAILBOW_LONG("))
        .collect();
    assert_eq!(asserted, ours);
}

#[test]
fn sizes_and_more_are_the_same() {
    let sizes = [
        ("IMAGE_WORDS", tailbow::IMAGE_WORDS),
        ("WRITE_WORDS", tailbow::WRITE_WORDS),
        ("LIST_BYTES", tailbow::LIST_BYTES),
        ("PORTS", tailbow::PORTS),
        ("REPLICAS", tailbow::REPLICAS),
    ];
    for (name, size) in sizes {
        let line = format!("#define TAILBOW_{name} {size}");
        assert!(header().lines().any(|found| found == line), "{line}");
    }
    let more = format!("#define TAILBOW_MORE 0x{:X}u", tailbow::raw::MORE);
    assert!(header().lines().any(|found| found == more), "{more}");
}
