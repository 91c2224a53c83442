//! Streams that Linux's own driver packed: loading answers, and every entry the texts print.

use std::fs;
use std::path::PathBuf;

use reference::image::{count, entry, FIRST_COUNT, IMAGE_WORDS, MARK};
use reference::k;
use reference::load::{load_bytes, LoadAnswer};
use reference::program::output_for;
use reference::stream::{bytes_of, plain_stream};
use reference::tables::{address_lookup, forwarding, forwarding_parameters, mac_configuration};
use reference::tables::{lookup_parameters, policing, read_field, retagging, vlan_lookup};
use reference::tables::{Field, Table, ROWS};

fn vector(name: &str) -> Vec<u8> {
    let folder = PathBuf::from(env!("CARGO_MANIFEST_DIR")).join("../vectors");
    fs::read(folder.join(name)).unwrap()
}

fn text(name: &str) -> String {
    String::from_utf8(vector(&format!("{name}.txt"))).unwrap()
}

/// Loads a vector and compares its answer with the README's table.
fn load(name: &str, expected: LoadAnswer) -> Vec<u32> {
    let mut image = vec![0x5555_5555; IMAGE_WORDS + 1];
    let answer = load_bytes(&mut image, &vector(&format!("{name}.bin")));
    assert_eq!(answer, expected, "{name}");
    assert_eq!(image[IMAGE_WORDS], 0x5555_5555, "{name}");
    image.truncate(IMAGE_WORDS);
    image
}

#[test]
fn refused_vectors_leave_zeros() {
    for (name, number) in [("16_mem930", 24), ("21_short08", 20)] {
        let image = load(name, LoadAnswer::Refused(number));
        assert_eq!(image, vec![0; IMAGE_WORDS]);
    }
}

#[test]
fn every_entry_stands_as_the_text_prints_it() {
    for name in ["01_min", "02_K", "06_rand", "13_maxfields", "15_mem929"] {
        let image = load(name, LoadAnswer::Loaded);
        let mut expected_counts = [0; ROWS.len()];
        for line in text(name).lines() {
            if let Some((table, number)) = compare_entry(&image, line) {
                assert_eq!(number, expected_counts[table.place()], "{name}: {line}");
                expected_counts[table.place()] += 1;
            }
        }
        for row in ROWS {
            assert_eq!(count(&image, row.table), expected_counts[row.table.place()]);
        }
        assert_eq!(image[MARK], 1);
        assert!(image[MARK + 1..].iter().all(|&word| word == 0));
        assert!(image[FIRST_COUNT..MARK].iter().any(|&word| word != 0));
    }
}

/// An entry line: `ID field=value ... # number: words`.
fn compare_entry(image: &[u32], line: &str) -> Option<(Table, usize)> {
    let (left, right) = line.split_once(" # ")?;
    let (number, words) = right.split_once(": ")?;
    let mut parts = left.split_whitespace();
    let table = Table::of_id(u8::from_str_radix(parts.next()?, 16).ok()?)?;
    let number: usize = number.parse().unwrap();
    let words: Vec<u32> =
        words.split_whitespace().map(|word| u32::from_str_radix(word, 16).unwrap()).collect();
    assert_eq!(entry(image, table, number), words, "{line}");
    let told: Vec<(&str, &str)> = parts.map(|part| part.split_once('=').unwrap()).collect();
    compare_fields(table, &words, &told);
    Some((table, number))
}

/// Fields that the text leaves out are zero.
fn compare_fields(table: Table, words: &[u32], told: &[(&str, &str)]) {
    for (name, places) in fields_of(table) {
        let values: Vec<u64> = match told.iter().find(|(told_name, _)| *told_name == name) {
            Some((_, values)) => values.split(',').map(number).collect(),
            None => vec![0; places.len()],
        };
        for (field, value) in places.iter().zip(values) {
            assert_eq!(read_field(words, *field), value, "{name}");
        }
    }
}

fn number(text: &str) -> u64 {
    match text.strip_prefix("0x") {
        Some(digits) => u64::from_str_radix(digits, 16).unwrap(),
        None => text.parse().unwrap(),
    }
}

/// The used fields of a table under the texts' names; lists run from index 0.
fn fields_of(table: Table) -> Vec<(&'static str, Vec<Field>)> {
    match table {
        Table::L2AddressLookup => vec![
            ("vlanid", vec![address_lookup::VLANID]),
            ("macaddr", vec![address_lookup::MACADDR]),
            ("destports", vec![address_lookup::DESTPORTS]),
            ("enfport", vec![address_lookup::ENFPORT]),
            ("index", vec![address_lookup::INDEX]),
        ],
        Table::L2Policing => vec![
            ("sharindx", vec![policing::SHARINDX]),
            ("smax", vec![policing::SMAX]),
            ("rate", vec![policing::RATE]),
            ("maxlen", vec![policing::MAXLEN]),
            ("partition", vec![policing::PARTITION]),
        ],
        Table::VlanLookup => vec![
            ("vmemb_port", vec![vlan_lookup::VMEMB_PORT]),
            ("vlan_bc", vec![vlan_lookup::VLAN_BC]),
            ("tag_port", vec![vlan_lookup::TAG_PORT]),
            ("vlanid", vec![vlan_lookup::VLANID]),
        ],
        Table::L2Forwarding => vec![
            ("bc_domain", vec![forwarding::BC_DOMAIN]),
            ("reach_port", vec![forwarding::REACH_PORT]),
            ("fl_domain", vec![forwarding::FL_DOMAIN]),
            ("vlan_pmap", (0..8).map(forwarding::vlan_pmap).collect()),
        ],
        Table::MacConfiguration => vec![
            ("vlanprio", vec![mac_configuration::VLANPRIO]),
            ("vlanid", vec![mac_configuration::VLANID]),
            ("drpuntag", vec![mac_configuration::DRPUNTAG]),
            ("egress", vec![mac_configuration::EGRESS]),
            ("ingress", vec![mac_configuration::INGRESS]),
        ],
        Table::L2LookupParameters => {
            vec![("shared_learn", vec![lookup_parameters::SHARED_LEARN])]
        }
        Table::L2ForwardingParameters => {
            vec![("part_spc", (0..8).map(forwarding_parameters::part_spc).collect())]
        }
        Table::GeneralParameters | Table::XmiiModeParameters => vec![],
        Table::Retagging => vec![
            ("ing_port", vec![retagging::ING_PORT]),
            ("vlan_ing", vec![retagging::VLAN_ING]),
            ("vlan_egr", vec![retagging::VLAN_EGR]),
        ],
    }
}

#[test]
fn k_is_built_word_for_word_as_the_driver_packs_it() {
    assert_eq!(bytes_of(&plain_stream(&k::lists())), vector("02_K.bin"));
    assert_eq!(output_for(&vector("02_K.bin"), &k::list()), k::OUTPUT);
}
