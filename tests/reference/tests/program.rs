//! The program itself: arguments, files that are none, lists that break off, endless input.

use std::fs;
use std::io::{self, Read, Write};
use std::path::PathBuf;
use std::process::{Command, Stdio};

use reference::k;
use reference::program::run;
use reference::stream::{bytes_of, plain_stream};

/// A folder of this test's own.
fn folder(name: &str) -> PathBuf {
    let folder = PathBuf::from(env!("CARGO_TARGET_TMPDIR")).join(name);
    fs::create_dir_all(&folder).unwrap();
    folder
}

/// Runs the program; it must always end well.
fn output(arguments: &[&str], list: &[u8]) -> String {
    let mut child = Command::new(env!("CARGO_BIN_EXE_reference"))
        .args(arguments)
        .stdin(Stdio::piped())
        .stdout(Stdio::piped())
        .spawn()
        .unwrap();
    // The list is not read behind a refused stream: the pipe may be closed by then.
    let _ = child.stdin.take().unwrap().write_all(list);
    let done = child.wait_with_output().unwrap();
    assert_eq!(done.status.code(), Some(0));
    String::from_utf8(done.stdout).unwrap()
}

fn refused(number: u32) -> String {
    let mut lines = format!("config refused {number}\n");
    for port in 0..5 {
        lines.push_str(&format!("tile {port} not-loaded\n"));
    }
    lines
}

fn k_stream() -> Vec<u8> {
    bytes_of(&plain_stream(&k::lists()))
}

#[test]
fn k_from_a_file() {
    let file = folder("k").join("k.bin");
    fs::write(&file, k_stream()).unwrap();
    let file = file.to_str().unwrap();
    assert_eq!(output(&[file], &k::list()), k::OUTPUT);
    // Further arguments are not read.
    assert_eq!(output(&[file, "more"], &k::list()), k::OUTPUT);
}

#[test]
fn no_argument_no_file_and_a_folder_are_10() {
    let folder = folder("none");
    let missing = folder.join("missing.bin");
    assert_eq!(output(&[], &k::list()), refused(10));
    assert_eq!(output(&[""], &k::list()), refused(10));
    assert_eq!(output(&[missing.to_str().unwrap()], &[]), refused(10));
    assert_eq!(output(&[folder.to_str().unwrap()], &[]), refused(10));
}

#[test]
fn empty_is_10_and_odd_lengths_are_9() {
    let file = folder("lengths").join("some.bin");
    let path = file.to_str().unwrap();
    fs::write(&file, []).unwrap();
    assert_eq!(output(&[path], &k::list()), refused(10));
    for odd in [1, 2, 3, 5, 795, 797] {
        let mut bytes = k_stream();
        bytes.resize(odd, 0);
        fs::write(&file, bytes).unwrap();
        assert_eq!(output(&[path], &k::list()), refused(9), "{odd} bytes");
    }
}

#[cfg(target_os = "linux")]
#[test]
fn endless_files_come_to_an_end() {
    // Word 0 of /dev/zero is 0, and an endless list is over 16,384 bytes.
    assert_eq!(output(&["/dev/zero"], &k::list()), refused(1));
    assert_eq!(output(&["/dev/null"], &k::list()), refused(10));
    let file = folder("endless").join("k.bin");
    fs::write(&file, k_stream()).unwrap();
    let done = Command::new(env!("CARGO_BIN_EXE_reference"))
        .arg(&file)
        .stdin(fs::File::open("/dev/zero").unwrap())
        .output()
        .unwrap();
    let printed = String::from_utf8(done.stdout).unwrap();
    assert!(printed.starts_with("config loaded\nlist refused 54\ntile 0 no-frames\n"));
}

/// Counted up to 2^32 bytes; past them 9 is not asked and the writes' answer decides.
#[test]
fn the_counting_budget() {
    let stream = k_stream();
    let zeros = |bytes: u64| (&stream[..]).chain(io::repeat(0)).take(bytes);
    let endless = run(&|| Ok((&stream[..]).chain(io::repeat(0))), &mut &k::list()[..]);
    assert_eq!(endless, k::OUTPUT);
    let odd_past = run(&|| Ok(zeros((1 << 32) + 1)), &mut &k::list()[..]);
    assert_eq!(odd_past, k::OUTPUT);
    let odd_within = run(&|| Ok(zeros((1 << 32) - 1)), &mut &k::list()[..]);
    assert_eq!(odd_within, refused(9));
    let whole = run(&|| Ok(zeros(1 << 32)), &mut &k::list()[..]);
    assert_eq!(whole, k::OUTPUT);
}

/// Bytes one at a time, then an error.
struct BreaksOff<'a> {
    left: &'a [u8],
}

impl Read for BreaksOff<'_> {
    fn read(&mut self, buffer: &mut [u8]) -> io::Result<usize> {
        let (Some(byte), Some(place)) = (self.left.first(), buffer.first_mut()) else {
            return Err(io::Error::other("broke off"));
        };
        *place = *byte;
        self.left = &self.left[1..];
        Ok(1)
    }
}

#[test]
fn a_list_that_breaks_off_is_cut_also_between_two_records() {
    let stream = k_stream();
    let list = k::list();
    // Behind the two frames of K: 5 + 2 x 72 bytes.
    let printed = run(&|| Ok(&stream[..]), &mut BreaksOff { left: &list[..149] });
    let expected = "\
config loaded
frame 1 sent 30 vlan 1 prio 0 tags 0 queues 0 0 0 0 0
frame 2 drop 11
list refused 52
tile 0 frames 2 drops 1 share 3fe0000000000000 octets 3fe0000000000000
tile 1 no-frames
tile 2 no-frames
tile 3 no-frames
tile 4 no-frames
";
    assert_eq!(printed, expected);
}

#[test]
fn a_stream_that_breaks_off_is_10() {
    let stream = k_stream();
    let printed = run(&|| Ok(BreaksOff { left: &stream }), &mut &k::list()[..]);
    assert_eq!(printed, refused(10));
}

/// The first pass counts, the second writes: a file that changes between them ends at "more".
#[test]
fn a_stream_gone_at_the_second_reading_is_10() {
    let stream = k_stream();
    let asked = std::cell::Cell::new(0);
    let open = || {
        asked.set(asked.get() + 1);
        if asked.get() == 1 {
            Ok(&stream[..])
        } else {
            Err(io::Error::other("gone"))
        }
    };
    assert_eq!(run(&open, &mut &k::list()[..]), refused(10));
    assert_eq!(asked.get(), 2);
}
