//! `cases compare PROGRAM`: runs another program on every case, and on odd files and inputs, and holds its output to the reference's, byte for byte.

use std::fs::{self, File};
use std::io::{self, Write};
use std::path::{Path, PathBuf};
use std::process::{Command, Stdio};

use reference::k;
use reference::program::output_for;
use reference::stream::{bytes_of, plain_stream};

use crate::case::Case;
use crate::files;

/// What was compared: how many agreed, and the names of those that did not.
pub struct Compared {
    pub agreed: usize,
    pub differing: Vec<String>,
}

impl Compared {
    fn note(&mut self, name: &str, expected: &[u8], found: io::Result<Vec<u8>>) {
        match found {
            Ok(found) if found == expected => self.agreed += 1,
            Ok(found) => {
                println!("differs: {name}");
                println!("  expected: {:?}", first_difference(expected, &found));
                println!("  found:    {:?}", first_difference(&found, expected));
                self.differing.push(name.to_string());
            }
            Err(error) => {
                println!("cannot run {name}: {error}");
                self.differing.push(name.to_string());
            }
        }
    }
}

/// The first line in which one output differs from another.
fn first_difference(one: &[u8], other: &[u8]) -> String {
    let (one, other) = (String::from_utf8_lossy(one), String::from_utf8_lossy(other));
    let mut others = other.lines();
    for line in one.lines() {
        if others.next() != Some(line) {
            return line.to_string();
        }
    }
    "(no further line)".to_string()
}

/// Every case in files of its own folder, which is removed afterwards.
pub fn compare(program: &Path, seed: u64, generated_cases: usize) -> io::Result<Compared> {
    let folder = std::env::temp_dir().join(format!("tailbow-compare-{}", std::process::id()));
    fs::create_dir_all(&folder)?;
    let mut compared = Compared { agreed: 0, differing: Vec::new() };
    for case in files::all(seed, generated_cases) {
        let expected = output_for(&case.stream, &case.list).into_bytes();
        compared.note(&case.name, &expected, run_case(program, &folder, &case));
    }
    odd_inputs(program, &folder, &mut compared)?;
    fs::remove_dir_all(&folder)?;
    Ok(compared)
}

fn run_case(program: &Path, folder: &Path, case: &Case) -> io::Result<Vec<u8>> {
    let (stream, list) = (folder.join("stream.bin"), folder.join("list.lst"));
    fs::write(&stream, &case.stream)?;
    fs::write(&list, &case.list)?;
    run(program, &[stream], Stdio::from(File::open(&list)?))
}

fn run(program: &Path, arguments: &[PathBuf], input: Stdio) -> io::Result<Vec<u8>> {
    let output =
        Command::new(program).args(arguments).stdin(input).stderr(Stdio::null()).output()?;
    Ok(output.stdout)
}

/// Document 01 and the decisions on the program: each is an answer by number, never a hang or a crash.
fn odd_inputs(program: &Path, folder: &Path, compared: &mut Compared) -> io::Result<()> {
    let refused = |number: u32| {
        let tiles: String = (0..5).map(|port| format!("tile {port} not-loaded\n")).collect();
        format!("config refused {number}\n{tiles}").into_bytes()
    };
    compared.note("no argument", &refused(10), run(program, &[], Stdio::null()));
    let missing = folder.join("missing.bin");
    compared.note("a missing file", &refused(10), run(program, &[missing], Stdio::null()));
    compared.note("a folder", &refused(10), run(program, &[folder.to_path_buf()], Stdio::null()));
    let empty = folder.join("empty.bin");
    fs::write(&empty, [])?;
    compared.note("an empty file", &refused(10), run(program, &[empty], Stdio::null()));
    let endless = PathBuf::from("/dev/zero");
    compared.note("an endless file", &refused(1), run(program, &[endless], Stdio::null()));

    // K's stream, with inputs that are no list.
    let stream = folder.join("k.bin");
    fs::write(&stream, bytes_of(&plain_stream(&k::lists())))?;
    let of_list =
        |list: &[u8]| output_for(&bytes_of(&plain_stream(&k::lists())), list).into_bytes();
    compared.note("no list", &of_list(&[]), run(program, &[stream.clone()], Stdio::null()));
    let zeros = Stdio::from(File::open("/dev/zero")?);
    compared.note(
        "an endless list",
        &of_list(&[0; 16_385]),
        run(program, &[stream.clone()], zeros),
    );
    let broken = Stdio::from(File::open(folder)?);
    compared.note(
        "a list that cannot be read",
        &of_list(&[]),
        run(program, &[stream.clone()], broken),
    );
    compared.note("a closed list", &of_list(&[]), closed_input(program, &stream));
    compared.note(
        "a list in small pieces",
        &of_list(&k::list()),
        in_pieces(program, &stream, &k::list()),
    );
    Ok(())
}

/// Standard input closed before the program starts.
fn closed_input(program: &Path, stream: &Path) -> io::Result<Vec<u8>> {
    let output = Command::new("sh")
        .arg("-c")
        .arg("exec \"$0\" \"$1\" <&-")
        .arg(program)
        .arg(stream)
        .stderr(Stdio::null())
        .output()?;
    Ok(output.stdout)
}

/// The list through a pipe, a few bytes at a time.
fn in_pieces(program: &Path, stream: &Path, list: &[u8]) -> io::Result<Vec<u8>> {
    let mut child =
        Command::new(program).arg(stream).stdin(Stdio::piped()).stdout(Stdio::piped()).spawn()?;
    if let Some(mut input) = child.stdin.take() {
        for piece in list.chunks(7) {
            input.write_all(piece)?;
            input.flush()?;
        }
    }
    Ok(child.wait_with_output()?.stdout)
}
