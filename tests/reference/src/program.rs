//! The verdict program: reads the stream twice, then the list, and prints.
//! Document 01, "The verdict program".

use std::io::{ErrorKind, Read};

use crate::image::IMAGE_WORDS;
use crate::ledger::{fresh_ledger, PORTS};
use crate::list::{run_list, MOST_BYTES};
use crate::load::{write, LoadAnswer, LoadState, MOST_WORDS_A_WRITE};
use crate::stream::words_of;

/// A stream that does not end is counted up to here; past it 9 is not asked.
const COUNTING_BUDGET: u64 = 1 << 32;

/// The whole output. `open` opens the stream from its start; it is called twice.
pub fn run<R: Read>(open: &dyn Fn() -> std::io::Result<R>, list: &mut dyn Read) -> String {
    let mut image = vec![0; IMAGE_WORDS];
    let lines = match load_stream(open, &mut image) {
        LoadAnswer::Loaded => loaded_lines(&image, list),
        LoadAnswer::Refused(number) => refused_lines(number),
        // The stream ended before its end block was complete.
        LoadAnswer::More => refused_lines(10),
    };
    let mut output = String::new();
    for line in lines {
        output.push_str(&line);
        output.push('\n');
    }
    output
}

/// The output for a stream and a list that are at hand.
pub fn output_for(stream: &[u8], list: &[u8]) -> String {
    run(&|| Ok(stream), &mut { list })
}

fn refused_lines(number: u32) -> Vec<String> {
    let mut lines = vec![format!("config refused {number}")];
    for port in 0..PORTS {
        lines.push(format!("tile {port} not-loaded"));
    }
    lines
}

fn loaded_lines(image: &[u32], list: &mut dyn Read) -> Vec<String> {
    let mut lines = vec!["config loaded".to_string()];
    match fresh_ledger(image) {
        Ok(ledger) => {
            let (list, broke_off) = read_list(list);
            lines.extend(run_list(image, ledger, &list, broke_off));
        }
        // Cannot be: a loaded image is long enough and marked.
        Err(number) => lines = refused_lines(number),
    }
    lines
}

/// First counts the bytes, then sends them in writes.
fn load_stream<R: Read>(open: &dyn Fn() -> std::io::Result<R>, image: &mut [u32]) -> LoadAnswer {
    let Ok(first) = open() else {
        return LoadAnswer::Refused(10);
    };
    match count_bytes(first) {
        // A folder opens and cannot be read.
        Counted::Unreadable => return LoadAnswer::Refused(10),
        Counted::Ended(bytes) if bytes % 4 != 0 => return LoadAnswer::Refused(9),
        Counted::Ended(0) => return LoadAnswer::Refused(10),
        Counted::Ended(_) | Counted::PastBudget => {}
    }
    let Ok(second) = open() else {
        return LoadAnswer::Refused(10);
    };
    send(second, image)
}

enum Counted {
    Ended(u64),
    PastBudget,
    Unreadable,
}

fn count_bytes<R: Read>(stream: R) -> Counted {
    let mut stream = stream;
    let mut buffer = vec![0; 1 << 20];
    let mut bytes = 0;
    while bytes <= COUNTING_BUDGET {
        match stream.read(&mut buffer) {
            Ok(0) => return Counted::Ended(bytes),
            Ok(read) => bytes += read as u64,
            Err(error) if error.kind() == ErrorKind::Interrupted => {}
            Err(_) => return Counted::Unreadable,
        }
    }
    Counted::PastBudget
}

/// Writes of 64 words until one answers otherwise than "more" or the stream ends.
fn send<R: Read>(stream: R, image: &mut [u32]) -> LoadAnswer {
    let mut stream = stream;
    let mut state = LoadState::fresh();
    loop {
        let (bytes, _) = read_up_to(&mut stream, 4 * MOST_WORDS_A_WRITE);
        let words = words_of(&bytes);
        if words.is_empty() {
            return LoadAnswer::More;
        }
        let (answer, after) = write(image, state, &words);
        if answer != LoadAnswer::More {
            return answer;
        }
        state = after;
    }
}

/// One byte more than the most is enough to tell 54.
fn read_list(list: &mut dyn Read) -> (Vec<u8>, bool) {
    read_up_to(list, MOST_BYTES + 1)
}

/// At most so many bytes, and whether a read error ended them.
fn read_up_to(input: &mut dyn Read, most: usize) -> (Vec<u8>, bool) {
    let mut bytes = vec![0; most];
    let mut filled = 0;
    let mut broke_off = false;
    while filled < most && !broke_off {
        match input.read(&mut bytes[filled..]) {
            Ok(0) => break,
            Ok(read) => filled += read,
            Err(error) if error.kind() == ErrorKind::Interrupted => {}
            Err(_) => broke_off = true,
        }
    }
    bytes.truncate(filled);
    (bytes, broke_off)
}
