//! A case for the program: a stream, a list, and what the paper says comes out.

use reference::k;
use reference::program::output_for;
use reference::stream::{bytes_of, plain_stream, Lists};

use crate::build::List;

/// What is expected, derived by hand from the clause that the case names.
#[derive(Clone, Debug)]
pub enum Expect {
    /// The whole output.
    Output(String),
    /// `config refused N` and five tiles not-loaded.
    Refused(u32),
    /// `config loaded`, whatever follows.
    Loaded,
    /// The lines between `config loaded` and the tiles.
    Lines(Vec<String>),
    /// Generated: only compared between two programs.
    Anything,
}

/// Which side of a boundary: the last value that passes, or the first that does not.
#[derive(Clone, Copy, PartialEq, Eq, PartialOrd, Ord, Debug)]
pub enum Side {
    Passes,
    Refused,
}

#[derive(Clone, Debug)]
pub struct Case {
    pub name: String,
    /// Where the expectation comes from.
    clause: &'static str,
    pub stream: Vec<u8>,
    pub list: Vec<u8>,
    pub expect: Expect,
    /// The boundary it stands at, where it stands at one.
    pub side: Option<(String, Side)>,
}

impl Case {
    /// A stream of words; the list is K's, the expectation is still open.
    pub fn of_words(name: &str, clause: &'static str, words: &[u32]) -> Case {
        Case::of_bytes(name, clause, bytes_of(words))
    }

    pub fn of_bytes(name: &str, clause: &'static str, stream: Vec<u8>) -> Case {
        Case {
            name: name.to_string(),
            clause,
            stream,
            list: k::list(),
            expect: Expect::Anything,
            side: None,
        }
    }

    pub(crate) fn of_lists(name: &str, clause: &'static str, lists: &Lists) -> Case {
        Case::of_words(name, clause, &plain_stream(lists))
    }

    pub(crate) fn list(self, list: List) -> Case {
        self.list_bytes(list.bytes)
    }

    pub(crate) fn list_bytes(self, list: Vec<u8>) -> Case {
        Case { list, ..self }
    }

    pub fn loaded(self) -> Case {
        self.expecting(Expect::Loaded)
    }

    pub fn refused(self, number: u32) -> Case {
        self.expecting(Expect::Refused(number))
    }

    pub(crate) fn lines(self, lines: &[&str]) -> Case {
        let lines = lines.iter().map(|line| line.to_string()).collect();
        self.expecting(Expect::Lines(lines))
    }

    pub(crate) fn output(self, output: &str) -> Case {
        self.expecting(Expect::Output(output.to_string()))
    }

    pub(crate) fn expecting(self, expect: Expect) -> Case {
        Case { expect, ..self }
    }

    pub(crate) fn passes(self, boundary: &str) -> Case {
        self.at(boundary, Side::Passes)
    }

    pub(crate) fn beyond(self, boundary: &str) -> Case {
        self.at(boundary, Side::Refused)
    }

    fn at(self, boundary: &str, side: Side) -> Case {
        Case { side: Some((boundary.to_string(), side)), ..self }
    }

    /// What the reference prints, or how that differs from what is expected.
    pub(crate) fn run(&self) -> Result<String, String> {
        self.held_to(output_for(&self.stream, &self.list))
    }

    /// An output, or how it differs from what is expected.
    pub(crate) fn held_to(&self, output: String) -> Result<String, String> {
        let expected = match &self.expect {
            Expect::Anything => return Ok(output),
            Expect::Loaded if output.starts_with("config loaded\n") => return Ok(output),
            Expect::Loaded => "config loaded".to_string(),
            Expect::Refused(number) => refused_output(*number),
            Expect::Output(whole) => whole.clone(),
            Expect::Lines(lines) if lines_before_tiles(&output) == *lines => return Ok(output),
            Expect::Lines(lines) => lines.join("\n"),
        };
        if output == expected {
            return Ok(output);
        }
        Err(format!("{} ({}): expected\n{expected}\nand got\n{output}", self.name, self.clause))
    }
}

/// The whole output for a refused stream.
fn refused_output(number: u32) -> String {
    let mut output = format!("config refused {number}\n");
    for port in 0..5 {
        output.push_str(&format!("tile {port} not-loaded\n"));
    }
    output
}

/// The lines behind `config loaded` and before the five tiles; none of a refused stream.
fn lines_before_tiles(output: &str) -> Vec<String> {
    let lines: Vec<&str> = output.lines().collect();
    if lines.first() != Some(&"config loaded") || lines.len() < 6 {
        return vec!["no list was run".to_string()];
    }
    let records = &lines[1..lines.len() - 5];
    records.iter().map(|line| line.to_string()).collect()
}
