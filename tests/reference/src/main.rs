//! `reference STREAM < LIST`: prints what the verdict program prints. The exit status is 0.

use std::ffi::OsString;
use std::fs::File;
use std::io::{self, Write};

fn main() {
    let stream: Option<OsString> = std::env::args_os().nth(1);
    let open = || match &stream {
        Some(path) => File::open(path),
        None => Err(io::Error::from(io::ErrorKind::NotFound)),
    };
    let output = reference::program::run(&open, &mut io::stdin().lock());
    // Nobody is left to tell when standard output is closed.
    let _ = io::stdout().write_all(output.as_bytes());
    let _ = io::stdout().flush();
}
