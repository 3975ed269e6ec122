//! `report`: the figures of each take of the line program's input and of them
//! all, standard input to standard output.

use independent::lines::report_of;
use independent::words::{words, wrong};
use std::io::{self, Read, Write};
use std::process::ExitCode;

const USAGE: &str = "report <LINES >FIGURES";

fn main() -> ExitCode {
    if !words(USAGE).is_empty() {
        wrong(USAGE);
    }
    match run() {
        Ok(()) => ExitCode::SUCCESS,
        Err(error) => {
            eprintln!("report: {error}");
            ExitCode::FAILURE
        }
    }
}

/// Nothing is printed before all is read.
fn run() -> io::Result<()> {
    let mut input = Vec::new();
    io::stdin().lock().read_to_end(&mut input)?;
    let mut output = io::stdout().lock();
    output.write_all(report_of(&input).as_bytes())?;
    output.flush()
}
