//! `notes`: the notes sung in each take of the line program's input, standard
//! input to standard output: a line for each row, and one at the list's end.

use independent::lines::Program;
use independent::words::{words, wrong};
use std::io::{self, Read, Write};
use std::process::ExitCode;

const USAGE: &str = "notes <LINES >ROWS";

fn main() -> ExitCode {
    if !words(USAGE).is_empty() {
        wrong(USAGE);
    }
    match run() {
        Ok(()) => ExitCode::SUCCESS,
        Err(error) => {
            eprintln!("notes: {error}");
            ExitCode::FAILURE
        }
    }
}

/// A take's rows go out as soon as it has ended.
fn run() -> io::Result<()> {
    let (mut input, mut output) = (io::stdin().lock(), io::stdout().lock());
    let mut program = Program::default();
    let mut batch = [0; 65_536];
    let mut answers = Vec::new();
    loop {
        let length = match input.read(&mut batch) {
            Err(error) if error.kind() == io::ErrorKind::Interrupted => continue,
            read => read?,
        };
        match length {
            0 => program.end(&mut answers),
            _ => program.read(&batch[..length], &mut answers),
        }
        answers.clear();
        for list in program.lists() {
            write!(output, "{list}")?;
        }
        output.flush()?;
        if length == 0 {
            return Ok(());
        }
    }
}
