//! `lines [--statistics]`: the line program, standard input to standard output.

use independent::lines::Program;
use independent::words::{words, wrong};
use std::io::{self, Read, Write};
use std::process::ExitCode;

const USAGE: &str = "lines [--statistics]";

fn main() -> ExitCode {
    let statistics = match words(USAGE).as_slice() {
        [] => false,
        [switch] if switch == "--statistics" => true,
        _ => wrong(USAGE),
    };
    match run(statistics) {
        Ok(()) => ExitCode::SUCCESS,
        Err(error) => {
            eprintln!("lines: {error}");
            ExitCode::FAILURE
        }
    }
}

/// Answers go out before the next read, so a host that waits gets them.
fn run(statistics: bool) -> io::Result<()> {
    let (mut input, mut output) = (io::stdin().lock(), io::stdout().lock());
    let mut program = Program::default();
    let mut batch = [0; 65_536];
    let mut answers = Vec::new();
    loop {
        let length = match input.read(&mut batch) {
            Err(error) if error.kind() == io::ErrorKind::Interrupted => continue,
            read => read?,
        };
        if length == 0 {
            program.end(&mut answers);
        }
        program.read(&batch[..length], &mut answers);
        output.write_all(&answers)?;
        output.flush()?;
        answers.clear();
        if length == 0 {
            break;
        }
    }
    if statistics {
        eprint!("{}", program.statistics);
    }
    Ok(())
}
