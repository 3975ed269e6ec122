//! `voices`: the line program with voices, standard input to standard output.
//! `voices --script KIND SEED SAMPLES`: a script for it on standard output.

use independent::generator::kinds::kind_named;
use independent::generator::voices::script_with_voices;
use independent::voice_lines::VoiceLines;
use independent::words::{words, wrong};
use std::io::{self, BufRead, Write};
use std::process::ExitCode;

const USAGE: &str = "voices <LINES >ANSWERS
       voices --script KIND SEED SAMPLES";

fn main() -> ExitCode {
    let arguments = words(USAGE);
    let done = match arguments.iter().map(String::as_str).collect::<Vec<_>>()[..] {
        [] => run(),
        ["--script", kind, seed, samples] => {
            let script = written(kind, seed, samples).unwrap_or_else(|| wrong(USAGE));
            io::stdout().write_all(&script)
        }
        _ => wrong(USAGE),
    };
    match done {
        Ok(()) => ExitCode::SUCCESS,
        Err(error) => {
            eprintln!("voices: {error}");
            ExitCode::FAILURE
        }
    }
}

/// None if a word cannot be read.
fn written(kind: &str, seed: &str, samples: &str) -> Option<Vec<u8>> {
    let (seed, samples) = (seed.parse().ok()?, samples.parse().ok()?);
    Some(script_with_voices(kind_named(kind)?, seed, samples))
}

/// Answers go out before the next line is read, so a host that waits gets them.
fn run() -> io::Result<()> {
    let (mut input, mut output) = (io::stdin().lock(), io::stdout().lock());
    let mut program = VoiceLines::default();
    let (mut line, mut answers) = (Vec::new(), Vec::new());
    while input.read_until(b'\n', &mut line)? > 0 {
        program.line(line.strip_suffix(b"\n").unwrap_or(&line), &mut answers);
        output.write_all(&answers)?;
        output.flush()?;
        line.clear();
        answers.clear();
    }
    Ok(())
}
