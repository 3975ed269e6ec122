//! `songs SEED CASES`: cases of Standard MIDI Files on standard output, for
//! readers to be held to one another. `songs` alone answers the cases on
//! standard input, a line for each. `src/songs.rs` says what they look like.

use independent::generator::songs::Songs;
use independent::songs::{answer_all, Independent};
use independent::words::{words, wrong};
use std::io::{self, BufWriter, Write};
use std::process::ExitCode;

const USAGE: &str = "songs [SEED CASES]";

fn main() -> ExitCode {
    let words = words(USAGE);
    let whole = |word: &String| word.parse::<u64>().unwrap_or_else(|_| wrong(USAGE));
    let to = BufWriter::new(io::stdout().lock());
    let done = match &words[..] {
        [] => answer(to),
        [seed, cases] => write(to, whole(seed), whole(cases)),
        _ => wrong(USAGE),
    };
    match done {
        Ok(()) => ExitCode::SUCCESS,
        Err(error) => {
            eprintln!("songs: {error}");
            ExitCode::FAILURE
        }
    }
}

fn answer(mut to: impl Write) -> io::Result<()> {
    answer_all(&Independent, &mut io::stdin().lock(), &mut to)
}

fn write(mut to: impl Write, seed: u64, cases: u64) -> io::Result<()> {
    let mut source = Songs::seeded(seed);
    for _ in 0..cases {
        to.write_all(&source.case().bytes())?;
    }
    to.flush()
}
