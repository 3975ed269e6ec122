//! `files SEED CASES`: cases of WAVE files on standard output, for `waves` and
//! for programs to be held to it; `src/waves.rs` says what they look like.

use independent::generator::files::Files;
use independent::words::{words, wrong};
use std::io::{self, BufWriter, Write};
use std::process::ExitCode;

const USAGE: &str = "files SEED CASES";

fn main() -> ExitCode {
    let words = words(USAGE);
    let [seed, cases] = &words[..] else {
        wrong(USAGE)
    };
    let whole = |word: &String| word.parse::<u64>().unwrap_or_else(|_| wrong(USAGE));
    match write(whole(seed), whole(cases)) {
        Ok(()) => ExitCode::SUCCESS,
        Err(error) => {
            eprintln!("files: {error}");
            ExitCode::FAILURE
        }
    }
}

fn write(seed: u64, cases: u64) -> io::Result<()> {
    let mut source = Files::seeded(seed);
    let mut to = BufWriter::new(io::stdout().lock());
    for _ in 0..cases {
        to.write_all(&source.case().bytes())?;
    }
    to.flush()
}
