//! `waves`: answers the cases of WAVE files on standard input, a line for each;
//! `src/waves.rs` says what they look like.

use independent::waves::{answer_all, Independent};
use independent::words::{words, wrong};
use std::io::{self, BufWriter};
use std::process::ExitCode;

const USAGE: &str = "waves";

fn main() -> ExitCode {
    if !words(USAGE).is_empty() {
        wrong(USAGE);
    }
    let mut to = BufWriter::new(io::stdout().lock());
    match answer_all(&Independent, &mut io::stdin().lock(), &mut to) {
        Ok(()) => ExitCode::SUCCESS,
        Err(error) => {
            eprintln!("waves: {error}");
            ExitCode::FAILURE
        }
    }
}
