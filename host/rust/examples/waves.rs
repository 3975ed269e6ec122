//! Answers the cases of WAVE files on standard input by the proved calls, a line
//! for each, as `waves` of the independent program does: `independent/src/waves.rs`
//! says what cases and lines look like.

#[path = "../tests/proved/mod.rs"]
mod proved;

use independent::waves::answer_all;
use proved::Proved;
use std::io::{self, BufWriter};

fn main() -> io::Result<()> {
    let mut to = BufWriter::new(io::stdout().lock());
    answer_all(&Proved, &mut io::stdin().lock(), &mut to)
}
