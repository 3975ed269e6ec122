//! `night`: the script that the gate gives to the line program, on standard
//! output.

use independent::generator::night::write_night;
use independent::words::{words, wrong};
use std::io::{self, BufWriter};

const USAGE: &str = "night";

fn main() -> io::Result<()> {
    if !words(USAGE).is_empty() {
        wrong(USAGE)
    }
    write_night(BufWriter::new(io::stdout().lock()))
}
