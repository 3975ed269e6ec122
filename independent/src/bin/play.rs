//! Plays records of calls from standard input, a line for each; with
//! `--script`, writes the scripted take.

use independent::play::{play, script, RECORD};
use independent::tuner::Tuner;
use independent::words::{words, wrong};
use std::io::{Read, Write};

const USAGE: &str = "play [--script]";

fn main() {
    let mut out = std::io::stdout().lock();
    match words(USAGE).as_slice() {
        [] => {}
        [switch] if switch == "--script" => {
            return out
                .write_all(&script())
                .expect("standard output takes the script");
        }
        _ => wrong(USAGE),
    }
    let mut bytes = Vec::new();
    std::io::stdin()
        .read_to_end(&mut bytes)
        .expect("standard input can be read");
    let mut tuner = Tuner::default_start();
    for record in bytes.chunks_exact(RECORD) {
        writeln!(out, "{}", play(&mut tuner, record)).expect("standard output takes a line");
    }
}
