//! Answers the cases of Standard MIDI Files on standard input, a line for each,
//! as `songs` of the independent program does: `independent/src/songs.rs` says
//! what cases and lines look like. `songs SEED CASES` holds the two readers to
//! one another over so many files, and says what they had.

#[path = "../tests/played/mod.rs"]
mod played;

use independent::generator::songs::Songs as Source;
use independent::songs::{answer_all, Independent};
use played::Played;
use std::collections::BTreeMap;
use std::io::{self, BufWriter};
use std::process::ExitCode;

fn main() -> ExitCode {
    let words: Option<Vec<u64>> = std::env::args().skip(1).map(|w| w.parse().ok()).collect();
    let done = match words.as_deref() {
        Some([]) => {
            let mut to = BufWriter::new(io::stdout().lock());
            answer_all(&Played, &mut io::stdin().lock(), &mut to).map_err(|why| why.to_string())
        }
        Some([seed, cases]) => compared(*seed, *cases),
        _ => Err("usage: songs [SEED CASES]".to_string()),
    };
    match done {
        Ok(()) => ExitCode::SUCCESS,
        Err(why) => {
            eprintln!("songs: {why}");
            ExitCode::FAILURE
        }
    }
}

fn compared(seed: u64, cases: u64) -> Result<(), String> {
    let mut source = Source::seeded(seed);
    let (mut bytes, mut events, mut keys) = (0, 0, 0);
    let mut numbers = BTreeMap::new();
    for number in 0..cases {
        let case = source.case();
        let (right, got) = (case.said(&Independent), case.said(&Played));
        if right != got {
            let (right, got) = (case.answer(&Independent), case.answer(&Played));
            return Err(format!(
                "seed {seed}, file {number}: {case:?}\nright {right}\ngot   {got}"
            ));
        }
        bytes += case.file.len();
        let answer = match &right {
            Ok(said) => {
                events += said.events.len();
                keys += said.line.keys.len();
                0
            }
            Err(wrong) => wrong.number,
        };
        *numbers.entry(answer).or_insert(0u64) += 1;
    }
    println!("equal: {cases} files, {bytes} bytes, {events} events, {keys} keys");
    for (number, files) in numbers {
        println!("answered {number}: {files} files");
    }
    Ok(())
}
