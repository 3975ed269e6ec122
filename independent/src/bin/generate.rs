//! `generate KIND SEED SAMPLES [LENGTH]`: a script for the line program on
//! standard output. `generate --kinds`: the kinds.

use independent::generator::kinds::{kind_named, KINDS};
use independent::generator::script::write_script;
use independent::rules::LONGEST_BLOCK;
use independent::words::{words, wrong};
use std::io::{self, BufWriter};
use std::process::ExitCode;

const USAGE: &str = "generate KIND SEED SAMPLES [LENGTH of blocks, 1 to 512, but for cuts]
       generate --kinds";

fn main() -> ExitCode {
    let arguments = words(USAGE);
    let written = match arguments.iter().map(String::as_str).collect::<Vec<_>>()[..] {
        ["--kinds"] => {
            for kind in KINDS {
                println!("{:<12}\t{}", kind.name, kind.meaning);
            }
            Some(Ok(()))
        }
        [kind, seed, samples] => generate(kind, seed, samples, None),
        [kind, seed, samples, length] => generate(kind, seed, samples, Some(length)),
        _ => None,
    };
    match written {
        Some(Ok(())) => ExitCode::SUCCESS,
        Some(Err(error)) => {
            eprintln!("generate: {error}");
            ExitCode::FAILURE
        }
        None => wrong(USAGE),
    }
}

/// None if an argument cannot be read.
fn generate(kind: &str, seed: &str, samples: &str, length: Option<&str>) -> Option<io::Result<()>> {
    let kind = kind_named(kind)?;
    let seed = seed.parse().ok()?;
    let samples = samples.parse().ok()?;
    let length = match length {
        None => None,
        Some(length) => Some(length.parse().ok()?),
    };
    let can_be = |length| (1..=LONGEST_BLOCK).contains(&length) && !kind.cut;
    if length.is_some_and(|length| !can_be(length)) {
        return None;
    }
    let to = BufWriter::new(io::stdout().lock());
    Some(write_script(kind, seed, samples, length, to))
}
