//! Tunes raw samples from standard input, low byte first, in blocks of 512
//! with the default settings, at 44,100 unless another rate is given; with
//! `--sung`, writes a take to tune.

use independent::generator::cases::sung;
use independent::rules::LONGEST_BLOCK;
use independent::settings::Settings;
use independent::statistics::Statistics;
use independent::table::CD;
use independent::tuner::{Answer, Tuner};
use independent::words::{words, wrong};
use std::io::{Read, Write};

const USAGE: &str = "raw [--sung | 44100 | 48000]";

fn main() {
    let bytes_of = |samples: &[i16]| -> Vec<u8> {
        samples
            .iter()
            .flat_map(|sample| sample.to_le_bytes())
            .collect()
    };
    let mut out = std::io::stdout().lock();
    let hertz = match words(USAGE).as_slice() {
        [] => CD,
        [switch] if switch == "--sung" => {
            return out
                .write_all(&bytes_of(&sung()))
                .expect("standard output takes the take");
        }
        [hertz] => hertz.parse().unwrap_or_else(|_| wrong(USAGE)),
        _ => wrong(USAGE),
    };
    let (answer, mut tuner) = Tuner::start(hertz, Settings::DEFAULT);
    if answer != Answer::Taken {
        wrong(USAGE)
    }
    let mut bytes = Vec::new();
    std::io::stdin()
        .read_to_end(&mut bytes)
        .expect("standard input can be read");
    let samples: Vec<i16> = bytes
        .chunks_exact(2)
        .map(|sample| i16::from_le_bytes([sample[0], sample[1]]))
        .collect();
    let mut number = 0u16;
    for block in samples.chunks(LONGEST_BLOCK) {
        let mut tuned = vec![0; block.len()];
        let (answer, _) = tuner.block(number, block, &mut tuned, &mut Statistics::default());
        assert_eq!(answer, Answer::Taken);
        out.write_all(&bytes_of(&tuned))
            .expect("standard output takes the samples");
        number = number.wrapping_add(1);
    }
}
