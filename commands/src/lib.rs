//! The commands for WAVE files. They only move bytes and talk to people; every
//! number of a file, every sample and every refusal is a proved call's. Their
//! words are those of the crate [`words`].

pub mod apart;
pub mod check;
pub mod chunks;
pub mod delivery;
pub mod lines;
pub mod mend;
pub mod midi;
pub mod night;
pub mod notes;
pub mod octave;
pub mod picture;
pub mod place;
mod progress;
mod refusal;
pub mod report;
pub mod rows;
pub mod score;
pub mod song;
pub mod source;
pub mod tune;

pub use source::Source;
pub use words::end::{no, End};

use daxfolin::{Settings, INTERVAL_OUT_OF_RANGE, TAKEN, TOO_MANY_VOICES};
use std::ffi::OsString;
use std::process::ExitCode;
use words::end::finish;
use words::request::{Request, Take};

const LINES: &str = "daxfolin lines";

/// The program, over its words.
pub fn run(given: Vec<OsString>) -> ExitCode {
    let library = format!("calls of version {}", daxfolin::version());
    let (program, ended) = match words::asked(given, &library) {
        Err((program, end)) => (program, Err(end)),
        Ok(None) => return ExitCode::SUCCESS,
        Ok(Some(Request::Tune(request))) => (tune::PROGRAM.to_string(), tune::run(&request)),
        Ok(Some(Request::Notes(request))) => (notes::PROGRAM.to_string(), notes::run(&request)),
        Ok(Some(Request::Report(request))) => (report::PROGRAM.to_string(), report::run(&request)),
        Ok(Some(Request::Picture(request))) => {
            (picture::PROGRAM.to_string(), picture::run(&request))
        }
        Ok(Some(Request::Mend(request))) => (mend::PROGRAM.to_string(), mend::run(&request)),
        Ok(Some(Request::Check(request))) => (check::PROGRAM.to_string(), check::run(&request)),
        Ok(Some(Request::Night(request))) => (night::PROGRAM.to_string(), night::run(&request)),
        Ok(Some(Request::Lines)) => (LINES.to_string(), apart::ANSWERS.run(LINES)),
    };
    finish(&program, ended)
}

/// The settings of a take at its sample rate, for a start to judge.
pub fn settings(take: &Take, hertz: u32) -> Settings {
    Settings {
        scale: take.scale,
        eps: take.eps,
        decay: take.decay(hertz),
        floor: take.floor,
        ..Settings::default()
    }
}

/// What a start said to the settings and the voices.
pub fn started(number: u32) -> Result<(), End> {
    let what = match number {
        TAKEN => return Ok(()),
        INTERVAL_OUT_OF_RANGE | TOO_MANY_VOICES => "the voices",
        _ => "the settings",
    };
    let why = format!("{what}: {number}, {}", daxfolin::words(number));
    Err(End::Refused(number, why))
}

/// The seconds of so many samples, to thousandths.
pub fn seconds(samples: u64, hertz: u32) -> String {
    let hertz = u64::from(hertz);
    let thousandths = (1000 * samples + hertz / 2) / hertz;
    format!("{}.{:03}", thousandths / 1000, thousandths % 1000)
}

/// A number with a comma before each three digits.
pub fn grouped(number: u64) -> String {
    let digits = number.to_string();
    let mut text = String::new();
    for (at, digit) in digits.chars().enumerate() {
        if at > 0 && (digits.len() - at) % 3 == 0 {
            text.push(',');
        }
        text.push(digit);
    }
    text
}

#[cfg(test)]
mod tests {
    use super::*;
    use words::request::Speed;

    /// What the words leave open is what a start without settings has.
    #[test]
    fn the_defaults_are_the_librarys() {
        let words = ["tune", "a", "b"].map(OsString::from).to_vec();
        let Ok(Some(Request::Tune(tune))) = words::asked(words, "") else {
            panic!("right words")
        };
        assert_eq!(settings(&tune.take, 44_100), Settings::default());
        let faster = Take {
            speed: Speed::Milliseconds(4.8),
            ..tune.take
        };
        assert_eq!(settings(&faster, 44_100).decay, 250);
    }

    #[test]
    fn numbers_for_people() {
        assert_eq!(seconds(43_500, 44_100), "0.986");
        for (number, text) in [
            (0, "0"),
            (999, "999"),
            (1_000, "1,000"),
            (1_234_567, "1,234,567"),
        ] {
            assert_eq!(grouped(number), text);
        }
    }
}
