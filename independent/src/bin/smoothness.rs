//! How near a reading comes to the sound itself: pure tones read at places
//! between samples, by a straight line and through four neighbours.
//!
//! A tone below half the sample rate is known between its samples too: it is
//! the same sine there. What is read beside it is the error.

use independent::rules::{held, through, POSITION_UNIT, READ_UNIT};
use independent::words::{words, wrong};
use std::f64::consts::TAU;

const USAGE: &str = "smoothness";

/// Samples in a second.
const RATE: f64 = 44_100.0;
/// The tones, in Hz.
const TONES: [u32; 8] = [1_000, 2_000, 3_000, 5_000, 8_000, 10_000, 12_000, 15_000];
/// The height of a tone: no reading of it has to be held.
const HEIGHT: f64 = 20_000.0;
/// Every fraction of a sample is read after so many samples.
const SAMPLES: i64 = 441;

/// The tone at this time, in samples.
fn tone(hertz: u32, time: f64) -> f64 {
    HEIGHT * (TAU * f64::from(hertz) * time / RATE).sin()
}

/// The nearest 16-bit sample of the tone.
fn sample(hertz: u32, index: i64) -> i16 {
    tone(hertz, index as f64).round() as i16
}

/// Document 01's reading, a straight line: (a(65536 - f) + b f) / 65536,
/// rounded down.
fn straight([_, a, b, _]: [i16; 4], fraction: i64) -> i16 {
    let weighed = i64::from(a) * (POSITION_UNIT - fraction) + i64::from(b) * fraction;
    weighed.div_euclid(POSITION_UNIT) as i16
}

/// Document 02's reading, through four neighbours.
fn smooth(neighbours: [i16; 4], fraction: i64) -> i16 {
    held(through(neighbours, fraction / (POSITION_UNIT / READ_UNIT)))
}

/// The error of a reading, in dB below the tone, and how much weaker than the
/// tone it is, in dB.
fn error_and_loss(hertz: u32, reading: fn([i16; 4], i64) -> i16) -> (f64, f64) {
    let (mut power, mut error, mut shared) = (0.0, 0.0, 0.0);
    for index in 0..SAMPLES {
        let neighbours = [-1, 0, 1, 2].map(|place| sample(hertz, index + place));
        for step in 0..READ_UNIT {
            let fraction = step * (POSITION_UNIT / READ_UNIT);
            let exact = tone(hertz, index as f64 + step as f64 / READ_UNIT as f64);
            let read = f64::from(reading(neighbours, fraction));
            power += exact * exact;
            error += (read - exact) * (read - exact);
            shared += read * exact;
        }
    }
    (
        10.0 * (power / error).log10(),
        20.0 * (power / shared).log10(),
    )
}

fn main() {
    if !words(USAGE).is_empty() {
        wrong(USAGE);
    }
    println!("| Tone | straight line: error | loss | four neighbours: error | loss |");
    println!("|---|---|---|---|---|");
    for hertz in TONES {
        let (line_error, line_loss) = error_and_loss(hertz, straight);
        let (error, loss) = error_and_loss(hertz, smooth);
        println!(
            "| {} kHz | -{line_error:.1} dB | {line_loss:.2} dB | -{error:.1} dB | {loss:.2} dB |",
            hertz / 1_000
        );
    }
}
