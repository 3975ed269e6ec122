//! A singer who sings passage after passage.

use super::random::Random;

/// The shape of a cycle, from -1 to 1.
pub enum Wave {
    /// Sines, with the strengths of partials 1, 2, ..
    Partials(Vec<f64>),
    /// High for half of the cycle.
    Square,
    /// These values over and over, whatever the period.
    Drawn(Vec<f64>),
}

/// A stretch of sound. What has a `from` and a `to` goes evenly between them.
pub struct Passage {
    pub wave: Wave,
    pub length: usize,
    /// Periods, in samples.
    pub from: f64,
    pub to: f64,
    /// How far the period swings, as a part of it, and in how many samples.
    pub vibrato: f64,
    pub swing: f64,
    pub loud_from: f64,
    pub loud_to: f64,
    /// Loudness of noise beside the wave.
    pub breath: f64,
}

impl Passage {
    /// A steady passage, loudness 1.
    pub fn of(wave: Wave, period: f64, length: usize) -> Passage {
        Passage {
            wave,
            length,
            from: period,
            to: period,
            vibrato: 0.0,
            swing: 1.0,
            loud_from: 1.0,
            loud_to: 1.0,
            breath: 0.0,
        }
    }

    pub fn lasting(mut self, samples: usize) -> Passage {
        self.length = samples;
        self
    }

    pub fn loud(self, loudness: f64) -> Passage {
        self.fading(loudness, loudness)
    }

    pub fn fading(mut self, from: f64, to: f64) -> Passage {
        (self.loud_from, self.loud_to) = (from, to);
        self
    }

    pub fn gliding(mut self, to: f64) -> Passage {
        self.to = to;
        self
    }

    pub fn swinging(mut self, part: f64, samples: f64) -> Passage {
        (self.vibrato, self.swing) = (part, samples);
        self
    }

    pub fn breathy(mut self, loudness: f64) -> Passage {
        self.breath = loudness;
        self
    }
}

/// Sings a passage, from the phase where the last one ended.
pub fn sing(passage: &Passage, phase: &mut f64, random: &mut Random) -> Vec<i16> {
    let mut sung = Vec::with_capacity(passage.length);
    for time in 0..passage.length {
        let part = time as f64 / passage.length as f64;
        let swing = 1.0 + passage.vibrato * sine(time as f64 / passage.swing);
        let period = (passage.from + (passage.to - passage.from) * part) * swing;
        let loudness = passage.loud_from + (passage.loud_to - passage.loud_from) * part;
        *phase += 1.0 / period;
        let value = match &passage.wave {
            Wave::Partials(strengths) => partials(strengths, *phase),
            Wave::Square if *phase - phase.floor() < 0.5 => 1.0,
            Wave::Square => -1.0,
            Wave::Drawn(values) => values[time % values.len()],
        };
        let breath = match passage.breath > 0.0 {
            true => passage.breath * random.real(-1.0, 1.0),
            false => 0.0,
        };
        sung.push(sample(loudness * value + breath));
    }
    *phase -= phase.floor();
    sung
}

/// The nearest sample.
fn sample(value: f64) -> i16 {
    (value + 0.5).floor().clamp(-32_768.0, 32_767.0) as i16
}

fn partials(strengths: &[f64], phase: f64) -> f64 {
    let voices = strengths.iter().zip(1..);
    voices.fold(0.0, |sum, (strength, partial)| {
        sum + strength * sine(f64::from(partial) * phase)
    })
}

/// The sine of so many whole turns, by its series up to the 13th power.
fn sine(turns: f64) -> f64 {
    let part = turns - turns.floor();
    let (sign, half) = if part < 0.5 {
        (1.0, part)
    } else {
        (-1.0, part - 0.5)
    };
    let quarter = if half < 0.25 { half } else { 0.5 - half };
    let angle = quarter * (2.0 * std::f64::consts::PI);
    let square = angle * angle;
    let series = [156.0, 110.0, 72.0, 42.0, 20.0, 6.0]
        .iter()
        .fold(1.0, |rest, divisor| 1.0 - square / divisor * rest);
    sign * angle * series
}

/// 2 to the power of x, by the series of the exponential.
pub fn two_to(x: f64) -> f64 {
    let power = (x - x.floor()) * std::f64::consts::LN_2;
    let part = (1..=20)
        .rev()
        .fold(1.0, |rest, divisor| 1.0 + power / f64::from(divisor) * rest);
    let doublings = x.floor() as i32;
    let factor = if doublings < 0 { 0.5 } else { 2.0 };
    (0..doublings.abs()).fold(part, |value, _| value * factor)
}

/// The period of a note at this sample rate, in samples, so many cents above it.
pub fn period_of_note(hertz: u32, note: usize, cents: f64) -> f64 {
    let octaves = (note as f64 - 69.0 + cents / 100.0) / 12.0;
    f64::from(hertz) / 440.0 / two_to(octaves)
}

#[cfg(test)]
mod tests {
    use super::*;
    use crate::table::{CD, FILM};

    #[test]
    fn sine_and_powers_are_right() {
        for turn in -2_000..2_000 {
            let turns = f64::from(turn) / 700.0;
            let right = (turns * 2.0 * std::f64::consts::PI).sin();
            assert!((sine(turns) - right).abs() < 1e-8, "sine of {turns}");
            let right = turns.exp2();
            assert!((two_to(turns) - right).abs() < 1e-12 * right);
        }
        assert!((period_of_note(CD, 69, 0.0) - 100.227_272).abs() < 1e-5);
        assert!((period_of_note(CD, 57, -1_200.0) - 400.909_090).abs() < 1e-5);
        assert!((period_of_note(FILM, 69, 0.0) - 109.090_909).abs() < 1e-5);
    }
}
