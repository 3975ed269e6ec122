//! Made-up singers, and takes played through the tuner with a line.
#![allow(dead_code)]

use commands::delivery::{Delivery, Part};
use commands::midi::Key;
use commands::rows::{Listed, Row};
use daxfolin::{Meter, Settings, Tuner, LONGEST_BLOCK, TAKEN};
use independent::generator::random::Random;
use std::convert::Infallible;
use std::f64::consts::TAU;

/// A note that is sung: from which sample on, how many, and the key that is meant.
pub struct Meant {
    pub first: u64,
    pub length: u64,
    pub key: u8,
}

/// So many notes in C major, up to a third of a semitone out of tune, with vibrato, breath and rests.
pub fn sung(seed: u64, hertz: u32, notes: usize) -> (Vec<i16>, Vec<Meant>) {
    let mut chance = Random::seeded(seed);
    let (mut take, mut meant, mut phase) = (vec![0; hertz as usize / 8], Vec::new(), 0.0);
    let scale = [52u8, 53, 55, 57, 59, 60, 62, 64, 65, 67, 69, 71, 72];
    let mut place = 3 + chance.whole(0, 6);
    for _ in 0..notes {
        let length = (chance.real(0.2, 0.6) * f64::from(hertz)) as usize;
        let note = f64::from(scale[place]) + chance.real(-0.33, 0.33);
        meant.push(Meant {
            first: take.len() as u64,
            length: length as u64,
            key: scale[place],
        });
        for at in 0..length {
            let time = at as f64 / f64::from(hertz);
            let swing = 0.2 * (time / 0.3).min(1.0) * (TAU * 5.5 * time).sin();
            let frequency = 440.0 * ((note + swing - 69.0) / 12.0).exp2();
            phase += frequency / f64::from(hertz);
            let edge = at.min(length - at) as f64 / (0.03 * f64::from(hertz));
            let breath = chance.real(-12.0, 12.0);
            take.push((7_000.0 * edge.min(1.0) * voice(phase, frequency) + breath) as i16);
        }
        if chance.whole(0, 3) == 0 {
            take.extend(std::iter::repeat_n(0, hertz as usize / 6));
        }
        place = (place + chance.whole(0, 6))
            .saturating_sub(3)
            .min(scale.len() - 1);
    }
    (take, meant)
}

/// A tone that swings over an octave all the time, so many seconds: many notes.
pub fn swinging(hertz: u32, seconds: u32) -> Vec<i16> {
    let mut phase = 0.0;
    let sample = |at: u32| {
        let time = f64::from(at) / f64::from(hertz);
        let swing = 6.0 * (TAU * 4.0 * time).sin();
        phase += 300.0 * (swing / 12.0).exp2() / f64::from(hertz);
        let wave = (TAU * phase).sin() + 0.5 * (2.0 * TAU * phase).sin();
        (8_000.0 * wave) as i16
    };
    (0..hertz * seconds).map(sample).collect()
}

/// Harmonics under three formants.
fn voice(phase: f64, frequency: f64) -> f64 {
    let formants = [
        (650.0, 120.0, 1.0),
        (1100.0, 150.0, 0.6),
        (2500.0, 250.0, 0.3),
    ];
    let harmonics = (1..20).map(f64::from).map(|harmonic| {
        let at = frequency * harmonic;
        let peak =
            |(centre, width, loud): (f64, f64, f64)| loud / (1.0 + ((at - centre) / width).powi(2));
        let loud: f64 = formants.into_iter().map(peak).sum();
        (loud + 0.05) / harmonic.sqrt() * (TAU * harmonic * phase).sin()
    });
    harmonics.sum()
}

/// Plays a take with a line: every part of it to a call.
pub fn play(take: &[i16], keys: &[Key], mut call: impl FnMut(Part)) {
    let mut delivery = Delivery::of(keys);
    for block in take.chunks(LONGEST_BLOCK) {
        let all = delivery.give(block, |part| {
            call(part);
            Ok::<(), Infallible>(())
        });
        assert_eq!(all, Ok(()));
    }
}

/// What a take becomes with a line: the samples, and the rows of its list.
pub fn tuned(take: &[i16], hertz: u32, settings: Settings, keys: &[Key]) -> (Vec<i16>, Vec<Row>) {
    let mut tuner = Listed::start(hertz, settings).expect("the settings are right");
    let (mut given, mut out) = (Vec::new(), [0; LONGEST_BLOCK]);
    play(take, keys, |part| match part {
        Part::Keys(bytes) => assert_eq!(tuner.midi(bytes), TAKEN),
        Part::Block(number, sung) => {
            assert_eq!(tuner.block(number, sung, &mut out).number, TAKEN);
            given.extend_from_slice(&out[..sung.len()]);
        }
    });
    (given, tuner.rows())
}

/// What the meter shows after each block of a take with a line, where there is a pitch: period and wanted period.
pub fn pitches(take: &[i16], hertz: u32, settings: Settings, keys: &[Key]) -> Vec<(f32, f32)> {
    let (number, mut tuner) = Tuner::start_plain(hertz, settings);
    assert_eq!(number, TAKEN);
    let mut shown = Vec::new();
    play(take, keys, |part| {
        let answered = match part {
            Part::Keys(bytes) => tuner.midi(bytes),
            Part::Block(number, sung) => tuner.block(number, sung, &mut [0; LONGEST_BLOCK]).number,
        };
        assert_eq!(answered, TAKEN);
        if let Meter::Pitched { period, wanted, .. } = tuner.meter() {
            shown.push((period, wanted));
        }
    });
    shown
}
