//! Voices for the starts of a script: lines of intervals put before them.

use super::kinds::Kind;
use super::random::Random;
use super::script::{rates_of, script};
use crate::lines::Record;
use crate::voices::{MOST_VOICES, OCTAVE};

/// The script of a kind and a seed, each start that can be read with its voices:
/// most often three. Before some it stands a first time, with voices for which it
/// is refused; what is taken is so the script's own.
pub fn script_with_voices(kind: &Kind, seed: u64, samples: usize) -> Vec<u8> {
    // Another chance than that for the rates, and of each kind its own.
    let mut random = Random::seeded(rates_of(kind, seed).next());
    let mut voiced = Vec::new();
    for line in script(kind, seed, samples).split_inclusive(|&byte| byte == b'\n') {
        if let Some(Record::Start(..)) = Record::on(line.strip_suffix(b"\n").unwrap_or(line)) {
            if random.chance(250) {
                voiced.extend(line_of(&refused(&mut random)));
                voiced.extend(line.strip_suffix(b"\n").unwrap_or(line));
                voiced.push(b'\n');
            }
            voiced.extend(line_of(&chosen(&mut random)));
        }
        voiced.extend(line);
    }
    voiced
}

fn line_of(intervals: &[i32]) -> Vec<u8> {
    let fields = intervals.iter().map(|interval| format!("\t{interval}"));
    format!("voices{}\n", fields.collect::<String>()).into_bytes()
}

/// Of any interval, often of the widest, of none, and of the one before.
fn interval(random: &mut Random, last: i32) -> i32 {
    match random.whole(0, 9) {
        0 => -OCTAVE,
        1 => OCTAVE,
        2 => 0,
        3 => last,
        _ => random.whole(0, 2 * OCTAVE as usize) as i32 - OCTAVE,
    }
}

fn intervals(random: &mut Random, voices: usize) -> Vec<i32> {
    let mut intervals: Vec<i32> = Vec::new();
    for _ in 0..voices {
        let last = intervals.last().copied().unwrap_or(0);
        intervals.push(interval(random, last));
    }
    intervals
}

pub(super) fn chosen(random: &mut Random) -> Vec<i32> {
    let voices = match random.whole(0, 19) {
        0 => 0,
        1..=3 => 1,
        4..=6 => 2,
        _ => MOST_VOICES,
    };
    intervals(random, voices)
}

/// An interval out of its range, a voice too many, or both.
pub(super) fn refused(random: &mut Random) -> Vec<i32> {
    let voices = random.whole(1, MOST_VOICES + 2);
    let mut intervals = intervals(random, voices);
    if voices <= MOST_VOICES || random.chance(500) {
        let place = random.whole(0, voices - 1);
        intervals[place] = random.one_of(&[-32_768, -13, 13, 24, 244, 32_767]);
    }
    intervals
}
