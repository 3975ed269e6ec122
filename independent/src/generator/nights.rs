//! Nights over records: recordings, block lengths, first numbers and outputs of
//! every sort.

use super::cases::noise;
use super::edges::pitched;
use super::random::Random;
use crate::calls::{Call, Lent};
use crate::record::Record;
use crate::rules::{HIGHEST_LAG, LONGEST_BLOCK, LOWEST_LAG};
use crate::settings::KEYBOARD;
use crate::tuner::TAKE_LIMIT;

/// Longer recordings and outputs are not lent.
pub const LONGEST_NIGHT: usize = 2_600;

/// Lengths of blocks, legal and not; of the last two a number of 32 bits would
/// make legal ones.
const SIZES: [u64; 10] = [
    1,
    2,
    64,
    511,
    512,
    0,
    513,
    u64::MAX,
    (1 << 32) + 64,
    1 << 32,
];

pub(super) fn night(first: u16, size: u64, samples: &[i16], room: usize) -> Call {
    Call::Night {
        first,
        size,
        samples: samples.to_vec(),
        lent: Lent::out(vec![77; room]),
    }
}

/// The next three blocks, of a sample each; and the last block again, with two
/// samples behind it.
pub fn nights_over(record: &Record) -> [Call; 2] {
    let last = record.last_samples();
    let size = last.len().max(1) as u64;
    let on = [last, &[7, -7]].concat();
    [
        night(record.next_number(), 1, &[1_000, -1_000, 500], 4),
        night(record.number, size, &on, on.len() + 1),
    ]
}

/// Over a record that is pitched, whose last block has the length of a night's
/// blocks and whose next numbers wrap, once as it is and once close to the limit
/// of a take: every length of blocks with every first number and several
/// recordings; outputs one sample short, just as long, and longer. Before them
/// nights in which many cycles are repeated, and many dropped, and nights over a
/// record that is out of range.
pub fn night_choices() -> Vec<(Record, Call)> {
    let mut pitched = pitched();
    pitched.number = 65_534;
    let mut calls = shifted();
    let mut spoiled = pitched.clone();
    spoiled.count = TAKE_LIMIT as u64 + 1;
    for (size, room) in [(0, 9), (513, 9), (512, 8), (0, 8)] {
        let call = night(spoiled.next_number(), size, &[5; 9], room);
        calls.push((spoiled.clone(), call));
    }
    for size in SIZES {
        pitched.length = size.clamp(1, LONGEST_BLOCK as u64) as u16;
        let mut near = pitched.clone();
        // The same phases, and room for 320 samples.
        near.count = TAKE_LIMIT as u64 - 320;
        for record in [&pitched, &near] {
            calls.extend(
                calls_with(record, size)
                    .into_iter()
                    .map(|call| (record.clone(), call)),
            );
        }
    }
    calls
}

/// Drawn almost an octave up, level with the input; and down, far behind it.
fn shifted() -> Vec<(Record, Call)> {
    let mut calls = Vec::new();
    for (key, behind) in [(80, 0), (58, 65_536_000)] {
        let mut record = pitched();
        record.settings.mode = KEYBOARD;
        (record.key, record.behind) = (key, behind);
        for size in [1, 2, 37, 64, 511, 512] {
            let on = square(1_300);
            let call = night(record.next_number(), size, &on, on.len());
            calls.push((record.clone(), call));
        }
    }
    calls
}

/// The wave of the record that is pitched, from where that ends.
pub(super) fn square(length: i16) -> Vec<i16> {
    (0..length)
        .map(|at| 9_000 * (at / 48 % 2) - 4_500)
        .collect()
}

fn calls_with(record: &Record, size: u64) -> Vec<Call> {
    let last = record.last_samples();
    let on = [last, &square(600)].concat();
    let mut other = on.clone();
    other[last.len() - 1] ^= 1;
    let recordings = [&[], &on[..1], last, &on, &other];
    let mut calls = Vec::new();
    for first in [record.next_number(), record.number, record.number - 1] {
        for recording in recordings {
            calls.push(night(first, size, recording, recording.len() + 1));
        }
    }
    for room in [on.len() - 1, on.len()] {
        calls.push(night(record.next_number(), size, &on, room));
        calls.push(night(record.number, size, &on, room));
    }
    calls
}

/// The newest cycle of what is tracked.
fn cycle_of(record: &Record) -> Option<&[i16]> {
    let lag = record.last as usize;
    let tracked = record.tracking == 1 && (LOWEST_LAG..=HIGHEST_LAG).contains(&lag);
    tracked.then(|| &record.heard[record.heard.len() - lag..])
}

/// The cycle over and over, so that it is tracked through the night.
fn sing_on(cycle: &[i16], samples: &mut [i16]) {
    for (sample, &sung) in samples.iter_mut().zip(cycle.iter().cycle()) {
        *sample = sung;
    }
}

/// A night: the next blocks, the last again and the next ones behind it, nearly
/// the last again, or some other.
pub fn any_night(random: &mut Random, record: &Record) -> Call {
    let last = record.last_samples();
    let again = random.chance(400);
    let first = match random.whole(0, 19) {
        0 => random.next() as u16,
        1 => record.number.wrapping_sub(1),
        _ if again => record.number,
        _ => record.next_number(),
    };
    let some = random.whole(1, LONGEST_BLOCK);
    let size = match random.whole(0, 11) {
        0 => random.one_of(&SIZES),
        1 => last.len() as u64 + 1,
        2..=5 if !again => random.one_of(&[1, 2, 64, 511, 512]),
        6..=8 if !again => some as u64,
        _ => last.len().max(1) as u64,
    };
    // Whole blocks, and mostly a part of one.
    let blocks = random.one_of(&[0, 1, 1, 2, 3, 5, 40]);
    let whole = size.clamp(1, LONGEST_BLOCK as u64) as usize;
    let mut samples = vec![0; blocks * whole + random.whole(0, whole - 1)];
    match cycle_of(record) {
        Some(cycle) if random.chance(600) => sing_on(cycle, &mut samples),
        _ => noise(random, &mut samples),
    }
    if again {
        samples.splice(..0, last.iter().copied());
        if random.chance(100) && !last.is_empty() {
            samples[random.whole(0, last.len() - 1)] ^= 1;
        }
    }
    samples.truncate(LONGEST_NIGHT);
    let room = match random.whole(0, 9) {
        0 => samples.len().saturating_sub(1),
        1 => random.whole(0, samples.len()),
        2 => samples.len() + random.whole(1, 700),
        _ => samples.len(),
    };
    let mut out = vec![0; room];
    noise(random, &mut out);
    Call::Night {
        first,
        size,
        samples,
        lent: Lent::out(out),
    }
}
