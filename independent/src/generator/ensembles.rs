//! Calls over records with a list and voices: their numbers at the end of their
//! ranges and just past it, starts with every sort of intervals, outputs and
//! stores of every length.

use super::edges::{after_the_wave, altered, calls_over, edges, Alter, PAST_32_BITS};
use super::lists::{block, start_listed, store, BAD, GOOD};
use super::nights::{night, square};
use super::random::Random;
use super::voices::{chosen, refused};
use crate::calls::{made, Call};
use crate::list::{Listing, ROW};
use crate::record::{Record, LAYOUT};
use crate::settings::{Settings, KEYBOARD};
use crate::table::{CD, FILM};
use crate::tuner::TAKE_LIMIT;
use crate::voices::MOST_VOICES;

/// Still good.
const GOOD_VOICES: &[Alter] = &[
    |_| {},
    |record| record.chosen = 0,
    |record| record.chosen = 1,
    |record| record.chosen = 2,
    // Nothing beyond the chosen voices is looked at.
    |record| {
        record.chosen = 0;
        (0..3).for_each(|place| record.voices[place].interval = 25);
    },
    |record| {
        record.chosen = 1;
        (record.voices[1].behind, record.voices[2].interval) = (65_536_001, u32::MAX);
    },
    |record| {
        record.chosen = 2;
        (record.voices[2].interval, record.voices[2].behind) = (25, u32::MAX);
    },
    |record| record.voices[0].interval = 0,
    |record| record.voices[0].interval = 24,
    |record| record.voices[1].interval = 24,
    |record| record.voices[2].interval = 24,
    |record| record.voices[0].behind = 0,
    |record| record.voices[0].behind = 65_536_000,
    |record| record.voices[1].behind = 65_536_000,
    |record| record.voices[2].behind = 65_536_000,
    |record| record.outs[1] = [i16::MIN; 512],
    |record| (1..4).for_each(|place| record.outs[place] = [place as i16; 512]),
    // Beside a wanted note outside the table a voice within it, and the other way round.
    |record| (record.note, record.voices[0].interval) = (20, 24),
    |record| (record.note, record.voices[1].interval) = (112, 0),
    |record| (record.note, record.voices[2].interval) = (100, 13),
    |record| (record.note, record.voices[2].interval) = (32, 11),
    // A voice without a wanted note, and one without a period, that is not level.
    |record| record.note = 128,
    |record| (record.period, record.rate) = (0, 65_536),
    |record| record.hertz = FILM.into(),
    |record| record.listed = 0,
];

/// No longer good.
const BAD_VOICES: &[Alter] = &[
    |record| record.layout = LAYOUT - 1,
    |record| record.layout = LAYOUT + 1,
    |record| record.layout = LAYOUT + PAST_32_BITS,
    // The layouts that records without voices and with them had before.
    |record| record.layout = 20_006,
    |record| record.layout = 30_001,
    |record| record.chosen = 4,
    |record| record.chosen = 5,
    |record| record.chosen = 256,
    |record| record.chosen = 1 << 31,
    |record| record.chosen = u32::MAX,
    |record| record.voices[0].interval = 25,
    |record| record.voices[1].interval = 25,
    |record| record.voices[2].interval = 25,
    |record| (record.chosen, record.voices[0].interval) = (1, 25),
    |record| (record.chosen, record.voices[1].interval) = (2, 25),
    |record| record.voices[0].interval = 256,
    |record| record.voices[2].interval = u32::MAX,
    |record| record.voices[0].behind = 65_536_001,
    |record| record.voices[1].behind = 65_536_001,
    |record| record.voices[2].behind = 65_536_001,
    |record| (record.chosen, record.voices[0].behind) = (1, 65_536_001),
    |record| (record.chosen, record.voices[1].behind) = (2, 65_536_001),
    |record| record.voices[1].behind = u32::MAX,
    |record| record.listed = 2,
    |record| record.listed = 257,
    |record| record.listed = u32::MAX,
];

/// Intervals to start with: those that are taken first.
const INTERVALS: &[&[i32]] = &[
    &[],
    &[0],
    &[-12, 12],
    &[12, -12, 4],
    &[-13],
    &[0, 0, 13],
    &[i32::MIN, 4],
    &[i32::MAX],
    &[0; 4],
    &[0, 0, 0, 13],
    &[-12; 300],
];

/// So much room in each voice's output.
type Rooms = [usize; MOST_VOICES];

/// The call with these outputs for the voices, and a store of so many numbers.
pub fn voiced(rooms: Rooms, numbers: usize, call: Call) -> Call {
    call.with_voices(rooms.map(|room| vec![55; room]))
        .with_store(store(numbers))
}

/// The record after a call that it takes, which goes on in this store.
pub(super) fn reached_by(record: &Record, rows: &mut Vec<u32>, call: Call) -> Record {
    let length = call.samples().len();
    let call = voiced([length; MOST_VOICES], 0, call).with_store(rows.clone());
    let left = made(&record.bytes(), &call);
    assert_eq!(left.answer.number, 0, "a take that is played is taken");
    if length > 0 {
        *rows = left.lent.store;
    }
    Record::of_bytes(&left.record)
}

/// The record that is pitched, with a list and three voices that sound.
pub fn pitched_ensemble() -> Record {
    let fresh = Record::fresh(CD, Settings::AT_ONCE);
    after_the_wave(fresh.with_list().with_voices(&[4, -3, 12]))
}

/// The records that have a number of the voices at the end of its range or just
/// past it, and whether each is good.
fn voice_edges() -> Vec<(Record, bool)> {
    altered(&pitched_ensemble(), GOOD_VOICES, BAD_VOICES)
}

/// Those that have one of the lead or of the listing there.
fn lead_edges() -> Vec<(Record, bool)> {
    let pitched = pitched_ensemble();
    let with_list = |words: &[u32; 4]| Record {
        list: Listing::of(*words),
        ..pitched.clone()
    };
    let with_lead = |lead: Record| Record {
        listed: 1,
        chosen: pitched.chosen,
        voices: pitched.voices,
        ..lead
    };
    let leads = edges().into_iter();
    let leads = leads.map(|(lead, good)| (with_lead(lead), good));
    let good = GOOD.iter().map(|words| (with_list(words), true));
    let bad = BAD.iter().map(|words| (with_list(words), false));
    leads.chain(good).chain(bad).collect()
}

pub fn ensemble_edges() -> Vec<(Record, bool)> {
    [voice_edges(), lead_edges()].concat()
}

/// Over each record with a number of the voices at the end of its range or just
/// past it every call, and over each with one of lead or listing there two of
/// them in turn; starts and resets with the shortest stores; outputs of every
/// length; every refusal; voices that are far from the input or level with it.
pub fn ensemble_choices() -> Vec<(Record, Call)> {
    let mut calls = Vec::new();
    for (record, _) in voice_edges() {
        let over = calls_over(&record).into_iter();
        calls.extend(over.map(|call| (record.clone(), call)));
    }
    for (place, (record, _)) in lead_edges().into_iter().enumerate() {
        let over = calls_over(&record).into_iter().cycle();
        let over = over.skip(2 * place).take(2);
        calls.extend(over.map(|call| (record.clone(), call)));
    }
    let pitched = pitched_ensemble();
    // None lent, without room for a row, and with room for one.
    for numbers in 0..=ROW {
        let reset = Call::Reset(store(numbers));
        let over = starts(numbers).into_iter().chain([reset]);
        calls.extend(over.map(|call| (pitched.clone(), call)));
    }
    calls.extend(lent(&pitched));
    calls.extend(judged(&pitched));
    calls.extend(far_and_level(&pitched));
    calls
}

/// Starts with all sorts of intervals, with a list and without, at known rates
/// and at one that is not, with settings that are good and bad.
fn starts(numbers: usize) -> Vec<Call> {
    let mut calls = Vec::new();
    for intervals in INTERVALS {
        for (hertz, settings, keep) in [
            (CD, Settings::AT_ONCE, 1),
            (FILM, Settings::DEFAULT, 0),
            (CD, Settings::of([0, 410, 256, 0]), 1),
            (CD + 1, Settings::DEFAULT, 1),
        ] {
            let call = start_listed(hertz, settings, keep).with_store(store(numbers));
            calls.push(with_intervals(call, intervals));
        }
    }
    calls
}

/// The start with these intervals.
pub(super) fn with_intervals(mut call: Call, chosen: &[i32]) -> Call {
    if let Call::Start { intervals, .. } = &mut call {
        *intervals = chosen.to_vec();
    }
    call
}

/// With none to three voices chosen, the output of each of the three that is not
/// lent, one sample short, just as long and longer; beside it those of the
/// chosen voices just as long, and no other lent.
fn lent(pitched: &Record) -> Vec<(Record, Call)> {
    let next = pitched.next_number();
    let (number, last) = (pitched.number, pitched.last_samples());
    let mut calls = Vec::new();
    for count in 0..=MOST_VOICES {
        let mut record = pitched.clone();
        record.chosen = count as u32;
        for call in [
            block(next, &square(12)),
            block(number, last),
            night(next, 5, &square(23), 23),
            night(number, 480, &[last, &[0; 700]].concat(), 1_180),
        ] {
            let long = call.samples().len();
            for place in 0..MOST_VOICES {
                for room in [0, long - 1, long, long + 7] {
                    let mut rooms = [0, 1, 2].map(|place| if place < count { long } else { 0 });
                    rooms[place] = room;
                    calls.push((record.clone(), voiced(rooms, 9, call.clone())));
                }
            }
        }
    }
    calls
}

/// Blocks and nights that each refusal is for, and some that are taken, with and
/// without room for the voices: over a good record whose next numbers wrap, over
/// one near the limit of a take, and over one with a bad voice.
fn judged(pitched: &Record) -> Vec<(Record, Call)> {
    let mut pitched = pitched.clone();
    pitched.number = 65_534;
    let next = pitched.next_number();
    let (number, last) = (pitched.number, pitched.last_samples());
    let (mut near, mut bad) = (pitched.clone(), pitched.clone());
    // The same phases, and room for 40 samples.
    near.count = TAKE_LIMIT as u64 - 40;
    bad.voices[2].interval = 25;
    let mut calls = Vec::new();
    for record in [&pitched, &near, &bad] {
        for call in [
            block(next, &[]),
            block(next, &[0; 513]),
            block(next, &square(64)),
            block(number, last),
            block(number, &last[1..]),
            block(number - 1, last),
            night(next, 0, &square(9), 9),
            night(next, 513, &square(9), 9),
            night(next, 16, &square(64), 64),
            night(next, 16, &[], 0),
            night(number, 480, last, 480),
            night(number, 480, &[last, &square(64)].concat(), 544),
            night(number, 480, &last[1..], 479),
            night(number - 1, 480, last, 480),
        ] {
            for room in [0, call.samples().len()] {
                let call = voiced([room; MOST_VOICES], 6, call.clone());
                calls.push((record.clone(), call));
            }
        }
    }
    calls
}

/// Nights in which lead and voices repeat and drop many cycles, from level with
/// the input and from the farthest place on.
fn far_and_level(pitched: &Record) -> Vec<(Record, Call)> {
    let on = square(1_300);
    let mut calls = Vec::new();
    for intervals in [[24, 0, 12], [0, 24, 5]] {
        for (key, behind) in [(80, 0), (58, 65_536_000)] {
            let mut record = pitched.clone();
            (record.settings.mode, record.listed) = (KEYBOARD, 0);
            (record.key, record.behind) = (key, behind.into());
            for (voice, interval) in record.voices.iter_mut().zip(intervals) {
                (voice.interval, voice.behind) = (interval, behind);
            }
            for size in [1, 37, 512] {
                let call = night(record.next_number(), size, &on, on.len());
                let call = voiced([on.len(); MOST_VOICES], 0, call);
                calls.push((record.clone(), call));
            }
        }
    }
    calls
}

/// Every byte of the record that is pitched, one after the other, with one bit of
/// it turned, under the next block and under the last one again.
pub fn turned_bits() -> impl Iterator<Item = (Vec<u8>, Call)> {
    let pitched = pitched_ensemble();
    let bytes = pitched.bytes();
    let calls: Vec<Call> = calls_over(&pitched).into_iter().take(2).collect();
    (0..bytes.len()).flat_map(move |place| {
        let mut turned = bytes.clone();
        turned[place] ^= 1 << (place % 8);
        let over = calls.clone().into_iter();
        over.map(move |call| (turned.clone(), call))
    })
}

/// One number of the voices altered, most often to the edge of its range.
pub(super) fn alter_voices(random: &mut Random, record: &mut Record) {
    let place = random.whole(0, MOST_VOICES - 1);
    let voice = &mut record.voices[place];
    match random.whole(0, 19) {
        0..=2 => record.chosen = random.whole(0, MOST_VOICES) as u32,
        3 => record.chosen = random.one_of(&[4, 5, 255, 256, 1 << 31, u32::MAX]),
        4..=7 => voice.interval = random.whole(0, 24) as u32,
        8 => voice.interval = random.one_of(&[0, 12, 24, 25, 26, 256, u32::MAX]),
        9 => voice.behind = random.one_of(&[0, 1, 65_535_999, 65_536_000]),
        10 => voice.behind = random.one_of(&[65_536_001, 65_600_000, 1 << 31, u32::MAX]),
        11..=15 => voice.behind = random.whole(0, 65_536_000) as u32,
        16..=18 => super::cases::noise(random, &mut record.outs[1 + place]),
        _ => record.listed = random.one_of(&[0, 1, 2, 256, u32::MAX]),
    }
}

/// Intervals of a start, two in three times such that it takes.
pub(super) fn any_intervals(random: &mut Random) -> Vec<i32> {
    match random.whole(0, 8) {
        0..=5 => chosen(random),
        6 | 7 => refused(random),
        _ => vec![random.next() as i32],
    }
}

/// Room in an output beside so many samples, for a chosen voice seldom too little.
pub(super) fn room(random: &mut Random, is_chosen: bool, length: usize) -> usize {
    let most = if is_chosen { 24 } else { 9 };
    match random.whole(0, most) {
        0 => 0,
        1 => length.saturating_sub(1),
        2 => random.whole(0, length),
        3..=6 => length + random.whole(1, 64),
        _ => length,
    }
}
