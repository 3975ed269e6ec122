//! Calls over records that keep a list of the notes sung: listings with a number
//! at the end of its range and just past it, and stores of every length.

use super::edges::pitched;
use super::nights::{night, square};
use super::random::Random;
use super::sound::{sing, Passage, Wave};
use crate::calls::Call;
use crate::list::{Listing, MOST_ROWS, NO_PLACE, ROW};
use crate::record::Record;
use crate::settings::{Settings, KEYBOARD};
use crate::table::{CD, FILM};
use crate::tuner::TAKE_LIMIT;

/// Longer stores are not lent.
pub const LONGEST_STORE: usize = ROW * MOST_ROWS + 20;

/// Lengths of short stores: without room, and with room for few rows.
pub(super) const SHORT: [usize; 9] = [0, 1, 2, 3, 4, 5, 6, 9, 14];
/// Lengths about that of the longest list.
const LONG: [usize; 5] = [12_285, 12_287, 12_288, 12_290, 12_300];

/// Good after 2,400 samples.
pub const GOOD: &[[u32; 4]] = &[
    [0, 0, NO_PLACE, 0],
    [0, 0, NO_PLACE, 2_400],
    [1, 0, 0, 0],
    [1, 0, 0, 2_400],
    [1, 3, NO_PLACE, 2_399],
    [2, 0, 1, 2_000],
    [2, 0, 0, 7],
    [3, 0, 2, 2_100],
    [2_400, 0, 2_399, 2_400],
    [2_399, 1, 0, 2_400],
    [0, 2_400, NO_PLACE, 0],
];

/// No longer good then; of some a sum of 32 bits would be.
pub const BAD: &[[u32; 4]] = &[
    [0, 0, 0, 0],
    [1, 0, 1, 0],
    [1, 0, NO_PLACE - 1, 0],
    [1, 0, NO_PLACE + 1, 0],
    [1, 0, u32::MAX, 0],
    [2_401, 0, 0, 0],
    [1, 2_400, 0, 0],
    [0, u32::MAX, NO_PLACE, 0],
    [1, u32::MAX, 0, 0],
    [0, 0, NO_PLACE, 2_401],
    [0, 0, NO_PLACE, u32::MAX],
    [u32::MAX, 1, 0, 0],
];

/// A store of so many numbers, none of which is in a row.
pub(super) fn store(numbers: usize) -> Vec<u32> {
    (0..numbers as u32).map(|at| 0xABCD_0000 + at).collect()
}

/// The record with this listing, and the call with a store of so many numbers.
pub fn listed(record: &Record, list: Listing, numbers: usize, call: Call) -> (Record, Call) {
    let record = Record {
        list,
        ..record.clone().with_list()
    };
    (record, call.with_store(store(numbers)))
}

pub(super) fn block(number: u16, samples: &[i16]) -> Call {
    Call::block(number, samples, vec![77; samples.len() + 1])
}

/// A start that asks for a list by this number.
pub(super) fn start_listed(hertz: u32, settings: Settings, listed: u32) -> Call {
    Call::Start {
        hertz,
        settings,
        listed,
        intervals: vec![],
        store: vec![],
    }
}

/// Over a record whose note goes on and one in which a key is struck: every
/// listing with every short store, for a block, a night and a reset; blocks
/// that are given again, refused and lost; the same over one that keeps no list;
/// lists that are full or nearly so; starts; and a take of several notes in one
/// night.
pub fn list_choices() -> Vec<(Record, Call)> {
    let going_on = pitched();
    let mut struck = going_on.clone();
    (struck.settings.mode, struck.key) = (KEYBOARD, 72);
    let listings: Vec<Listing> = [GOOD, BAD].concat().into_iter().map(Listing::of).collect();
    let mut calls = Vec::new();
    for record in [&going_on, &struck] {
        let next = record.next_number();
        for listing in &listings {
            for numbers in SHORT {
                let mut over = |call| calls.push(listed(record, *listing, numbers, call));
                over(block(next, &square(12)));
                over(night(next, 5, &square(23), 23));
            }
        }
    }
    let middle = Listing::of([2, 1, 1, 2_000]);
    for numbers in SHORT {
        for listing in &listings {
            let reset = Call::Reset(vec![]);
            calls.push(listed(&going_on, *listing, numbers, reset));
        }
        for call in starts() {
            calls.push(listed(&going_on, middle, numbers, call));
        }
        for call in going_on_with(&going_on) {
            let (with, call) = listed(&going_on, middle, numbers, call);
            let without = Record {
                listed: 0,
                ..with.clone()
            };
            calls.extend([(with, call.clone()), (without, call)]);
        }
    }
    calls.extend(kept_or_not(&going_on));
    calls.extend(full(&struck));
    calls.extend(glide());
    calls
}

/// Starts that keep a list or none, taken and refused.
fn starts() -> Vec<Call> {
    let mut calls = Vec::new();
    for hertz in [CD, FILM, CD + 1] {
        for settings in [Settings::DEFAULT, Settings::of([0, 410, 256, 0])] {
            for keep in [0, 1, 2, u32::MAX] {
                calls.push(start_listed(hertz, settings, keep));
            }
        }
    }
    calls
}

/// Blocks and nights given again, refused, lost and found.
fn going_on_with(record: &Record) -> Vec<Call> {
    let (next, last) = (record.next_number(), record.last_samples());
    vec![
        block(record.number, last),
        block(record.number, &last[1..]),
        block(next, &[0; 300]),
        block(record.number - 1, last),
        // Given again, then lost; and lost, then found again.
        night(record.number, 480, &[last, &[0; 700]].concat(), 1_180),
        night(next, 64, &[vec![0; 400], square(1_500)].concat(), 1_900),
        night(record.number, 0, last, 480),
        Call::Reset(vec![]),
    ]
}

/// Whether a list is kept, at the end of its range and past it.
fn kept_or_not(record: &Record) -> Vec<(Record, Call)> {
    let mut calls = Vec::new();
    for keeps in [0, 1, 2, 3, 256, 1 << 31, u32::MAX] {
        for call in [
            block(record.next_number(), &square(12)),
            Call::Reset(vec![]),
            Call::Meter,
        ] {
            let (mut record, call) = listed(record, Listing::FRESH, 9, call);
            record.listed = keeps;
            calls.push((record, call));
        }
    }
    calls
}

/// A list that is full or lacks one row, after so many samples.
fn full(struck: &Record) -> Vec<(Record, Call)> {
    let mut record = struck.clone();
    record.count = 999_998_400;
    let mut calls = Vec::new();
    for words in [
        [4_095, 0, 4_094, 7],
        [4_095, 9, NO_PLACE, 999_998_000],
        [4_096, 0, 4_095, 999_998_400],
        [4_096, 999_994_304, NO_PLACE, 0],
        [4_096, 999_994_305, NO_PLACE, 0],
        [4_097, 0, 0, 0],
    ] {
        for numbers in LONG {
            let call = block(record.next_number(), &square(12));
            calls.push(listed(&record, Listing::of(words), numbers, call));
        }
    }
    calls
}

/// A fresh tuner's take that glides through several notes, in one night.
fn glide() -> Vec<(Record, Call)> {
    let settings = Settings::of([4_095, 409, 0, 1]);
    let wave = Wave::Partials(vec![0.7, 0.3]);
    let passage = Passage::of(wave, 60.0, 2_500).gliding(45.0).loud(9_000.0);
    let sung = sing(&passage, &mut 0.0, &mut Random::seeded(1));
    let mut calls = Vec::new();
    for size in [512, 64, 7] {
        for numbers in SHORT.into_iter().chain([30, 12_288]) {
            let call = night(0, size, &sung, sung.len());
            let fresh = Record::fresh(CD, settings);
            calls.push(listed(&fresh, Listing::FRESH, numbers, call));
        }
    }
    calls
}

/// A store's length, most often about that of the list.
pub(super) fn any_length(random: &mut Random, listing: &Listing) -> usize {
    let rows = listing.rows.min(NO_PLACE) as usize;
    let numbers = match random.whole(0, 9) {
        0..=2 => random.one_of(&SHORT),
        3..=6 => ROW * rows + random.one_of(&[0, 1, 3, 3, 5, 6, 12]),
        7 => ROW * random.whole(0, rows),
        8 => random.whole(0, 40),
        _ => random.one_of(&[&SHORT[..], &LONG].concat()),
    };
    numbers.min(LONGEST_STORE)
}

/// A listing, most often one that may stand beside the record.
pub(super) fn any_listing(random: &mut Random, record: &Record) -> Listing {
    let count = record.count.min(TAKE_LIMIT as u64) as usize;
    let most = random.one_of(&[3, 3, 3, 12, 12, 40, MOST_ROWS]);
    let rows = random.whole(0, most.min(count));
    let others = count - rows;
    let most = random.one_of(&[0, 0, 3.min(others), others]);
    let left = random.whole(0, most);
    let early = random.whole(0, count);
    let first = random.one_of(&[early, count - count.min(40), count.saturating_sub(1), count]);
    let place = match random.whole(0, 9) {
        _ if rows == 0 => NO_PLACE as usize,
        0..=1 => NO_PLACE as usize,
        2 => random.whole(0, rows - 1),
        _ => rows - 1,
    };
    let mut words = [rows, left, place, first].map(|number| number as u32);
    if random.chance(100) {
        let near = [rows, count - rows, rows + 1, count + 1, 4_096, 4_097, 0];
        let (some, any) = (random.one_of(&near) as u32, random.next() as u32);
        words[random.whole(0, 3)] = random.one_of(&[some, some, u32::MAX, any]);
    }
    Listing::of(words)
}
