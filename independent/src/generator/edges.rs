//! Records with a number at the end of its range, and with one just past it,
//! number by number as `docs/RANGES.md` lists them; and calls over each.

use super::lists::{block, store};
use super::nights::{nights_over, square};
use crate::calls::{made, Call};
use crate::record::{Record, LAYOUT, SIZE};
use crate::settings::Settings;
use crate::table::{CD, FILM};
use crate::voices::MOST_VOICES;

pub(super) type Alter = fn(&mut Record);

/// What a number of 32 bits would lose.
pub(super) const PAST_32_BITS: u64 = 1 << 32;
/// Versions 1 and 2 of the calls had no number of a layout: their records began with scale and eps.
pub const BEGINNING_OF_OLD: u64 = 4_095 | 100 << 32;

/// Still good, with the sums of what is then kept.
const GOOD: &[Alter] = &[
    |_| {},
    |record| *record = Record::default_start(),
    |record| *record = Record::fresh(FILM, Settings::DEFAULT),
    |record| record.settings = settings([1, 0, 0, 1, 0, 0]),
    |record| record.settings = settings([4_095, 409, 255, 1_000_000, 1, 15]),
    |record| record.hertz = 48_000,
    |record| keyboard(record, (0, 128, 0)),
    |record| keyboard(record, (127, 191, 127)),
    |record| keyboard(record, (128, 224, 128)),
    |record| keyboard(record, (60, 239, 1)),
    |record| keyboard(record, (60, 192, 128)),
    |record| keyboard(record, (60, 223, 128)),
    |record| keyboard(record, (60, 0, 128)),
    // In keyboard mode the note of the last step, and the key of the next.
    |record| {
        (record.settings.mode, record.settings.channel) = (1, 9);
        keyboard(record, (101, 153, 60));
    },
    |record| record.count = 1_000_000_000,
    // A night's second or third block would pass the limit.
    |record| record.count = 999_999_998,
    |record| alone(record, |fresh| fresh.count = 1_763),
    |record| alone(record, |fresh| (fresh.count, fresh.heard[0]) = (1_764, 1)),
    |record| alone(record, |fresh| (fresh.count, fresh.eighths[0]) = (1_792, 1)),
    |record| (record.low, record.last) = (16, 16),
    |record| (record.low, record.last) = (16, 23),
    |record| (record.low, record.last) = (873, 873),
    |record| (record.low, record.last) = (873, 880),
    |record| record.period = 4_096,
    |record| record.period = 225_280,
    |record| record.note = 0,
    |record| record.note = 31,
    |record| record.note = 32,
    |record| record.note = 100,
    |record| record.note = 101,
    |record| record.note = 127,
    // Each rate has its own table.
    |record| filmed(record, 32),
    |record| filmed(record, 33),
    |record| filmed(record, 101),
    |record| filmed(record, 102),
    |record| filmed(record, 103),
    // No wanted note.
    |record| record.note = 128,
    |record| record.rate = 32_768,
    |record| record.rate = 131_072,
    |record| record.kept = 1,
    |record| record.kept = 255,
    // Locking, and searching with any lags: a note without a period is not looked at, and something may be kept.
    |record| (record.period, record.note, record.rate) = (0, u32::MAX, 65_536),
    |record| (record.period, record.rate, record.kept) = (0, 65_536, 255),
    |record| {
        searching(record);
        (record.low, record.last, record.note) = (u32::MAX, 0, u32::MAX);
        (record.e[0], record.h[7]) = (u64::MAX, i64::MIN);
    },
    |record| {
        searching(record);
        record.kept = 255;
    },
    |record| alone(record, |fresh| fresh.kept = 255),
    // With something kept comes a step, which adds it, at decay 0 too; one that loses; one that is the first; and a find.
    |record| stepping(record, (0, 255), 65_536),
    |record| stepping(record, (255, 0), 32_768),
    |record| stepping(record, (255, 255), 131_072),
    |record| stepping(record, (255, 128), 66_504),
    |record| stepping(record, (255, 255), 66_505),
    |record| stepping(record, (200, 254), 66_506),
    |record| stepping(record, (1, 1), 65_536),
    // A step by the table of the other rate, also toward a key that is in one of them alone.
    |record| {
        stepping(record, (0, 0), 65_536);
        record.hertz = 48_000;
    },
    |record| stepping_to(record, 44_100, 32),
    |record| stepping_to(record, 48_000, 32),
    |record| stepping_to(record, 44_100, 101),
    |record| stepping_to(record, 48_000, 101),
    |record| {
        stepping(record, (255, 255), 65_536);
        record.settings.eps = 0;
    },
    |record| {
        stepping(record, (255, 255), 65_536);
        record.period = 0;
    },
    |record| {
        searching(record);
        (record.note, record.kept, record.count) = (60, 255, 2_405);
    },
    |record| record.behind = 0,
    |record| record.behind = 65_536_000,
    |record| record.number = 65_535,
    |record| record.number = 65_533,
    |record| record.length = 0,
    |record| record.length = 1,
    |record| record.length = 512,
    |record| alone(record, |fresh| (fresh.count, fresh.length) = (8, 8)),
    |record| (record.repeated, record.dropped) = (u16::MAX, u16::MAX),
    |record| (record.pitched, record.strayed) = (u32::MAX, u32::MAX),
    |record| record.outs[0] = [i16::MIN; 512],
];

/// No longer good, though the sums are those of what is then kept.
const BAD: &[Alter] = &[
    |record| record.layout = 0,
    |record| record.layout = LAYOUT - 1,
    |record| record.layout = LAYOUT + 1,
    |record| record.layout = LAYOUT + PAST_32_BITS,
    |record| record.layout = BEGINNING_OF_OLD,
    |record| record.layout = u64::MAX,
    |record| record.settings.scale = 0,
    |record| record.settings.scale = 4_096,
    |record| record.settings.eps = 410,
    |record| record.settings.decay = 256,
    |record| record.settings.floor = 0,
    |record| record.settings.floor = 1_000_001,
    |record| record.settings.mode = 2,
    |record| record.settings.mode = u32::MAX,
    |record| record.settings.channel = 16,
    |record| record.settings.channel = u32::MAX,
    |record| record.hertz = 0,
    |record| record.hertz = 44_099,
    |record| record.hertz = 44_101,
    |record| record.hertz = 47_999,
    |record| record.hertz = 48_001,
    |record| record.hertz = 96_000,
    |record| record.hertz += PAST_32_BITS,
    |record| record.hertz = u64::MAX,
    |record| alone(record, |fresh| fresh.hertz = 0),
    |record| alone(record, |fresh| fresh.hertz = 48_000 + PAST_32_BITS),
    |record| keyboard(record, (129, 0, 128)),
    |record| keyboard(record, (256, 0, 128)),
    |record| keyboard(record, (u32::MAX, 0, 128)),
    |record| keyboard(record, (60, 1, 128)),
    |record| keyboard(record, (60, 127, 128)),
    |record| keyboard(record, (60, 240, 128)),
    |record| keyboard(record, (60, 256, 128)),
    |record| keyboard(record, (60, 400, 128)),
    |record| keyboard(record, (60, 144, 129)),
    |record| keyboard(record, (60, 144, 255)),
    |record| keyboard(record, (60, 144, 256)),
    |record| keyboard(record, (60, 144, u16::MAX)),
    // A half message under no status, and under one with a single data byte.
    |record| keyboard(record, (60, 0, 60)),
    |record| keyboard(record, (60, 192, 0)),
    |record| keyboard(record, (60, 223, 127)),
    |record| record.count = 1_000_000_001,
    |record| record.count += PAST_32_BITS,
    |record| record.count = u64::MAX,
    |record| alone(record, |fresh| (fresh.count, fresh.heard[0]) = (1_763, 1)),
    |record| alone(record, |fresh| (fresh.count, fresh.eighths[0]) = (1_791, 1)),
    |record| (record.low, record.last) = (15, 16),
    |record| (record.low, record.last) = (874, 874),
    |record| record.last = record.low - 1,
    |record| record.last = record.low + 8,
    |record| record.period = 1,
    |record| record.period = 4_095,
    |record| record.period = 225_281,
    |record| record.note = 129,
    |record| record.note = u32::MAX,
    |record| record.rate = 32_767,
    |record| record.rate = 131_073,
    |record| record.kept = 256,
    |record| record.kept = 511,
    |record| record.kept = 65_536,
    |record| record.kept = u32::MAX,
    |record| (record.kept, record.settings.decay) = (256, 255),
    |record| (record.period, record.rate, record.kept) = (0, 65_536, 256),
    |record| {
        searching(record);
        record.kept = 256;
    },
    |record| alone(record, |fresh| fresh.kept = 256),
    |record| alone(record, |fresh| fresh.kept = u32::MAX),
    |record| (record.period, record.rate) = (0, 65_535),
    |record| (record.period, record.rate) = (0, 65_537),
    |record| {
        searching(record);
        record.rate = 65_537;
    },
    |record| record.tracking = 0,
    |record| record.tracking = 2,
    |record| record.tracking = 257,
    |record| record.tracking = 0xFFFF_FFFF,
    // What a number of 32 bits would lose.
    |record| record.tracking = PAST_32_BITS,
    |record| record.tracking |= PAST_32_BITS,
    |record| record.tracking = u64::MAX,
    |record| {
        searching(record);
        record.tracking = 2;
    },
    |record| {
        searching(record);
        record.tracking = PAST_32_BITS;
    },
    |record| alone(record, |fresh| fresh.tracking = PAST_32_BITS),
    |record| record.behind = 65_536_001,
    |record| record.behind += PAST_32_BITS,
    |record| record.behind = PAST_32_BITS,
    |record| record.behind = u64::MAX,
    |record| record.length = 513,
    |record| alone(record, |fresh| (fresh.count, fresh.length) = (7, 8)),
];

/// A sum that is not the direct one.
const WRONG_SUMS: &[Alter] = &[
    |record| record.energies[0] += 1,
    |record| record.energies[108] -= 1,
    |record| record.correlations[0] -= 1,
    |record| record.correlations[108] += 1,
    |record| record.e[0] -= 1,
    |record| record.e[7] += PAST_32_BITS,
    |record| record.h[0] += 1,
    |record| record.h[7] -= 1,
    |record| record.low += 1,
    |record| record.heard[1_763] += 1,
    |record| record.eighths[223] += 1,
];

/// All six, in the record's order.
fn settings([scale, eps, decay, floor, mode, channel]: [u32; 6]) -> Settings {
    Settings {
        mode,
        channel,
        ..Settings::of([scale, eps, decay, floor])
    }
}

/// At 48,000, with this note wanted.
fn filmed(record: &mut Record, note: u32) {
    (record.hertz, record.note) = (FILM.into(), note);
}

fn keyboard(record: &mut Record, (key, status, half): (u32, u16, u16)) {
    (record.key, record.status, record.half) = (key, status, half);
}

fn searching(record: &mut Record) {
    (record.tracking, record.period, record.rate) = (0, 0, 65_536);
}

/// The samples of the next block hold a tracking step; with this decay, what is kept, and the rate.
fn stepping(record: &mut Record, (decay, kept): (u32, u32), rate: u32) {
    (record.settings.decay, record.kept) = (decay, kept);
    (record.rate, record.count) = (rate, 2_402);
}

/// The same at this rate in keyboard mode, with this key held.
fn stepping_to(record: &mut Record, hertz: u64, key: u32) {
    stepping(record, (0, 0), 65_536);
    (record.hertz, record.settings.mode) = (hertz, 1);
    keyboard(record, (key, 144, 128));
}

/// A fresh record in the place of this one, so that nothing else is altered.
fn alone(record: &mut Record, alter: Alter) {
    *record = Record::default_start();
    alter(record);
}

/// A record that is pitched, after 2,400 samples of a square wave, at decay 0: it is at its goal, and nothing was kept on the way.
pub(super) fn pitched() -> Record {
    after_the_wave(Record::fresh(CD, Settings::AT_ONCE))
}

/// What these samples leave of a fresh record.
pub(super) fn after_the_wave(fresh: Record) -> Record {
    let record = (0..5).fold(fresh, |record, number| {
        let call = lent_to(&record, block(number, &square(480)));
        Record::of_bytes(&made(&record.bytes(), &call).record)
    });
    assert!(record.period > 0, "the wave is tracked");
    record
}

/// The call with outputs for the voices of this record, just as long as what is sent, and a store of few numbers for its list.
pub(super) fn lent_to(record: &Record, call: Call) -> Call {
    let (length, chosen) = (call.samples().len(), record.chosen());
    let room = |place: usize| if place < chosen { length } else { 0 };
    let voices = std::array::from_fn::<_, MOST_VOICES, _>(|place| vec![55; room(place)]);
    let numbers = if record.listed == 0 { 0 } else { 8 };
    call.with_voices(voices).with_store(store(numbers))
}

/// The fresh record of versions 1 and 2: settings, count, position, mode, period, note and rate, each of 32 bits, and then zeros. It
/// had 6928 bytes; here it has today's.
pub fn fresh_of_version_2() -> [u8; SIZE] {
    let mut bytes = [0; SIZE];
    let numbers: [u32; 10] = [4_095, 100, 0, 100, 0, 0, 0, 0, 0, 65_536];
    for (place, number) in bytes.chunks_exact_mut(4).zip(numbers) {
        place.copy_from_slice(&number.to_le_bytes());
    }
    bytes
}

/// Every choice of values, one of each row.
fn one_of_each<const ROWS: usize>(rows: [&[u32]; ROWS]) -> Vec<[u32; ROWS]> {
    let mut choices = vec![[0; ROWS]];
    for (place, row) in rows.into_iter().enumerate() {
        choices = choices
            .into_iter()
            .flat_map(|chosen| {
                row.iter().map(move |&value| {
                    let mut more = chosen;
                    more[place] = value;
                    more
                })
            })
            .collect();
    }
    choices
}

/// Starts and changes with every choice of good and bad settings, and with each at either bound, over a record at 48,000 that is pitched
/// and holds a key; each start also at a rate that is unknown.
pub fn choices() -> Vec<(Record, Call)> {
    let mut pitched = pitched();
    pitched.hertz = FILM.into();
    keyboard(&mut pitched, (60, 144, 62));
    let rows: [&[u32]; 6] = [
        &[4_095, 4_096],
        &[409, 410],
        &[255, 256],
        &[1, 0],
        &[1, 2],
        &[15, 16],
    ];
    let mut chosen = one_of_each(rows);
    chosen.extend([
        [0, 409, 255, 1, 1, 0],
        [1, 409, 255, 1_000_000, 0, 15],
        [1, 409, 255, 1_000_001, 2, 16],
        [1, 0, 0, 1, 1, 0],
    ]);
    let calls = chosen.into_iter().map(settings).flat_map(|chosen| {
        let starts = [CD, FILM, CD + 1].map(|hertz| Call::start(hertz, chosen));
        starts.into_iter().chain([Call::Change(chosen)])
    });
    calls.map(|call| (pitched.clone(), call)).collect()
}

/// This record so altered, and whether it is then good.
pub(super) fn altered(record: &Record, good: &[Alter], bad: &[Alter]) -> Vec<(Record, bool)> {
    let altered = |alter: &Alter| {
        let mut record = record.clone();
        alter(&mut record);
        record.with_right_sums()
    };
    let good = good.iter().map(|by| (altered(by), true));
    let bad = bad.iter().map(|by| (altered(by), false));
    good.chain(bad).collect()
}

/// The records with a number of the lead there, and whether each is good.
pub fn edges() -> Vec<(Record, bool)> {
    let pitched = pitched();
    let wrong = WRONG_SUMS.iter().map(|alter| {
        let mut record = pitched.clone();
        alter(&mut record);
        (record, false)
    });
    let mut edges = altered(&pitched, GOOD, BAD);
    edges.extend(wrong);
    edges
}

/// Every call that reads the record: the next block and the last again, nights that begin with these, changes that are allowed and one
/// that isn't, bytes of the keyboard, a reset, the meter. Each has what the record's voices and its list need.
pub fn calls_over(record: &Record) -> Vec<Call> {
    let [ones, again] = nights_over(record);
    let calls = [
        block(record.next_number(), &[1_000, -1_000, 500]),
        block(record.number, record.last_samples()),
        ones,
        again,
        Call::Change(Settings::DEFAULT),
        Call::Change(settings([0, 410, 256, 0, 2, 16])),
        Call::Change(settings([1, 409, 255, 1, 1, record.settings.channel])),
        Call::Midi(vec![]),
        Call::Midi(vec![100]),
        Call::Midi(vec![144, 60, 100, 62]),
        Call::Reset(vec![]),
        Call::Meter,
    ];
    calls.map(|call| lent_to(record, call)).to_vec()
}
