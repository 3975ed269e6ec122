//! Records with one number out of range: 9 comes before all, and the record
//! is given back unchanged.

use crate::keyboard::Keyboard;
use crate::rules::*;
use crate::settings::Settings;
use crate::statistics::Statistics;
use crate::tuner::*;

/// A tuner that is pitched, after 2,400 samples of a square wave.
fn pitched() -> Tuner {
    let mut tuner = Tuner::default_start();
    let samples: Vec<i16> = (0..480).map(|at| 9_000 * (at / 48 % 2) - 4_500).collect();
    for number in 0..5 {
        let mut output = [0; 480];
        tuner.block(number, &samples, &mut output, &mut Statistics::default());
    }
    assert!(matches!(tuner.meter(), Meter::Pitched(_)));
    tuner
}

/// Alters the tracking of a pitched tuner.
fn tracking(alter: fn(&mut Tracking)) -> Tuner {
    let mut tuner = pitched();
    if let Mode::Tracking(tracking) = &mut tuner.mode {
        alter(tracking);
    }
    tuner
}

fn pitch(period: i64, wanted_note: usize) -> Option<Pitch> {
    Some(Pitch {
        period,
        wanted_note: Some(wanted_note),
    })
}

/// A pitched tuner with this keyboard.
fn with_keyboard(key: Option<u8>, status: Option<u8>, half: Option<u8>) -> Tuner {
    let mut tuner = pitched();
    tuner.keyboard = Keyboard { key, status, half };
    tuner
}

fn altered(alter: fn(&mut Tuner)) -> Tuner {
    let mut tuner = pitched();
    alter(&mut tuner);
    tuner
}

#[test]
fn spoiled_records_are_refused_first() {
    let spoiled = [
        altered(|tuner| tuner.hertz = 0),
        altered(|tuner| tuner.hertz = 44_101),
        altered(|tuner| tuner.hertz = 47_999),
        altered(|tuner| tuner.settings.scale = 0),
        altered(|tuner| tuner.settings.floor = 1_000_001),
        altered(|tuner| tuner.settings.mode = 2),
        altered(|tuner| tuner.settings.channel = 16),
        with_keyboard(Some(128), None, None),
        with_keyboard(None, Some(127), None),
        with_keyboard(None, Some(240), None),
        with_keyboard(None, Some(144), Some(128)),
        with_keyboard(None, None, Some(60)),
        with_keyboard(None, Some(192), Some(60)),
        with_keyboard(None, Some(223), Some(60)),
        altered(|tuner| tuner.limit = 2_399),
        altered(|tuner| tuner.eighths.store(0)),
        altered(|tuner| tuner.last.as_mut().unwrap().samples = vec![0; 513]),
        altered(|tuner| tuner.position = 2_400 * POSITION_UNIT + 1),
        altered(|tuner| tuner.position = 1_400 * POSITION_UNIT - 1),
        altered(|tuner| tuner.rate = 32_767),
        altered(|tuner| tuner.rate = 131_073),
        altered(|tuner| tuner.kept = -1),
        altered(|tuner| tuner.kept = 256),
        altered(|tuner| {
            tuner.mode = Mode::Searching;
            (tuner.rate, tuner.kept) = (65_536, 256);
        }),
        altered(|tuner| {
            tuner.mode = Mode::Searching;
            tuner.rate = 65_537;
        }),
        tracking(|tracking| (tracking.lowest, tracking.last_best) = (15, 16)),
        tracking(|tracking| (tracking.lowest, tracking.last_best) = (874, 874)),
        tracking(|tracking| tracking.last_best = tracking.lowest - 1),
        tracking(|tracking| tracking.last_best = tracking.lowest + 8),
        tracking(|tracking| tracking.pitch = pitch(4_095, 69)),
        tracking(|tracking| tracking.pitch = pitch(225_281, 69)),
        tracking(|tracking| tracking.pitch = pitch(25_600, 128)),
        tracking(|tracking| tracking.pitch = None),
    ];
    for (place, tuner) in spoiled.into_iter().enumerate() {
        let mut given = tuner.clone();
        let mut output = [77; 2];
        let mut seen = Statistics::default();
        let (answer, counts) = given.block(9, &[], &mut output, &mut seen);
        assert_eq!(answer, Answer::RecordOutOfRange, "record {place}");
        assert_eq!((counts, output), (Counts::default(), [77; 2]));
        let night = given.night(9, 0, &[1, 2, 3], &mut output, &mut seen);
        assert_eq!(night.answer, Answer::RecordOutOfRange);
        assert_eq!((night.refused, night.taken, output), (None, 0, [77; 2]));
        let mut bad = Settings::DEFAULT;
        bad.scale = 0;
        assert_eq!(given.change(bad), Answer::RecordOutOfRange);
        for bytes in [&[][..], &[144, 60, 100]] {
            assert_eq!(given.midi(bytes, &mut seen), Answer::RecordOutOfRange);
        }
        assert_eq!(given.reset(), Answer::RecordOutOfRange);
        assert_eq!(given.meter(), Meter::Refused);
        assert!(given == tuner, "record {place} altered");
    }
}

#[test]
fn records_at_the_edge_are_good() {
    let good = [
        pitched(),
        altered(|tuner| tuner.hertz = 48_000),
        altered(|tuner| tuner.limit = 2_400),
        altered(|tuner| tuner.position = 2_400 * POSITION_UNIT),
        altered(|tuner| tuner.position = 1_400 * POSITION_UNIT),
        altered(|tuner| tuner.rate = 32_768),
        altered(|tuner| tuner.rate = 131_072),
        altered(|tuner| tuner.kept = 255),
        altered(|tuner| tuner.last = None),
        altered(|tuner| {
            tuner.mode = Mode::Searching;
            tuner.rate = 65_536;
        }),
        altered(|tuner| {
            tuner.mode = Mode::Searching;
            (tuner.rate, tuner.kept) = (65_536, 255);
        }),
        tracking(|tracking| (tracking.lowest, tracking.last_best) = (16, 16)),
        tracking(|tracking| (tracking.lowest, tracking.last_best) = (873, 880)),
        tracking(|tracking| tracking.pitch = pitch(4_096, 32)),
        tracking(|tracking| tracking.pitch = pitch(225_280, 100)),
        tracking(|tracking| tracking.pitch = pitch(25_600, 0)),
        tracking(|tracking| tracking.pitch = pitch(25_600, 127)),
        tracking(|tracking| {
            tracking.pitch = Some(Pitch {
                period: 25_600,
                wanted_note: None,
            })
        }),
        altered(|tuner| (tuner.settings.mode, tuner.settings.channel) = (1, 15)),
        with_keyboard(Some(0), Some(128), Some(0)),
        with_keyboard(Some(127), Some(191), Some(127)),
        with_keyboard(None, Some(224), None),
        with_keyboard(None, Some(239), Some(60)),
        with_keyboard(Some(60), Some(192), None),
        with_keyboard(Some(60), Some(223), None),
    ];
    for (place, tuner) in good.into_iter().enumerate() {
        assert!(tuner.is_good(), "record {place}");
    }
}

/// The kept output and counts are not tested, and are given again.
#[test]
fn a_repeat_gives_what_is_kept() {
    let mut tuner = pitched();
    let last = tuner.last.as_mut().unwrap();
    last.output.fill(5);
    last.counts.dropped = 99;
    let (number, samples) = (last.number, last.samples.clone());
    let mut output = [0; 481];
    let mut seen = Statistics::default();
    let (answer, counts) = tuner.block(number, &samples, &mut output, &mut seen);
    assert_eq!((answer, counts.dropped), (Answer::GivenAgain, 99));
    assert_eq!((output[0], output[479], output[480]), (5, 5, 0));
}
