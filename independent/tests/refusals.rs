//! The answers of the calls, their order, and what they leave.

use independent::settings::Settings;
use independent::statistics::Statistics;
use independent::table::{CD, FILM};
use independent::tuner::{Answer, Counts, Meter, Tuner};

/// What the output holds before a call.
const UNTOUCHED: i16 = 4_321;

/// The answer's number, the counts and the output, which had this room.
fn block(
    tuner: &mut Tuner,
    number: u16,
    samples: &[i16],
    room: usize,
) -> (usize, Counts, Vec<i16>) {
    let mut output = vec![UNTOUCHED; room];
    let mut seen = Statistics::default();
    let (answer, counts) = tuner.block(number, samples, &mut output, &mut seen);
    (answer.number(), counts, output)
}

/// Asserts that the block is refused with this number and nothing altered.
fn refused(tuner: &mut Tuner, with: usize, number: u16, samples: &[i16], room: usize) {
    let before = tuner.clone();
    let (answer, counts, output) = block(tuner, number, samples, room);
    assert_eq!(answer, with);
    assert_eq!(counts, Counts::default());
    assert_eq!(output, vec![UNTOUCHED; room]);
    assert!(*tuner == before, "refusal {with} altered the tuner");
}

fn taken(tuner: &mut Tuner, number: u16, samples: &[i16]) -> (Counts, Vec<i16>) {
    let (answer, counts, output) = block(tuner, number, samples, samples.len() + 3);
    assert_eq!(answer, 0);
    assert_eq!(counts.written, samples.len());
    assert_eq!(output[samples.len()..], [UNTOUCHED; 3]);
    (counts, output)
}

#[test]
fn numbers_of_the_answers() {
    let answers = [
        Answer::Taken,
        Answer::GivenAgain,
        Answer::BlockEmpty,
        Answer::BlockTooLong,
        Answer::OutputTooShort,
        Answer::NumberNeitherNextNorLast,
        Answer::LastNumberOtherSamples,
        Answer::TakeFull,
        Answer::ScaleOutOfRange,
        Answer::RecordOutOfRange,
        Answer::EpsOutOfRange,
        Answer::DecayOutOfRange,
        Answer::FloorOutOfRange,
        Answer::ChannelOutOfRange,
        Answer::ModeUnknown,
        Answer::RateUnknown,
    ];
    let numbers = [0, 1, 2, 3, 4, 5, 6, 7, 8, 9, 11, 12, 13, 14, 15, 16];
    assert_eq!(answers.map(Answer::number), numbers);
}

#[test]
fn order_of_the_refusals() {
    let (_, mut tuner) = Tuner::start_with_limit(CD, Settings::DEFAULT, 3);
    let long = [1; 513];
    // With no last block only number 0 is taken.
    refused(&mut tuner, 2, 7, &[], 0);
    refused(&mut tuner, 3, 7, &long, 0);
    refused(&mut tuner, 4, 7, &long[..512], 511);
    refused(&mut tuner, 5, 7, &long[..512], 512);
    refused(&mut tuner, 5, 65_535, &[1], 1);
    refused(&mut tuner, 7, 0, &long[..512], 512);
    taken(&mut tuner, 0, &[1, 2, 3]);
    // 2, 3 and 4 come before the number is looked at, 5 and 6 before 7.
    refused(&mut tuner, 2, 0, &[], 9);
    refused(&mut tuner, 3, 0, &long, 600);
    refused(&mut tuner, 4, 0, &[1, 2, 3], 2);
    refused(&mut tuner, 4, 9, &[9, 9, 9], 0);
    refused(&mut tuner, 5, 2, &[9, 9, 9], 9);
    refused(&mut tuner, 6, 0, &[1, 2, 4], 9);
    refused(&mut tuner, 6, 0, &[1, 2], 9);
    refused(&mut tuner, 6, 0, &[1, 2, 3, 0], 9);
    refused(&mut tuner, 7, 1, &[9], 9);
}

#[test]
fn exactly_the_limit_is_allowed() {
    let (_, mut tuner) = Tuner::start_with_limit(CD, Settings::DEFAULT, 10);
    taken(&mut tuner, 0, &[1; 6]);
    refused(&mut tuner, 7, 1, &[2; 5], 512);
    let (counts, output) = taken(&mut tuner, 1, &[2; 4]);
    assert!(tuner.is_good());
    refused(&mut tuner, 7, 2, &[3], 512);
    refused(&mut tuner, 5, 3, &[3], 512);
    refused(&mut tuner, 6, 1, &[3], 512);
    // A repeat is answered in a full take also.
    let full = tuner.clone();
    assert_eq!(block(&mut tuner, 1, &[2; 4], 7), (1, counts, output));
    assert!(tuner == full);
    // A reset begins a new take with room.
    assert_eq!(tuner.reset(), Answer::Taken);
    taken(&mut tuner, 0, &[3; 10]);
}

#[test]
fn the_repeat_outlives_all_but_start_and_reset() {
    let mut tuner = Tuner::default_start();
    let sung: Vec<i16> = (0..512).map(|at| 9_000 * (at / 48 % 2) - 4_500).collect();
    for number in 0..9 {
        taken(&mut tuner, number, &sung[..480]);
    }
    let (counts, output) = taken(&mut tuner, 9, &sung);
    let mut settings = Settings::DEFAULT;
    settings.scale = 1;
    assert_eq!(tuner.change(settings), Answer::Taken);
    settings.scale = 0;
    assert_eq!(tuner.change(settings), Answer::ScaleOutOfRange);
    refused(&mut tuner, 2, 10, &[], 512);
    refused(&mut tuner, 5, 8, &sung[..480], 512);
    refused(&mut tuner, 6, 9, &sung[1..], 512);
    refused(&mut tuner, 4, 9, &sung, 511);
    let before = tuner.clone();
    for _ in 0..3 {
        let again = block(&mut tuner, 9, &sung, 515);
        assert_eq!(again, (1, counts, output.clone()));
        assert!(tuner == before);
    }
    // After a reset the same samples are new singing.
    assert_eq!(tuner.reset(), Answer::Taken);
    refused(&mut tuner, 5, 9, &sung, 512);
    let (_, first) = taken(&mut tuner, 0, &sung);
    assert_eq!(first[..4], [0; 4]);
    assert_eq!(first[4..200], sung[..196]);
}

#[test]
fn numbers_wrap_after_65535() {
    let mut tuner = Tuner::default_start();
    for number in 0..=65_535 {
        taken(&mut tuner, number, &[0]);
    }
    refused(&mut tuner, 5, 1, &[5], 1);
    assert_eq!(block(&mut tuner, 65_535, &[0], 1).0, 1);
    taken(&mut tuner, 0, &[5]);
    refused(&mut tuner, 6, 0, &[6], 1);
    taken(&mut tuner, 1, &[5]);
}

fn settings(scale: u32, eps: u32, decay: u32, floor: u32, mode: u32, channel: u32) -> Settings {
    Settings {
        mode,
        channel,
        ..Settings::of([scale, eps, decay, floor])
    }
}

#[test]
fn settings_keep_their_ranges() {
    let good = [
        settings(1, 0, 0, 1, 0, 0),
        settings(4_095, 409, 255, 1_000_000, 1, 15),
        Settings::DEFAULT,
    ];
    let most = u32::MAX;
    let bad = [
        (8, settings(0, 100, 0, 100, 0, 0)),
        (8, settings(4_096, 100, 0, 100, 0, 0)),
        (11, settings(4_095, 410, 0, 100, 0, 0)),
        (12, settings(4_095, 100, 256, 100, 0, 0)),
        (13, settings(4_095, 100, 0, 0, 0, 0)),
        (13, settings(4_095, 100, 0, 1_000_001, 0, 0)),
        (14, settings(4_095, 100, 0, 100, 0, 16)),
        (15, settings(4_095, 100, 0, 100, 2, 0)),
        (8, settings(most, most, most, most, most, most)),
        (11, settings(1, most, most, most, most, most)),
        (12, settings(1, 0, most, most, most, most)),
        (13, settings(1, 0, 0, most, most, most)),
        (14, settings(1, 0, 0, 1, most, most)),
        (15, settings(1, 0, 0, 1, most, 15)),
    ];
    assert_eq!(Settings::DEFAULT, settings(4_095, 100, 230, 100, 0, 0));
    for (hertz, settings) in good.into_iter().flat_map(|good| [(CD, good), (FILM, good)]) {
        assert_eq!(Tuner::start(hertz, settings).0, Answer::Taken);
        assert_eq!(Tuner::default_start().change(settings), Answer::Taken);
    }
    for (number, settings) in bad {
        for hertz in [CD, FILM] {
            let (answer, tuner) = Tuner::start(hertz, settings);
            assert_eq!(answer.number(), number);
            assert!(tuner == Tuner::default_start());
            let (_, mut kept) = Tuner::start(hertz, good[0]);
            assert_eq!(kept.change(settings).number(), number);
            assert!(kept == Tuner::start(hertz, good[0]).1);
            assert_eq!(kept.meter(), Meter::Searching);
        }
        // The rate comes before every setting.
        assert_refused_for_its_rate(settings);
    }
    good.into_iter().for_each(assert_refused_for_its_rate);
}

/// A start at a rate that is unknown hands the default tuner back, at 44,100.
fn assert_refused_for_its_rate(settings: Settings) {
    for hertz in [0, 44_099, 44_101, 47_999, 48_001, 96_000, u32::MAX] {
        let (answer, tuner) = Tuner::start(hertz, settings);
        assert_eq!(answer.number(), 16, "{hertz}");
        assert!(tuner == Tuner::default_start());
        assert_eq!(tuner.standing().hertz, CD);
    }
}

#[test]
fn a_reset_keeps_the_rate_and_the_settings_alone() {
    let mut settings = Settings::DEFAULT;
    settings.eps = 7;
    for hertz in [CD, FILM] {
        let (_, mut tuner) = Tuner::start(hertz, settings);
        taken(&mut tuner, 0, &[300; 77]);
        assert!(tuner != Tuner::start(hertz, settings).1);
        assert_eq!(tuner.reset(), Answer::Taken);
        assert!(tuner == Tuner::start(hertz, settings).1);
        assert_eq!(tuner.standing().hertz, hertz);
    }
}
