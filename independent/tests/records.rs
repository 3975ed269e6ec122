//! A take played over a record's bytes is the take played by the tuner, and a
//! record out of range is refused by every call that reads it.

use independent::calls::{made, Call};
use independent::generator::cases::Cases;
use independent::generator::edges::{calls_over, choices, fresh_of_version_2, BEGINNING_OF_OLD};
use independent::record::Record;
use independent::settings::Settings;
use independent::statistics::Statistics;
use independent::table::{CD, FILM};
use independent::tuner::{Meter, Tuner};
use std::collections::{BTreeMap, BTreeSet};

#[test]
fn a_take_over_a_record_is_the_tuner_s() {
    for hertz in [CD, FILM] {
        assert_is_the_tuner_s(hertz);
    }
}

fn assert_is_the_tuner_s(hertz: u32) {
    let sung: Vec<i16> = (0..9_000)
        .map(|at| ((at % 101) * 90 + (at / 50 % 2) * 3_000 - 6_000) as i16)
        .collect();
    let (_, mut tuner) = Tuner::start(hertz, Settings::DEFAULT);
    let mut bytes = Record::fresh(hertz, Settings::DEFAULT).bytes();
    let mut pitched = 0;
    for (number, samples) in (0..).zip(sung.chunks(173)) {
        let mut out = vec![7; samples.len() + 1];
        let call = Call::block(number, samples, out.clone());
        let left = made(&bytes, &call);
        let (answer, counts) = tuner.block(number, samples, &mut out, &mut Statistics::default());
        assert_eq!(left.answer.number as usize, answer.number());
        let [_, repeated, _, pitched_samples, strayed] = left.answer.counts;
        assert_eq!(repeated as usize, counts.repeated);
        let figures = (counts.pitched as u64, counts.strayed);
        assert_eq!((pitched_samples, strayed), figures);
        assert_eq!(left.lent.outs[0], out, "block {number}");
        bytes = left.record;
        assert!(Record::of_bytes(&bytes).is_good());
        assert_eq!(Record::of_bytes(&bytes).bytes(), bytes);
        let shown = made(&bytes, &Call::Meter);
        match tuner.meter() {
            Meter::Searching => assert_eq!(shown.state, 0),
            Meter::Locking(lag) => assert_eq!((shown.state, shown.figures[0]), (1, lag)),
            Meter::Pitched(figures) => {
                assert_eq!((shown.state, shown.figures[1]), (2, figures.period));
                assert_eq!(shown.figures[2..], [figures.wanted_period, figures.rate]);
                pitched += 1;
            }
            Meter::Refused => panic!("a tuner from a start is never refused"),
        }
    }
    assert!(pitched > 10, "the take is pitched for a while");
}

/// A refused start leaves the default tuner, a refused change the record. A start
/// that is taken has its own rate, a change keeps that of the record.
#[test]
fn refused_settings_over_a_record() {
    let mut numbers = BTreeSet::new();
    for (record, call) in choices() {
        let left = made(&record.bytes(), &call);
        let (refused, hertz) = match &call {
            Call::Start { hertz, .. } => (Record::default_start(), *hertz),
            _ => (record, FILM),
        };
        let number = left.answer.number;
        assert_eq!(number > 0, left.record == refused.bytes(), "{call:?}");
        let after = Record::of_bytes(&left.record);
        let right = if number > 0 {
            refused.hertz
        } else {
            hertz.into()
        };
        assert_eq!(after.hertz, right, "{call:?}");
        numbers.insert(number);
    }
    assert_eq!(Vec::from_iter(numbers), [0, 8, 11, 12, 13, 14, 15, 16]);
}

/// The rate stands behind the settings, in eight bytes.
#[test]
fn the_place_of_the_rate() {
    let bytes = Record::fresh(FILM, Settings::DEFAULT).bytes();
    assert_eq!(bytes[32..40], 48_000u64.to_le_bytes());
    assert_eq!(bytes[..8], 40_000u64.to_le_bytes());
    assert_eq!(bytes.len(), 10_104);
    let other = Record::fresh(CD, Settings::DEFAULT).bytes();
    assert_eq!(bytes[..32], other[..32]);
    assert_eq!(bytes[40..], other[40..]);
}

/// What versions 1 and 2 left is of another layout; a start asks nothing of it.
#[test]
fn records_of_older_versions_are_refused() {
    let bytes = fresh_of_version_2();
    assert_eq!(bytes[..8], BEGINNING_OF_OLD.to_le_bytes());
    for call in calls_over(&Record::default_start()) {
        let left = made(&bytes, &call);
        assert!(left.answer.number == 9 || left.state == 9, "{call:?}");
        assert!(left.record == bytes, "{call:?}");
    }
    let left = made(&bytes, &Call::StartDefault);
    assert_eq!(left.answer.number, 0);
    assert_eq!(left.record, Record::default_start().bytes());
}

/// No line shows that a loss, a reset or a start cleared what was kept, since a
/// find does too: records show it. So calls over them meet something kept before
/// each of these, and before a find, a step, and one that leaves it, as at decay 0.
#[test]
fn calls_over_records_meet_something_kept() {
    let mut source = Cases::seeded(20_261_115);
    let mut met: BTreeMap<&str, usize> = BTreeMap::new();
    for _ in 0..30_000 {
        let (bytes, call) = source.case();
        let record = Record::of_bytes(&bytes);
        if record.kept == 0 || !record.is_good() {
            continue;
        }
        let left = made(&bytes, &call);
        let after = Record::of_bytes(&left.record);
        let moved = (after.rate, after.kept) != (record.rate, record.kept);
        let what = match (&call, left.answer.number) {
            (Call::Start { .. } | Call::StartDefault, 0) => "start",
            (Call::Reset(_), 0) => "reset",
            (Call::Change(to), 0) if to.decay != record.settings.decay => "change of decay",
            (Call::Midi(_), 0) if after.key != record.key => "key",
            (Call::Block { .. }, 0) => match (record.tracking, after.tracking) {
                (1, 0) => "loss",
                (0, 1) if after.period == 0 => "find",
                // One that is lost and found again within the block is left out.
                (1, 1) if after.period == 0 || !moved => continue,
                (1, 1) if after.kept == record.kept => "step that leaves it",
                (1, 1) => "step",
                _ => continue,
            },
            _ => continue,
        };
        let stays = ["change of decay", "key"].contains(&what);
        assert!(!stays || after.kept == record.kept, "{what}");
        let cleared = ["start", "reset", "loss", "find"].contains(&what);
        assert!(!cleared || after.kept == 0, "{what}");
        *met.entry(what).or_default() += 1;
    }
    assert_eq!(met.len(), 8, "{met:?}");
}
