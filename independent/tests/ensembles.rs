//! A take played over the bytes of a record with a list and voices is the ensemble's, and a
//! record out of range is refused by every call that reads it.

use independent::calls::{made, Call, Left};
use independent::generator::cases::{sung, Cases};
use independent::generator::edges::{calls_over, edges};
use independent::generator::ensembles::{ensemble_edges, pitched_ensemble, turned_bits};
use independent::list::{room, List, Listing, ROW};
use independent::record::{Record, Voice, LAYOUT, SIZE};
use independent::settings::{Settings, KEYBOARD};
use independent::statistics::Statistics;
use independent::table::{CD, FILM};
use independent::voices::{Ensemble, MOST_VOICES};
use std::collections::{BTreeMap, BTreeSet};

/// What an output holds before a call.
const UNTOUCHED: i16 = 4_321;

/// A record with voices, the independent program's ensemble, which works each
/// voice out afresh, and the store for the list.
struct Both {
    bytes: Vec<u8>,
    ensemble: Ensemble,
    store: Vec<u32>,
}

impl Both {
    fn start(hertz: u32, settings: Settings, intervals: &[i32], store: usize) -> Both {
        let call = start(hertz, settings, intervals, store);
        let left = made(&[0; SIZE], &call);
        assert_eq!(left.answer.number, 0);
        let lent = (store > 0).then_some(store);
        Both {
            bytes: left.record,
            ensemble: Ensemble::start(hertz, settings, lent, intervals).1,
            store: vec![0; store],
        }
    }

    fn make(&mut self, call: Call) -> Left {
        let room = match call.samples().len() {
            0 => 0,
            length => length + 1,
        };
        let voices = [(); MOST_VOICES].map(|()| vec![UNTOUCHED; room]);
        let call = call.with_voices(voices).with_store(self.store.clone());
        let left = made(&self.bytes, &call);
        self.bytes.clone_from(&left.record);
        assert!(Record::of_bytes(&self.bytes).is_good());
        assert_eq!(Record::of_bytes(&self.bytes).bytes(), self.bytes);
        left
    }

    /// A block to both: the same answer, outputs and list.
    fn block(&mut self, number: u16, samples: &[i16]) -> u32 {
        let mut out = vec![UNTOUCHED; samples.len() + 1];
        let mut voices = [(); MOST_VOICES].map(|()| out.clone());
        let left = self.make(Call::block(number, samples, out.clone()));
        self.store.clone_from(&left.lent.store);
        let seen = &mut Statistics::default();
        let ensemble = &mut self.ensemble;
        let (answer, counts) = ensemble.block(number, samples, &mut out, &mut voices, seen);
        assert_eq!(left.answer.number as usize, answer.number());
        assert_eq!(left.answer.counts[0] as usize, counts.written);
        assert_eq!(left.lent.outs[0], out, "block {number}");
        assert_eq!(left.lent.outs[1..], voices, "block {number}");
        let notes = match self.store.is_empty() {
            true => &[],
            false => self.ensemble.lead.notes(),
        };
        let list = List::of(notes, room(self.store.len()));
        let rows = [list.rows.len(), list.left].map(|rows| rows as u32);
        assert_eq!(left.answer.list, rows);
        assert_eq!(self.store[..ROW * list.rows.len()], list.numbers());
        left.answer.number
    }

    fn midi(&mut self, bytes: &[u8]) {
        let left = self.make(Call::Midi(bytes.to_vec()));
        assert_eq!(left.answer.number, 0);
        self.ensemble.lead.midi(bytes, &mut Statistics::default());
    }
}

/// A start with these voices, and a list in a store of so many numbers, or none.
fn start(hertz: u32, settings: Settings, intervals: &[i32], store: usize) -> Call {
    Call::Start {
        hertz,
        settings,
        listed: u32::from(store > 0),
        intervals: intervals.to_vec(),
        store: vec![0; store],
    }
}

/// Blocks that are taken and given again, under keys near and far and outside
/// the table, at either rate; a reset, and all of it once more.
#[test]
fn a_take_over_a_record_is_the_ensemble_s() {
    let keyboard = Settings {
        mode: KEYBOARD,
        ..Settings::AT_ONCE
    };
    for (hertz, intervals, store) in [
        (CD, &[4, -3, 12][..], 300),
        (FILM, &[-12, 0], 0),
        (CD, &[7], 9),
        (FILM, &[], 3),
    ] {
        let mut both = Both::start(hertz, keyboard, intervals, store);
        let fresh = both.bytes.clone();
        for _ in 0..2 {
            let (mut number, mut sounding) = (0, BTreeSet::new());
            for (part, key) in sung().chunks(1_500).zip([57, 93, 33, 20, 110, 64]) {
                both.midi(&[144, key, 100]);
                for samples in part.chunks(173) {
                    assert_eq!(both.block(number, samples), 0);
                    assert_eq!(both.block(number, samples), 1);
                    let record = Record::of_bytes(&both.bytes);
                    let sounds = |place: &usize| record.outs[1 + place].iter().any(|&s| s != 0);
                    sounding.extend((0..MOST_VOICES).filter(sounds));
                    number += 1;
                }
            }
            assert!(sounding.into_iter().eq(0..intervals.len()));
            assert_eq!(both.make(Call::Reset(vec![])).answer.number, 0);
            both.ensemble.reset();
            assert_eq!(both.bytes, fresh);
        }
    }
}

/// The last block, whether a list is kept, how many voices, the list, the
/// voices; and at the end the outputs.
#[test]
fn the_places_of_the_numbers() {
    let mut record = Record::fresh(FILM, Settings::DEFAULT).with_voices(&[-12, 12]);
    assert_eq!(record.voices.map(|voice| voice.interval), [0, 24, 12]);
    record.listed = 1;
    record.list = Listing::of([1, 2, 3, 4]);
    (record.pitched, record.strayed) = (5, 6);
    (record.voices[2].behind, record.outs[3][511]) = (7, -2);
    let bytes = record.bytes();
    let words = |words: &[u32]| -> Vec<u8> { words.iter().flat_map(|w| w.to_le_bytes()).collect() };
    assert_eq!(bytes.len(), 10_104);
    assert_eq!(bytes[..8], 40_000u64.to_le_bytes());
    assert_eq!(bytes[232..248], words(&[5, 6, 1, 2]));
    assert_eq!(bytes[248..264], words(&[1, 2, 3, 4]));
    assert_eq!(bytes[264..288], words(&[0, 0, 24, 0, 12, 7]));
    assert_eq!(bytes[10_102..], (-2i16).to_le_bytes());
    assert!(Record::of_bytes(&bytes) == record);
    let plain = Record::fresh(FILM, Settings::DEFAULT).bytes();
    assert_eq!(bytes[..232], plain[..232]);
    assert_eq!(bytes[288..10_102], plain[288..10_102]);
}

#[test]
fn records_are_good_up_to_the_edges() {
    let records = edges().into_iter().chain(ensemble_edges());
    for (place, (record, good)) in records.enumerate() {
        assert_eq!(record.is_good(), good, "record {place}");
        let bytes = record.bytes();
        assert!(Record::of_bytes(&bytes) == record);
        for call in calls_over(&record) {
            let left = made(&bytes, &call);
            let refused = left.answer.number == 9 || left.state == 9;
            assert_eq!(refused, !good, "record {place}, {call:?}");
            if refused {
                assert!(left.record == bytes, "record {place}, {call:?}");
                assert!(left.lent == call.lent(), "record {place}, {call:?}");
            }
        }
    }
}

/// Every refusal leaves the default tuner, without a list and without voices.
#[test]
fn what_a_start_leaves() {
    let bytes = vec![7; SIZE];
    let bad = Settings::of([0, 410, 256, 0]);
    for (hertz, settings, intervals, numbers, number) in [
        (CD + 1, bad, &[13, 0, 0, 0][..], 2, 16),
        (CD, bad, &[13, 0, 0, 0], 2, 8),
        (CD, Settings::AT_ONCE, &[13, 0, 0, 0], 2, 17),
        (CD, Settings::AT_ONCE, &[], 1, 17),
        (CD, Settings::AT_ONCE, &[13, 0, 0, 0], 3, 18),
        (CD, Settings::AT_ONCE, &[-13], 0, 18),
        (CD, Settings::AT_ONCE, &[0; 4], 0, 19),
        (FILM, Settings::AT_ONCE, &[-12, 12, 0], 0, 0),
        (FILM, Settings::AT_ONCE, &[], 3, 0),
    ] {
        let call = start(hertz, settings, intervals, numbers);
        let left = made(&bytes, &call);
        assert_eq!((left.answer.number, left.answer.list), (number, [0, 0]));
        let mut right = Record::default_start();
        if number == 0 {
            right = Record::fresh(hertz, settings).with_voices(intervals);
            right.listed = u32::from(numbers > 0);
        }
        assert!(left.record == right.bytes(), "{call:?}");
    }
}

/// 9 before 17, and 17 not without a list; a voice that is not chosen keeps its
/// interval too.
#[test]
fn what_a_reset_leaves() {
    let mut record = Record::fresh(FILM, Settings::AT_ONCE).with_list();
    (record.chosen, record.key, record.count) = (1, 60, 2_000);
    record.list = Listing::of([1, 2, 0, 9]);
    for (place, voice) in record.voices.iter_mut().enumerate() {
        (voice.interval, voice.behind) = (3, 77);
        record.outs[1 + place][0] = 77;
    }
    let mut fresh = Record::fresh(FILM, Settings::AT_ONCE).with_list();
    (fresh.chosen, fresh.voices) = (1, [Voice::level(3); MOST_VOICES]);
    let reset = |record: &Record, numbers| {
        let left = made(&record.bytes(), &Call::Reset(vec![7; numbers]));
        (left.answer.number, Record::of_bytes(&left.record))
    };
    assert!(reset(&record, 3) == (0, fresh.clone()));
    assert!(reset(&record, 2) == (17, record.clone()));
    record.voices[0].interval = 25;
    assert!(reset(&record, 2) == (9, record.clone()));
    record.voices[0].interval = 3;
    (record.listed, fresh.listed) = (0, 0);
    assert!(reset(&record, 0) == (0, fresh));
}

/// A record of another layout is answered 9, by a block or a night with the rows
/// that stand in its bytes.
#[test]
fn records_of_other_layouts_are_refused() {
    let mut record = pitched_ensemble();
    record.list = Listing::of([u32::MAX, 77, 0, 0]);
    for layout in [0, LAYOUT - 1, LAYOUT + 1, 20_006, 30_001, u64::MAX] {
        record.layout = layout;
        for call in calls_over(&record) {
            let left = made(&record.bytes(), &call);
            assert!(left.answer.number == 9 || left.state == 9, "{call:?}");
            assert!(left.record == record.bytes(), "{call:?}");
            let rows = match call {
                Call::Block { .. } | Call::Night { .. } => [u32::MAX, 77],
                _ => [0, 0],
            };
            assert_eq!(left.answer.list, rows, "{call:?}");
        }
    }
}

/// With a bit turned in any of its bytes a good record is no longer good, or the
/// bit was one of a number that may be another.
#[test]
fn every_byte_is_turned() {
    let (mut good, mut bad) = (0, 0);
    for (bytes, _) in turned_bits().step_by(2) {
        let is_good = Record::of_bytes(&bytes).is_good();
        *(if is_good { &mut good } else { &mut bad }) += 1;
    }
    // What is kept for a repeat is not tested, and of the samples only sums are.
    assert_eq!(good + bad, SIZE);
    assert!(good > 4_110 && bad > 2_000, "{good} good, {bad} bad");
}

/// A call's name, and what it answers.
fn answered(call: &Call, left: &Left) -> (&'static str, u32) {
    let number = left.answer.number;
    match call {
        Call::Start { .. } => ("start", number),
        Call::StartDefault => ("start by default", number),
        Call::Reset(_) => ("reset", number),
        Call::Change(_) => ("change", number),
        Call::Midi(_) => ("midi", number),
        Call::Block { .. } => ("block", number),
        Call::Night { .. } => ("night", number),
        Call::Meter => ("meter", left.state),
        Call::Cut(..) => ("cut", number),
    }
}

/// Every answer that each call may have.
const ANSWERS: [(&str, &[u32]); 9] = [
    ("block", &[0, 1, 2, 3, 4, 5, 6, 7, 9]),
    ("change", &[0, 8, 9, 11, 12, 13, 14, 15]),
    ("cut", &[0]),
    ("meter", &[0, 1, 2, 9]),
    ("midi", &[0, 9]),
    ("night", &[0, 3, 4, 5, 6, 7, 9]),
    ("reset", &[0, 9, 17]),
    ("start", &[0, 8, 11, 12, 13, 14, 15, 16, 17, 18, 19]),
    ("start by default", &[0]),
];

/// Those of the first so many cases that are over a record with voices.
fn cases_with_voices(seed: u64, cases: usize) -> impl Iterator<Item = (Vec<u8>, Call)> {
    let mut source = Cases::seeded(seed);
    let cases = (0..cases).map(move |_| source.case());
    cases.filter(|(bytes, _)| Record::of_bytes(bytes).chosen > 0)
}

#[test]
fn calls_over_records_meet_every_answer() {
    let mut met: BTreeMap<&str, BTreeSet<u32>> = BTreeMap::new();
    let mut source = Cases::seeded(20_261_115);
    for _ in 0..30_000 {
        let (bytes, call) = source.case();
        let (name, answer) = answered(&call, &made(&bytes, &call));
        met.entry(name).or_default().insert(answer);
    }
    let met: Vec<_> = met
        .into_iter()
        .map(|(name, answers)| (name, Vec::from_iter(answers)))
        .collect();
    assert_eq!(met, ANSWERS.map(|(name, answers)| (name, answers.to_vec())));
}

type Mend = fn(&mut Record);

/// For what a record is refused, if for one of these alone: mended there it is good.
fn refused_for(record: &Record) -> Option<&'static str> {
    let mends: [(&str, Mend); 7] = [
        ("layout", |record| record.layout = LAYOUT),
        ("whether a list is kept", |record| record.listed = 1),
        ("list", |record| record.list = Listing::FRESH),
        ("how many voices", |record| record.chosen = 3),
        ("first voice", |record| record.voices[0] = Voice::level(12)),
        ("second voice", |record| record.voices[1] = Voice::level(12)),
        ("third voice", |record| record.voices[2] = Voice::level(12)),
    ];
    let mended = |mend: Mend| {
        let mut record = record.clone();
        mend(&mut record);
        record.is_good()
    };
    let mut mends = mends.into_iter();
    mends.find_map(|(what, mend)| mended(mend).then_some(what))
}

/// Whose output alone is too short for what is sent.
fn short(record: &Record, call: &Call) -> Option<&'static str> {
    let (lent, length) = (call.lent(), call.samples().len());
    let rooms = lent.outs[..=record.chosen()].iter().map(Vec::len);
    let short: Vec<usize> = (0..)
        .zip(rooms)
        .filter(|&(_, room)| room < length)
        .map(|(at, _)| at)
        .collect();
    let names = ["lead short", "first short", "second short", "third short"];
    match short[..] {
        [place] => Some(names[place]),
        _ => None,
    }
}

/// What happened to the voices in a block or a night.
fn happened(record: &Record, call: &Call, left: &Left) -> Vec<&'static str> {
    let (after, lent) = (Record::of_bytes(&left.record), call.lent());
    let (number, chosen) = (left.answer.number, record.chosen());
    let moved = after.count > record.count;
    let again = number == 1 || left.again.number == 1;
    let sounds = |place: usize| after.outs[1 + place].iter().any(|&sample| sample != 0);
    let beyond = || {
        lent.outs[1 + chosen..]
            .iter()
            .any(|output| !output.is_empty())
    };
    assert_eq!(record.voices[chosen..], after.voices[chosen..]);
    assert_eq!(record.outs[1 + chosen..], after.outs[1 + chosen..]);
    assert_eq!(left.lent.outs[1 + chosen..], lent.outs[1 + chosen..]);
    let whats = [
        ("all sound", moved && chosen == 3 && (0..3).all(sounds)),
        (
            "one is silent",
            moved && chosen == 3 && sounds(0) && !sounds(1),
        ),
        (
            "all are silent",
            moved && chosen == 3 && !(0..3).any(sounds),
        ),
        ("all again", again && !moved && chosen == 3),
        ("again and on", again && moved && chosen == 3),
        ("stopped in a night", moved && number == 7),
        ("beyond, lent", moved && chosen < 3 && beyond()),
        ("without a list", moved && record.listed == 0),
        (
            "without a store",
            moved && record.listed == 1 && lent.store.is_empty(),
        ),
        ("a row", moved && left.lent.store != lent.store),
        ("longer", moved && lent.outs[1].len() > call.samples().len()),
    ];
    let whats = whats.into_iter().filter(|&(_, happened)| happened);
    whats.map(|(what, _)| what).collect()
}

/// All that the voices of a record may do or be refused for; so many cases meet it.
#[test]
fn calls_over_records_meet_voices() {
    let mut met: BTreeMap<&str, usize> = BTreeMap::new();
    for (bytes, call) in cases_with_voices(20_261_115, 20_000) {
        let (record, left) = (Record::of_bytes(&bytes), made(&bytes, &call));
        let plays = matches!(call, Call::Block { .. } | Call::Night { .. });
        let whats = match left.answer.number {
            _ if !plays => vec![],
            9 => refused_for(&record).into_iter().collect(),
            4 => short(&record, &call).into_iter().collect(),
            _ => happened(&record, &call, &left),
        };
        for what in whats {
            *met.entry(what).or_default() += 1;
        }
    }
    assert_eq!(met.len(), 22, "{met:?}");
}
