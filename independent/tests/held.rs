//! Held notes over a record's bytes: the rate comes to its goal and stays, and
//! what rounding cut off outlives what it should, and nothing else.

use independent::calls::{made, Call};
use independent::generator::edges::{calls_over, edges};
use independent::record::Record;
use independent::rules::{raw_rate_in_bounds, smoothed_rate, wanted_period};
use independent::settings::{Settings, KEYBOARD};
use independent::table::CD;

/// A tuner in a record, fed five samples a block, which are one tracking step.
struct Take {
    record: Record,
    cycle: Vec<i16>,
    at: usize,
}

/// Up and down by chance, over and over: no pair of samples weighs much in the
/// differences, so the period is the cycle, and the raw rate stays the same.
fn cycle(length: usize) -> Vec<i16> {
    let mut state = 1u64;
    let mut toss = || {
        state = state.wrapping_mul(6_364_136_223_846_793_005);
        state = state.wrapping_add(1_442_695_040_888_963_407);
        state >> 63 == 1
    };
    (0..length)
        .map(|_| if toss() { 900 } else { -900 })
        .collect()
}

impl Take {
    fn begin(settings: Settings, length: usize) -> Take {
        Take {
            record: Record::fresh(CD, settings),
            cycle: cycle(length),
            at: 0,
        }
    }

    fn make(&mut self, call: &Call) {
        let left = made(&self.record.bytes(), call);
        assert_eq!(left.answer.number, 0, "{call:?}");
        self.record = Record::of_bytes(&left.record);
        assert!(self.record.is_good());
    }

    fn hear(&mut self, samples: &[i16]) {
        let number = match self.record.length {
            0 => 0,
            _ => self.record.number.wrapping_add(1),
        };
        self.make(&Call::block(number, samples, vec![0; samples.len()]));
    }

    /// The next five samples of the note; while it is pitched, the rate moves by
    /// the rule, toward the raw rate that is given back.
    fn step(&mut self) -> i64 {
        let five: Vec<i16> = (0..5)
            .map(|place| self.cycle[(self.at + place) % self.cycle.len()])
            .collect();
        self.at += 5;
        let (rate, kept) = self.rate();
        self.hear(&five);
        let Record { period, note, .. } = self.record;
        if period == 0 {
            assert_eq!(self.rate(), (65_536, 0));
            return 0;
        }
        assert_eq!(usize::try_from(period).unwrap(), 256 * self.cycle.len());
        let note = (note < 128).then_some(note as usize);
        let raw = raw_rate_in_bounds(i64::from(period), wanted_period(CD, note));
        let decay = self.record.settings.decay;
        assert_eq!(self.rate(), smoothed_rate(decay, rate, raw, kept));
        raw
    }

    /// Hears the note until it is pitched, and gives the raw rate.
    fn find(&mut self) -> i64 {
        let raw = (0..1_000).find_map(|_| Some(self.step()).filter(|&raw| raw > 0));
        raw.expect("the note is found")
    }

    /// How many steps until the rate is at its goal, which it never passes.
    fn reach(&mut self) -> usize {
        let mut steps = 0;
        loop {
            let before = self.rate().0;
            let raw = self.step();
            let after = self.rate().0;
            steps += 1;
            let way = before.min(raw)..=before.max(raw);
            assert!(way.contains(&after), "{before} to {after}, goal {raw}");
            if after == raw {
                return steps;
            }
            assert!(steps < 4_000, "the goal is reached");
        }
    }

    fn rate(&self) -> (i64, i64) {
        (i64::from(self.record.rate), i64::from(self.record.kept))
    }

    fn change(&mut self, alter: impl Fn(&mut Settings)) {
        let mut settings = self.record.settings;
        alter(&mut settings);
        let before = self.rate();
        self.make(&Call::Change(settings));
        assert_eq!(self.rate(), before);
    }
}

fn settings(decay: u32) -> Settings {
    Settings::of([4_095, 409, decay, 1])
}

/// A cycle of note 38 has 600.7 samples: 600 are sharp, 608 flat.
#[test]
fn flat_and_sharp_notes_reach_their_goal() {
    for (length, is_flat) in [(600, false), (608, true)] {
        for (decay, most) in [(200, 60), (230, 120), (254, 1_000), (255, 2_000)] {
            let mut take = Take::begin(settings(decay), length);
            let raw = take.find();
            assert_eq!(raw > 65_536, is_flat, "{raw}");
            let steps = take.reach();
            assert!(steps < most, "{length} at {decay}: {steps} steps");
            let there = take.rate();
            for _ in 0..20 {
                take.step();
            }
            assert_eq!(take.rate(), there);
        }
    }
}

/// Up, down and to level again, through changes of decay, scale, mode and key.
#[test]
fn what_is_kept_outlives_changes() {
    let mut take = Take::begin(settings(255), 608);
    take.find();
    let mut kept = 0;
    for round in 0..60 {
        for _ in 0..7 {
            take.step();
        }
        kept += usize::from(take.rate().1 > 0);
        let before = take.rate();
        match round % 6 {
            0 => take.change(|to| to.decay = 200 + round),
            1 => take.change(|to| to.scale = 1 << (round % 12)),
            2 => take.change(|to| to.mode = KEYBOARD),
            3 => take.make(&Call::Midi(vec![144, 38, 100])),
            4 => take.make(&Call::Midi(vec![38, 0])),
            _ => take.change(|to| (to.mode, to.channel, to.decay) = (0, round % 2, 255)),
        }
        assert_eq!(take.rate(), before);
        assert!(take.record.period > 0);
    }
    assert!(kept > 50, "something is kept nearly always: {kept}");
    // At decay 0 the rate is the raw one at once, and what was kept stays.
    take.step();
    let (_, kept) = take.rate();
    take.change(|to| to.decay = 0);
    let raw = take.step();
    assert_eq!(take.rate(), (raw, kept));
    take.change(|to| to.decay = 255);
    take.reach();
}

#[test]
fn a_loss_a_reset_and_a_start_clear_it() {
    let pitched = || {
        let mut take = Take::begin(settings(255), 608);
        take.find();
        while take.rate().1 == 0 || take.rate().0 == 65_536 {
            take.step();
        }
        take
    };
    let mut take = pitched();
    while take.record.tracking == 1 {
        assert_ne!(take.rate(), (65_536, 0));
        take.hear(&[0; 5]);
    }
    assert_eq!(take.rate(), (65_536, 0));
    let mut take = pitched();
    take.make(&Call::Reset(vec![]));
    assert!(take.record == Record::fresh(CD, settings(255)));
    for call in [Call::start(CD, settings(200)), Call::StartDefault] {
        let mut take = pitched();
        take.make(&call);
        assert_eq!(take.rate(), (65_536, 0));
    }
}

/// Of a record that a host hands in, something may be kept without a period: it
/// stays until a lag is found or lost, and the first step adds it.
#[test]
fn what_is_kept_in_any_record() {
    let [mut found, mut lost, mut first, mut added, mut stayed] = [0; 5];
    for (record, good) in edges() {
        if !good || record.kept == 0 {
            continue;
        }
        let left = made(&record.bytes(), &calls_over(&record)[0]);
        if left.answer.number != 0 {
            continue;
        }
        let after = Record::of_bytes(&left.record);
        let state = |record: &Record| (record.tracking, record.period > 0);
        match (state(&record), state(&after)) {
            ((0, _), (1, _)) => {
                assert_eq!((after.kept, after.note), (0, 128));
                found += 1;
            }
            ((1, _), (0, _)) => {
                assert_eq!((after.kept, after.rate), (0, 65_536));
                lost += 1;
            }
            (before, (1, true)) if record.count % 5 == 2 => {
                let raw = raw_rate_in_bounds(
                    i64::from(after.period),
                    wanted_period(record.hertz as u32, Some(after.note as usize)),
                );
                let (decay, rate) = (record.settings.decay, i64::from(record.rate));
                let right = smoothed_rate(decay, rate, raw, i64::from(record.kept));
                assert_eq!((i64::from(after.rate), i64::from(after.kept)), right);
                *(if before.1 { &mut added } else { &mut first }) += 1;
            }
            (before, same) => {
                assert_eq!((before, record.kept), (same, after.kept));
                stayed += 1;
            }
        }
    }
    assert!([found, lost, first, added].iter().all(|&count| count > 0));
    assert!(stayed > 3 && added > 4, "{stayed} {added}");
}
