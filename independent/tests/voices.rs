//! Backing voices: worked examples, what refuses them, how they stand to the
//! lead and to one another, and their account over every kind of script.

use independent::generator::cases::sung;
use independent::generator::kinds::KINDS;
use independent::generator::script::script;
use independent::history::History;
use independent::lines::{Program, Record};
use independent::list::{Note, ROW};
use independent::night::Night;
use independent::rules::{input_position, Cycle, FARTHEST_BEHIND, PERIOD_UNIT, POSITION_UNIT};
use independent::settings::{Settings, KEYBOARD};
use independent::statistics::Statistics;
use independent::table::{notes_at, period_of, CD, FILM};
use independent::tuner::{Answer, Counts, Meter, Tuner};
use independent::voices::{voice_note, Ensemble, Lead, Sounding, Sung};
use std::collections::BTreeMap;

/// What an output holds before a call.
const UNTOUCHED: i16 = 4_321;

/// Position units in so many samples.
fn samples(count: f64) -> i64 {
    (count * POSITION_UNIT as f64) as i64
}

/// A history of the lead that was made up.
struct MadeUp {
    take: History,
    periods: Vec<Option<i64>>,
    notes: Vec<Note>,
}

impl MadeUp {
    /// A ramp, ten a sample, which every reading follows; and stretches of so
    /// many samples with this period and wanted note.
    fn of(stretches: &[(usize, Option<i64>, Note)]) -> MadeUp {
        let (mut periods, mut notes) = (Vec::new(), Vec::new());
        for &(length, period, note) in stretches {
            periods.extend(vec![period; length]);
            notes.extend(vec![note; length]);
        }
        let ramp: Vec<i16> = (0..periods.len()).map(|at| 10 * at as i16).collect();
        let take = History::of(&ramp);
        MadeUp {
            take,
            periods,
            notes,
        }
    }

    fn lead(&self, hertz: u32) -> Lead<'_> {
        Lead {
            hertz,
            take: &self.take,
            first: 0,
            periods: &self.periods,
            notes: &self.notes,
        }
    }
}

fn rate(hertz: u32, period: i64, note: u8, interval: i32) -> Option<i64> {
    let made_up = MadeUp::of(&[(1, Some(period), Some(note))]);
    made_up.lead(hertz).voice_rate(interval, 0)
}

/// The tracked period over the entry, nearest, halves up, without limits.
#[test]
fn rates_by_hand() {
    // Entries 25658, 12829, 51316 and 17125.
    assert_eq!(rate(CD, 25_658, 69, 0), Some(65_536));
    assert_eq!(rate(CD, 25_658, 69, 12), Some(131_072));
    assert_eq!(rate(CD, 25_658, 69, -12), Some(32_768));
    // 1681522688 / 17125 = 98191.1..
    assert_eq!(rate(CD, 25_658, 69, 7), Some(98_191));
    assert_eq!(rate(CD, 26_000, 69, 0), Some(66_410));
    // The entry of the voice's note alone counts: the same by another way.
    assert_eq!(rate(CD, 26_000, 62, 7), Some(66_410));
    assert_eq!(rate(CD, 26_000, 81, -12), Some(66_410));
    // The ends of all rates: 268435456 / 223418 = 1201.4.., and
    // 14763950080 / 4151 = 3556721.2..
    assert_eq!(
        (period_of(FILM, 33), period_of(FILM, 102)),
        (223_418, 4_151)
    );
    assert_eq!(rate(FILM, 4_096, 33, 0), Some(1_201));
    assert_eq!(rate(FILM, 4_096, 45, -12), Some(1_201));
    assert_eq!(rate(FILM, 225_280, 102, 0), Some(3_556_721));
    assert_eq!(rate(FILM, 225_280, 90, 12), Some(3_556_721));
}

/// Every rate lies between those ends.
#[test]
fn rates_within_their_ends() {
    for hertz in [CD, FILM] {
        for note in notes_at(hertz) {
            for period in [4_096, 225_280] {
                let rate = rate(hertz, period, note as u8, 0).unwrap();
                assert!((1_201..=3_556_721).contains(&rate));
            }
        }
    }
}

/// It is the voice's own note that must be in the table.
#[test]
fn notes_by_hand() {
    for (hertz, note, interval, own) in [
        (CD, 20, 12, Some(32)),
        (CD, 20, 11, None),
        (CD, 112, -12, Some(100)),
        (CD, 112, -11, None),
        (CD, 95, 5, Some(100)),
        (CD, 95, 6, None),
        (CD, 32, -1, None),
        (CD, 0, -12, None),
        (CD, 127, 12, None),
        (FILM, 32, 0, None),
        (FILM, 32, 1, Some(33)),
        (FILM, 101, 0, Some(101)),
        (FILM, 114, -12, Some(102)),
        (FILM, 114, -11, None),
    ] {
        let name = format!("{hertz} {note} {interval}");
        assert_eq!(voice_note(hertz, note, interval), own, "{name}");
        let sounds = rate(hertz, 25_658, note, interval).is_some();
        assert_eq!(sounds, own.is_some(), "{name}");
    }
}

fn sounding(rate: i64, period: i64, cycle: Cycle, position: f64, out: i16) -> Sung {
    Sung {
        sounding: Some(Sounding {
            rate,
            period,
            cycle,
        }),
        position: samples(position),
        out,
    }
}

fn level(n: usize) -> Sung {
    Sung {
        sounding: None,
        position: input_position(n),
        out: 0,
    }
}

/// From level, two samples at each sample: ahead at once, and then every hundred
/// samples. The period is 100.2265625 samples.
#[test]
fn an_octave_up_by_hand() {
    let made_up = MadeUp::of(&[(300, None, None), (200, Some(25_658), Some(69))]);
    let voice = made_up.lead(CD).voice(12, 0);
    for n in 1..=300 {
        assert_eq!(voice[n - 1], level(n));
    }
    let up = |cycle, position, out| sounding(131_072, 25_658, cycle, position, out);
    // 302 is ahead of 301. Read at 196.7734375.
    assert_eq!(voice[300], up(Cycle::Repeated, 201.7734375, 1_967));
    assert_eq!(voice[301], up(Cycle::Kept, 203.7734375, 1_987));
    assert_eq!(voice[399], up(Cycle::Kept, 399.7734375, 3_947));
    // 401.7734375 is ahead of 401. Read at 296.546875.
    assert_eq!(voice[400], up(Cycle::Repeated, 301.546875, 2_965));
}

/// From level, half a sample at each sample: just 1,000 behind a cycle is kept,
/// and then one is dropped.
#[test]
fn an_octave_down_by_hand() {
    let made_up = MadeUp::of(&[(300, None, None), (2_900, Some(25_658), Some(69))]);
    let voice = made_up.lead(CD).voice(-12, 0);
    let down = |cycle, position, out| sounding(32_768, 25_658, cycle, position, out);
    assert_eq!(voice[300], down(Cycle::Kept, 300.5, 2_955));
    assert_eq!(voice[2_299], down(Cycle::Kept, 1_300.0, 12_950));
    // 1300.5 of 2301, and 100.2265625 put on. Read at 1395.7265625.
    assert_eq!(voice[2_300], down(Cycle::Dropped, 1_400.7265625, 13_957));
    assert_eq!(voice[2_301], down(Cycle::Kept, 1_401.2265625, 13_962));
}

/// A voice reads before the take too: silence.
#[test]
fn a_position_below_0_by_hand() {
    let made_up = MadeUp::of(&[(2, Some(25_658), Some(69))]);
    let voice = made_up.lead(CD).voice(12, 0);
    let right = sounding(131_072, 25_658, Cycle::Repeated, 2.0 - 100.2265625, 0);
    assert_eq!(voice[0], right);
    assert_eq!(voice[1].position, samples(4.0 - 100.2265625));
}

/// Silent without a period, without a wanted note, and with its own note outside
/// the table; each time it is level at once, and goes on from there. The cycle
/// turned is the one tracked then.
#[test]
fn level_while_silent_by_hand() {
    let (a, up) = (Some(25_658), Some(69));
    let made_up = MadeUp::of(&[
        (400, a, up),
        (1, None, None),
        (5, a, up),
        (2, a, None),
        (5, a, up),
        (3, a, Some(89)),
        (5, Some(12_829), up),
    ]);
    let voice = made_up.lead(CD).voice(12, 0);
    let silent = |at: &usize| voice[*at].sounding.is_none();
    let found: Vec<usize> = (0..voice.len()).filter(silent).collect();
    assert_eq!(found, [400, 406, 407, 413, 414, 415]);
    for at in found {
        assert_eq!(voice[at], level(at + 1));
    }
    let up = |cycle, position, out| sounding(131_072, 25_658, cycle, position, out);
    // From 401, 408 and 416.
    assert_eq!(voice[401], up(Cycle::Repeated, 302.7734375, 2_977));
    assert_eq!(voice[402], up(Cycle::Kept, 304.7734375, 2_997));
    assert_eq!(voice[408], up(Cycle::Repeated, 309.7734375, 3_047));
    // Half the period, and so half the rate: level again.
    let right = |n: usize, out| sounding(65_536, 12_829, Cycle::Kept, n as f64, out);
    assert_eq!(voice[416], right(417, 4_120));
    assert_eq!(voice[420], right(421, 4_160));
    // Afresh from any sample on.
    for from in 0..=voice.len() {
        assert_eq!(made_up.lead(CD).voice(12, from), voice[from..]);
    }
}

/// 16, 8, 11, 12, 13, 14, 15, then 17, 18, 19; what is refused leaves the default
/// tuner, without voices.
#[test]
fn refusals_at_start() {
    let good = Settings::AT_ONCE;
    let bad = Settings {
        channel: 16,
        mode: 2,
        ..Settings::of([0, 410, 256, 0])
    };
    let scale = Settings { scale: 1, ..bad };
    let eps = Settings { eps: 1, ..scale };
    let decay = Settings { decay: 1, ..eps };
    let floor = Settings { floor: 1, ..decay };
    let channel = Settings {
        channel: 1,
        ..floor
    };
    let no_room = Some(ROW - 1);
    let (wide, many) = ([0, 0, 0, 13], [0, 0, 0, 0]);
    for (hertz, settings, store, intervals, number) in [
        (CD + 1, bad, no_room, wide, 16),
        (CD, bad, no_room, wide, 8),
        (CD, scale, no_room, wide, 11),
        (CD, eps, no_room, wide, 12),
        (CD, decay, no_room, wide, 13),
        (CD, floor, no_room, wide, 14),
        (CD, channel, no_room, wide, 15),
        (CD, good, no_room, wide, 17),
        (CD, good, Some(ROW), wide, 18),
        (FILM, good, None, wide, 18),
        (FILM, good, None, [-13, 0, 0, 0], 18),
        (FILM, good, Some(0), many, 17),
        (FILM, good, Some(ROW), many, 19),
        (FILM, good, None, many, 19),
    ] {
        let (answer, ensemble) = Ensemble::start(hertz, settings, store, &intervals);
        assert_eq!(answer.number(), number);
        assert_eq!(ensemble, Ensemble::default_start());
        assert!(ensemble.intervals().is_empty());
    }
    for intervals in [&[13][..], &[-13], &[0, i32::MAX], &[i32::MIN]] {
        let (answer, _) = Ensemble::start(CD, good, None, intervals);
        assert_eq!(answer, Answer::IntervalOutOfRange);
    }
    for intervals in [&[][..], &[0], &[12, -12], &[5, 5, 5]] {
        let (answer, ensemble) = Ensemble::start(FILM, good, None, intervals);
        assert_eq!((answer, ensemble.intervals()), (Answer::Taken, intervals));
        assert_eq!(ensemble.lead, Tuner::start(FILM, good).1);
    }
}

fn started(hertz: u32, settings: Settings, intervals: &[i32]) -> Ensemble {
    let (answer, ensemble) = Ensemble::start(hertz, settings, None, intervals);
    assert_eq!(answer, Answer::Taken);
    ensemble
}

/// What a block or some blocks gave.
#[derive(Clone, Debug, Default, PartialEq, Eq)]
struct Given {
    counts: Counts,
    lead: Vec<i16>,
    voices: Vec<Vec<i16>>,
}

/// An answer to a block, with just the room that is needed.
fn block(ensemble: &mut Ensemble, number: u16, take: &[i16]) -> (Answer, Given) {
    let mut lead = vec![UNTOUCHED; take.len()];
    let mut voices = vec![lead.clone(); ensemble.intervals().len()];
    let seen = &mut Statistics::default();
    let (answer, counts) = ensemble.block(number, take, &mut lead, &mut voices, seen);
    let given = Given {
        counts,
        lead,
        voices,
    };
    (answer, given)
}

/// Takes all of it, from block 0 on, in blocks of so many samples.
fn play(ensemble: &mut Ensemble, take: &[i16], size: usize) -> Given {
    let mut all = Given {
        voices: vec![Vec::new(); ensemble.intervals().len()],
        ..Given::default()
    };
    for (place, samples) in take.chunks(size).enumerate() {
        let (answer, given) = block(ensemble, place as u16, samples);
        assert_eq!(answer, Answer::Taken);
        all.counts = all.counts.plus(given.counts);
        all.lead.extend(given.lead);
        for (voice, more) in all.voices.iter_mut().zip(given.voices) {
            voice.extend(more);
        }
    }
    all
}

/// A pure tone whose period goes evenly between two, in samples.
fn glide(from: f64, to: f64, length: usize) -> Vec<i16> {
    let mut phase = 0.0;
    let tone = (0..length).map(|time| {
        phase += 1.0 / (from + (to - from) * time as f64 / length as f64);
        (9_000.0 * (phase * std::f64::consts::TAU).sin()) as i16
    });
    tone.collect()
}

fn tone(period: f64, length: usize) -> Vec<i16> {
    glide(period, period, length)
}

/// The period of a note, in samples.
fn samples_of(hertz: u32, note: usize) -> f64 {
    period_of(hertz, note) as f64 / PERIOD_UNIT as f64
}

/// Samples from the first with a period to the first loss behind it.
fn first_pitched(tuner: &Tuner) -> std::ops::Range<usize> {
    let periods = tuner.lead().periods;
    let first = periods.iter().position(Option::is_some).expect("a period");
    let rest = periods[first..].iter().position(Option::is_none);
    first..rest.map_or(periods.len(), |length| first + length)
}

/// Until tracking is first lost the lead stands where a voice does that is put
/// level until then: without smoothing, both read alike at the raw rate. And the
/// voice is not smoothed where the lead is.
#[test]
fn a_unison_voice_reads_at_the_raw_rate() {
    for hertz in [CD, FILM] {
        let take = &sung()[..8_000];
        let mut ensemble = started(hertz, Settings::AT_ONCE, &[0]);
        let given = play(&mut ensemble, take, 512);
        let pitched = first_pitched(&ensemble.lead);
        assert!(pitched.len() > 6_000);
        assert_eq!(pitched.end, take.len());
        assert_eq!(
            given.voices[0][pitched.clone()],
            given.lead[pitched.clone()]
        );
        assert!(given.voices[0][..pitched.start].iter().all(|&out| out == 0));
        // The lead lets the samples through before that.
        assert!(given.lead[..pitched.start].iter().any(|&out| out != 0));
        // Its cycles are those of the lead, which alone are counted.
        let turned = |cycle| {
            let voice = ensemble.lead.lead().voice(0, 0);
            let is = |sung: &&Sung| sung.sounding.is_some_and(|s| s.cycle == cycle);
            voice.iter().filter(is).count()
        };
        let counts = (given.counts.repeated, given.counts.dropped);
        assert_eq!((turned(Cycle::Repeated), turned(Cycle::Dropped)), counts);
        assert_ne!(counts, (0, 0));

        let mut smoothed = started(hertz, Settings::DEFAULT, &[0]);
        let other = play(&mut smoothed, take, 512);
        assert_eq!(other.voices, given.voices);
        assert_ne!(other.lead, given.lead);
    }
}

/// Over a take with losses: level and silent where there is no period, the sample
/// that loses among them, and sounding from the step's own sample on.
#[test]
fn losses() {
    let take = sung();
    let mut ensemble = started(CD, Settings::DEFAULT, &[-5, 0, 7]);
    let given = play(&mut ensemble, &take, 300);
    let lead = ensemble.lead.lead();
    let periods = lead.periods;
    for (place, interval) in [-5, 0, 7].into_iter().enumerate() {
        let voice = lead.voice(interval, 0);
        for (at, sung) in voice.iter().enumerate() {
            assert_eq!(sung.out, given.voices[place][at]);
            let own = lead.notes[at].and_then(|note| voice_note(CD, note, interval));
            assert_eq!(lead.notes[at].is_some(), periods[at].is_some());
            assert_eq!(sung.sounding.is_some(), own.is_some());
            if own.is_none() {
                assert_eq!(*sung, level(at + 1));
            }
        }
    }
    let turns = periods.windows(2).enumerate();
    let changes = |from: bool| {
        let turns = turns.clone();
        let found = turns.filter(|(_, p)| p[0].is_some() == from && p[1].is_some() != from);
        // The count of the sample that has the new.
        found.map(|(at, _)| at + 2).collect::<Vec<usize>>()
    };
    let (found, lost) = (changes(false), changes(true));
    assert!(found.len() > 3 && lost.len() > 3);
    assert!(found.iter().chain(&lost).all(|n| n % 5 == 0));
}

fn keyboard() -> Settings {
    Settings {
        mode: KEYBOARD,
        eps: 409,
        ..Settings::AT_ONCE
    }
}

fn midi(ensemble: &mut Ensemble, bytes: &[u8]) {
    let answer = ensemble.lead.midi(bytes, &mut Statistics::default());
    assert_eq!(answer, Answer::Taken);
}

/// Which voices sounded at the newest sample.
fn sound_now(ensemble: &Ensemble) -> Vec<bool> {
    let (lead, newest) = (ensemble.lead.lead(), ensemble.lead.count() - 1);
    let intervals = ensemble.intervals().iter();
    let rates = intervals.map(|&interval| lead.voice_rate(interval, newest));
    rates.map(|rate| rate.is_some()).collect()
}

fn is_pitched(ensemble: &Ensemble) -> bool {
    matches!(ensemble.lead.meter(), Meter::Pitched(_))
}

/// A voice whose note is above the table is silent beside a lead whose note is
/// inside; below it likewise.
#[test]
fn a_note_outside_the_table_beside_a_lead_inside() {
    for (hertz, note, intervals, sound) in [
        (CD, 95, [5, 6, -12], [true, false, true]),
        (FILM, 95, [7, 8, -12], [true, false, true]),
        (CD, 40, [-8, -9, 12], [true, false, true]),
        (FILM, 40, [-7, -8, 12], [true, false, true]),
    ] {
        let take = tone(samples_of(hertz, note), 12_000);
        let mut ensemble = started(hertz, Settings::AT_ONCE, &intervals);
        let given = play(&mut ensemble, &take, 512);
        assert!(is_pitched(&ensemble), "{hertz} {note}");
        let newest = ensemble.lead.notes().last().copied().flatten();
        assert_eq!(newest, Some(note as u8));
        assert_eq!(sound_now(&ensemble), sound, "{hertz} {note}");
        let [sounds, silent, _] = &given.voices[..] else {
            panic!("three voices were chosen");
        };
        assert!(silent[11_000..].iter().all(|&out| out == 0));
        assert!(sounds[11_000..].iter().any(|&out| out != 0));
    }
}

/// Under a key outside the table the lead is not tuned, and a voice inside it
/// sounds, at its own rate.
#[test]
fn a_key_outside_the_table_with_a_voice_inside() {
    for (hertz, key, intervals) in [
        (CD, 24, [12, 8, 7]),
        (CD, 112, [-12, -12, -11]),
        (FILM, 24, [12, 9, 8]),
        (FILM, 114, [-12, -12, -11]),
    ] {
        let mut ensemble = started(hertz, keyboard(), &intervals);
        midi(&mut ensemble, &[144, key, 100]);
        play(&mut ensemble, &tone(100.0, 4_000), 512);
        let Meter::Pitched(figures) = ensemble.lead.meter() else {
            panic!("it is not pitched");
        };
        assert_eq!((figures.wanted_period, figures.rate), (0.0, 1.0));
        assert_eq!(sound_now(&ensemble), [true, true, false], "{hertz} {key}");
        let own = usize::from(key).strict_add_signed(intervals[0] as isize);
        let rate = ensemble
            .lead
            .lead()
            .voice_rate(intervals[0], 3_999)
            .unwrap();
        let right = f64::from(figures.period) * 65_536.0 / samples_of(hertz, own);
        assert!((rate as f64 - right).abs() < 1.0, "{rate} {right}");
    }
}

/// Keys, modes and scales count from the next tracking step on, for a voice as
/// for the lead; without a key it is level from that step's own sample on.
#[test]
fn keys_count_from_the_next_step() {
    let take = tone(104.0, 4_000);
    let mut ensemble = started(CD, keyboard(), &[-12, 0, 12]);
    midi(&mut ensemble, &[144, 69, 100]);
    play(&mut ensemble, &take[..3_001], 512);
    assert_eq!(sound_now(&ensemble), [true; 3]);
    let number = 3_001usize.div_ceil(512) as u16;
    let rates = |ensemble: &Ensemble| {
        let newest = ensemble.lead.count() - 1;
        [-12, 0, 12].map(|interval| ensemble.lead.lead().voice_rate(interval, newest))
    };
    let before = rates(&ensemble);
    midi(&mut ensemble, &[144, 69, 0]);
    for (more, n) in (3_002..=3_005).enumerate() {
        assert_eq!(rates(&ensemble), before);
        let (answer, _) = block(&mut ensemble, number + more as u16, &take[n - 1..n]);
        assert_eq!(answer, Answer::Taken);
    }
    // 3,005 is a step: there is no key, and there is still a period.
    assert!(is_pitched(&ensemble));
    assert_eq!(rates(&ensemble), [None; 3]);
    for interval in [-12, 0, 12] {
        assert_eq!(ensemble.lead.lead().voice(interval, 3_004), [level(3_005)]);
    }
    // Back to the scale, which has one note, from the next step on.
    let scale = Settings {
        scale: 1 << 9,
        eps: 409,
        ..Settings::AT_ONCE
    };
    assert_eq!(ensemble.lead.change(scale), Answer::Taken);
    assert_eq!(rates(&ensemble), [None; 3]);
    block(&mut ensemble, number + 4, &take[3_005..3_010]);
    assert_eq!(ensemble.lead.note(), Some(69));
    assert_eq!(sound_now(&ensemble), [true; 3]);
    let sounding = |sung: &Sung| sung.sounding.is_some();
    let voice = ensemble.lead.lead().voice(0, 3_005);
    let sounds: Vec<bool> = voice.iter().map(sounding).collect();
    assert_eq!(sounds, [false, false, false, false, true]);
}

/// A voice sings what the lead alone would sing under the keys of the voice's notes,
/// as long as tracking lasts and the lead's raw rate is in its bounds.
#[test]
fn a_voice_sings_as_a_lead_under_its_own_keys() {
    let take = tone(104.0, 6_000);
    for (hertz, lowest) in [(CD, 69), (FILM, 70)] {
        for interval in -12..=9 {
            let sing = |intervals: &[i32], higher: i32| {
                let mut ensemble = started(hertz, keyboard(), intervals);
                let mut given = Vec::new();
                for (number, stretch) in (0..).zip(take.chunks(501)) {
                    let key = lowest + i32::from(number % 3) + higher;
                    midi(&mut ensemble, &[144, key as u8, 100]);
                    given.push(block(&mut ensemble, number, stretch).1);
                }
                let pitched = first_pitched(&ensemble.lead);
                assert!(pitched.len() > 5_000 && pitched.end == take.len());
                (pitched, given)
            };
            let (pitched, beside) = sing(&[interval], 0);
            let (_, alone) = sing(&[], interval);
            let voice = beside.iter().flat_map(|given| &given.voices[0]);
            let lead = alone.iter().flat_map(|given| &given.lead);
            let same = voice.zip(lead).skip(pitched.start).all(|(a, b)| a == b);
            assert!(same, "{interval} at {hertz}");
        }
    }
}

/// An answer to a block with this room in each output, the voices' too.
fn in_room(
    ensemble: &mut Ensemble,
    number: u16,
    take: &[i16],
    room: usize,
    rooms: &[usize],
) -> (usize, Given) {
    let mut lead = vec![UNTOUCHED; room];
    let mut voices: Vec<Vec<i16>> = rooms.iter().map(|&room| vec![UNTOUCHED; room]).collect();
    let seen = &mut Statistics::default();
    let (answer, counts) = ensemble.block(number, take, &mut lead, &mut voices, seen);
    let given = Given {
        counts,
        lead,
        voices,
    };
    (answer.number(), given)
}

/// 9, 2, 3, 4 for the lead's output or any chosen voice's, then 5, 6 or the repeat,
/// then 7; what is refused touches nothing.
#[test]
fn refusals_of_a_block() {
    let mut full = started(CD, Settings::DEFAULT, &[3, -3]);
    full.lead = Tuner::start_with_limit(CD, Settings::DEFAULT, 12).1;
    assert_eq!(block(&mut full, 0, &[1, 2, 3]).0, Answer::Taken);
    let mut spoiled = full.clone();
    spoiled.lead.put_behind(-1);
    let long = [7; 513];
    for (before, number, take, room, rooms, answer) in [
        (&spoiled, 9, &long[..0], 0, &[0, 0][..], 9),
        (&full, 9, &long[..0], 0, &[0, 0], 2),
        (&full, 9, &long, 0, &[0, 0], 3),
        (&full, 9, &long[..9], 8, &[9, 9], 4),
        (&full, 9, &long[..9], 9, &[8, 9], 4),
        (&full, 9, &long[..9], 9, &[9, 8], 4),
        (&full, 9, &long[..9], 9, &[9, 0, 9], 4),
        // One that is not lent is too short.
        (&full, 9, &long[..9], 9, &[9], 4),
        (&full, 9, &long[..9], 9, &[], 4),
        (&full, 0, &long[..3], 3, &[3, 2], 4),
        (&full, 1, &long[..10], 10, &[10, 9], 4),
        (&full, 9, &long[..9], 9, &[9, 9], 5),
        (&full, 0, &long[..3], 3, &[3, 3], 6),
        (&full, 1, &long[..10], 10, &[10, 10], 7),
        // The third output is of no chosen voice.
        (&full, 1, &long[..10], 10, &[10, 10, 0], 7),
    ] {
        let mut ensemble = before.clone();
        let (number, given) = in_room(&mut ensemble, number, take, room, rooms);
        assert_eq!(number, answer);
        assert_eq!(given.counts, Counts::default());
        let outputs = given.voices.iter().chain([&given.lead]);
        assert!(outputs.flatten().all(|&out| out == UNTOUCHED));
        assert_eq!(ensemble, *before);
    }
    // A repeat that a short output of a voice refuses, in a full take also.
    let (number, given) = in_room(&mut full, 0, &[1, 2, 3], 3, &[3, 2]);
    assert_eq!((number, given.counts), (4, Counts::default()));
    assert_eq!(in_room(&mut full, 0, &[1, 2, 3], 3, &[3, 3]).0, 1);
}

/// A block sent again gives all voices' outputs again, whatever came between; what
/// lies past the block, and outputs beyond the chosen ones, are never touched.
#[test]
fn repeats() {
    let take = tone(100.0, 4_000);
    let mut ensemble = started(CD, keyboard(), &[-12, 12]);
    midi(&mut ensemble, &[144, 69, 100]);
    play(&mut ensemble, &take[..3_584], 512);
    let (answer, first) = in_room(&mut ensemble, 7, &take[3_584..3_800], 300, &[220, 216, 9]);
    assert_eq!(answer, 0);
    for output in first.voices[..2].iter().chain([&first.lead]) {
        assert!(output[..216]
            .iter()
            .any(|&out| out != 0 && out != UNTOUCHED));
        assert!(output[216..].iter().all(|&out| out == UNTOUCHED));
    }
    assert_eq!(first.voices[2], [UNTOUCHED; 9]);
    let after = ensemble.clone();
    assert_eq!(block(&mut ensemble, 7, &take[..216]).0.number(), 6);
    let (answer, again) = in_room(&mut ensemble, 7, &take[3_584..3_800], 300, &[220, 216, 9]);
    assert_eq!((answer, &again), (1, &first));
    assert_eq!(ensemble, after);
    // Settings and keys that count from the next step leave it as it was.
    midi(&mut ensemble, &[144, 69, 0]);
    assert_eq!(ensemble.lead.change(Settings::DEFAULT), Answer::Taken);
    let (answer, again) = in_room(&mut ensemble, 7, &take[3_584..3_800], 300, &[220, 216, 9]);
    assert_eq!((answer, &again), (1, &first));
}

/// A reset keeps the intervals, and every voice begins anew, level.
#[test]
fn reset_keeps_the_intervals() {
    let take = sung();
    let mut ensemble = started(FILM, Settings::DEFAULT, &[4, -8, 12]);
    let first = play(&mut ensemble, &take[..6_000], 512);
    assert_eq!(sound_now(&ensemble), [true; 3]);
    assert_eq!(ensemble.reset(), Answer::Taken);
    assert_eq!(ensemble, started(FILM, Settings::DEFAULT, &[4, -8, 12]));
    assert_eq!(play(&mut ensemble, &take[..6_000], 512), first);
    ensemble.lead.put_behind(-1);
    assert_eq!(ensemble.reset(), Answer::RecordOutOfRange);
}

/// However a take is cut, with keys between its samples, what comes out in total is
/// the same.
#[test]
fn cuttings_agree() {
    let take = &sung()[..12_000];
    let mut right = None;
    for size in [512, 64, 1, 37] {
        let mut ensemble = started(CD, keyboard(), &[-7, 0, 9]);
        let mut all = Vec::new();
        let mut number = 0u16;
        for (place, stretch) in take.chunks(1_500).enumerate() {
            let key = [57, 60, 20, 110][place % 4];
            midi(&mut ensemble, &[144, key, 100]);
            for samples in stretch.chunks(size) {
                let (answer, given) = block(&mut ensemble, number, samples);
                assert_eq!(answer, Answer::Taken);
                all.extend(given.voices);
                number = number.wrapping_add(1);
            }
        }
        let voices: Vec<Vec<i16>> = (0..3)
            .map(|voice| {
                all.iter()
                    .skip(voice)
                    .step_by(3)
                    .flatten()
                    .copied()
                    .collect()
            })
            .collect();
        assert!(voices.iter().flatten().any(|&out| out != 0));
        let right = right.get_or_insert_with(|| voices.clone());
        assert!(voices == *right, "{size}");
    }
}

/// The lead is what it is without voices, and a voice what it is alone.
#[test]
fn a_further_voice_changes_nothing() {
    let take = &sung()[..17_000];
    let mut plain = Tuner::default_start();
    let mut lead = vec![0; take.len()];
    let night = plain.night(0, 512, take, &mut lead, &mut Statistics::default());
    let alone = |interval: i32| {
        let mut ensemble = started(CD, Settings::DEFAULT, &[interval]);
        play(&mut ensemble, take, 512).voices.remove(0)
    };
    for intervals in [&[][..], &[-12], &[7, -5], &[3, 3, -9], &[-5, 12, 7]] {
        let mut ensemble = started(CD, Settings::DEFAULT, intervals);
        let given = play(&mut ensemble, take, 512);
        assert!(ensemble.lead == plain && given.lead == lead);
        assert_eq!(given.counts, night.counts);
        for (&interval, voice) in intervals.iter().zip(&given.voices) {
            assert!(*voice == alone(interval), "{interval} of {intervals:?}");
        }
    }
}

/// A night with this room in each output.
fn night(
    ensemble: &mut Ensemble,
    first: u16,
    size: usize,
    take: &[i16],
    rooms: [usize; 3],
) -> (Night, Given) {
    let mut outputs = rooms.map(|room| vec![UNTOUCHED; room]);
    let [lead, voices @ ..] = &mut outputs;
    let seen = &mut Statistics::default();
    let night = ensemble.night(first, size, take, lead, voices, seen);
    let [lead, voices @ ..] = outputs;
    let given = Given {
        counts: night.counts,
        lead,
        voices: voices.to_vec(),
    };
    (night, given)
}

/// A night with voices is the single calls one by one; also behind a block that is
/// given again, and as far as the take's limit.
#[test]
fn a_night_with_voices() {
    let take = &sung()[..5_000];
    for size in [1, 100, 512] {
        let fresh = started(CD, Settings::DEFAULT, &[5, -5]);
        let mut single = fresh.clone();
        let right = play(&mut single, take, size);
        let mut ensemble = fresh.clone();
        let (done, given) = night(&mut ensemble, 0, size, take, [take.len(); 3]);
        assert_eq!(
            (done.answer, done.taken),
            (Answer::Taken, take.len().div_ceil(size))
        );
        assert!(given == right && ensemble == single, "{size}");

        // The first block was taken before, and is given again.
        let mut ensemble = fresh.clone();
        assert_eq!(block(&mut ensemble, 0, &take[..size]).0, Answer::Taken);
        let (done, mut given) = night(&mut ensemble, 0, size, take, [take.len() + 2; 3]);
        assert_eq!(done.again.unwrap().written, size);
        assert_eq!(done.counts.written, take.len() - size);
        for output in given.voices.iter_mut().chain([&mut given.lead]) {
            assert_eq!(output.split_off(take.len()), [UNTOUCHED; 2]);
        }
        assert!((given.lead, given.voices) == (right.lead, right.voices));
        assert!(ensemble == single);
    }
    // What was taken before the refusal stays, and what is behind it is untouched.
    let mut full = started(CD, Settings::DEFAULT, &[5, -5]);
    full.lead = Tuner::start_with_limit(CD, Settings::DEFAULT, 4_000).1;
    let mut single = full.clone();
    let right = play(&mut single, &take[..3_800], 200);
    assert_eq!(block(&mut single, 19, &take[3_800..4_000]).0, Answer::Taken);
    let (done, given) = night(&mut full, 0, 200, take, [take.len(); 3]);
    assert_eq!(
        (done.answer, done.taken, done.refused),
        (Answer::TakeFull, 20, Some(20))
    );
    assert!(full == single);
    for (voice, right) in given.voices.iter().zip(&right.voices) {
        assert!(voice[..3_800] == *right);
        assert!(voice[4_000..].iter().all(|&out| out == UNTOUCHED));
    }
}

/// 9, then 3, then 4 for a voice's output too, held to the whole recording.
#[test]
fn refusals_of_a_night() {
    let fresh = started(CD, Settings::DEFAULT, &[5, -5]);
    let mut spoiled = fresh.clone();
    spoiled.lead.put_behind(-1);
    let take = [9; 30];
    for (before, size, rooms, answer) in [
        (&spoiled, 513, [0, 0, 0], 9),
        (&fresh, 513, [0, 0, 0], 3),
        (&fresh, 0, [30, 30, 29], 3),
        (&fresh, 10, [29, 30, 30], 4),
        (&fresh, 10, [30, 29, 30], 4),
        (&fresh, 10, [30, 30, 29], 4),
        (&fresh, 10, [30, 30, 30], 5),
    ] {
        let mut ensemble = before.clone();
        let (night, given) = night(&mut ensemble, 7, size, &take, rooms);
        assert_eq!((night.answer.number(), night.taken), (answer, 0));
        let outputs = given.voices.iter().chain([&given.lead]);
        assert!(outputs.flatten().all(|&out| out == UNTOUCHED));
        assert_eq!(ensemble, *before);
    }
}

/// Adds up what a voice did from the last sample at which it was put level, and
/// holds its position and its bounds to it at every sample.
fn hold_account(lead: &Lead, interval: i32, met: &mut BTreeMap<&str, usize>) {
    let (mut level, mut sum, mut repeated, mut dropped) = (0, 0, 0, 0);
    for (at, sung) in lead.voice(interval, 0).iter().enumerate() {
        let input = input_position(at + 1);
        let table = notes_at(lead.hertz);
        let note = lead.notes[at].map(usize::from);
        let what = match sung.sounding {
            None => {
                assert_eq!((sung.out, sung.position), (0, input));
                (level, sum, repeated, dropped) = (input, 0, 0, 0);
                match (lead.periods[at], note) {
                    (None, _) => "no period",
                    (Some(_), None) => "no wanted note",
                    (Some(_), Some(note)) if table.contains(&note) => "outside beside a lead",
                    (Some(_), Some(_)) => "outside",
                }
            }
            Some(sounding) => {
                assert!((1_201..=3_556_721).contains(&sounding.rate));
                assert_eq!(lead.periods[at], Some(sounding.period));
                sum += sounding.rate;
                // 256 position units for each 1/256 sample.
                let cycle = 256 * sounding.period;
                repeated += if sounding.cycle == Cycle::Repeated {
                    cycle
                } else {
                    0
                };
                dropped += if sounding.cycle == Cycle::Dropped {
                    cycle
                } else {
                    0
                };
                match (sounding.cycle, note) {
                    (Cycle::Repeated, _) => "repeated",
                    (Cycle::Dropped, _) => "dropped",
                    (_, Some(note)) if table.contains(&note) => "sounds",
                    _ => "sounds beside a key outside",
                }
            }
        };
        assert_eq!(sung.position, level + sum - repeated + dropped);
        assert!((0..=FARTHEST_BEHIND).contains(&(input - sung.position)));
        *met.entry(what).or_default() += 1;
    }
}

/// From any position within its bounds, at any rate, one period brings a voice back
/// within them; a silent one is level.
#[test]
fn one_period_suffices() {
    for hertz in [CD, FILM] {
        for note in notes_at(hertz).chain([20, 110]) {
            for period in [4_096, 4_097, 25_658, 131_071, 225_279, 225_280] {
                let stretch = (1_500, Some(period), Some(note as u8));
                let made_up = MadeUp::of(&[stretch]);
                for behind in [0, 1, POSITION_UNIT, FARTHEST_BEHIND - 1, FARTHEST_BEHIND] {
                    let position = input_position(1_400) - behind;
                    let voice = made_up.lead(hertz).voice_from(0, 1_400, position);
                    for (n, sung) in (1_401..).zip(&voice) {
                        let behind = input_position(n) - sung.position;
                        assert!((0..=FARTHEST_BEHIND).contains(&behind));
                        assert!(sung.sounding.is_some() || behind == 0);
                    }
                }
            }
        }
    }
}

/// The account of each voice, over a script of every kind.
#[test]
fn accounts_over_every_kind() {
    let mut met = BTreeMap::new();
    for (place, kind) in KINDS.iter().enumerate() {
        let mut program = Program::default();
        let mut answers = Vec::new();
        let intervals = [-12, place as i32 % 25 - 12, 12];
        let mut hold = |program: &Program| {
            for interval in intervals {
                hold_account(&program.tuner().lead(), interval, &mut met);
            }
        };
        for line in script(kind, 13, 5_000).split_inclusive(|&byte| byte == b'\n') {
            let record = Record::on(line.strip_suffix(b"\n").unwrap_or(line));
            if matches!(record, Some(Record::Start(..) | Record::Reset)) {
                hold(&program);
            }
            program.read(line, &mut answers);
        }
        hold(&program);
    }
    assert_eq!(met.len(), 8, "{met:?}");
}

/// The ends of all rates, by keys far away from a high and from a low tone: the
/// periods of 16 and of 880 samples, at which the eight lags stop.
#[test]
fn rates_reach_their_ends() {
    let mut met = BTreeMap::new();
    for (key, from, to, interval, end) in [
        (33, 24.0, 15.8, 0, 1_201),
        (45, 24.0, 15.8, -12, 1_201),
        (102, 860.0, 884.0, 0, 3_556_721),
        (90, 860.0, 884.0, 12, 3_556_721),
    ] {
        let mut ensemble = started(FILM, keyboard(), &[interval]);
        midi(&mut ensemble, &[144, key, 100]);
        play(&mut ensemble, &glide(from, to, 30_000), 512);
        let lead = ensemble.lead.lead();
        let count = ensemble.lead.count();
        let rates = (0..count).filter_map(|at| lead.voice_rate(interval, at));
        let reached = rates.filter(|&rate| rate == end).count();
        assert!(reached > 0, "{end} by key {key}");
        hold_account(&lead, interval, &mut met);
    }
    assert!(met["repeated"] > 0 && met["dropped"] > 0);
}
