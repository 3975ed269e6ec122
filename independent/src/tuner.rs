//! What the host may call.

use crate::history::History;
use crate::keyboard::{Keyboard, HIGHEST_KEY};
use crate::list::Note;
use crate::report::{self, Sounded};
use crate::rules::*;
use crate::settings::{Settings, KEYBOARD};
use crate::statistics::Statistics;
use crate::table::{is_rate, CD};

/// The most samples in a take.
pub const TAKE_LIMIT: usize = 1_000_000_000;

/// The answers of documents 01 and 02, each with its number; 10 is the line
/// program's own.
#[derive(Clone, Copy, Debug, PartialEq, Eq)]
pub enum Answer {
    Taken = 0,
    GivenAgain = 1,
    BlockEmpty = 2,
    BlockTooLong = 3,
    OutputTooShort = 4,
    NumberNeitherNextNorLast = 5,
    LastNumberOtherSamples = 6,
    TakeFull = 7,
    ScaleOutOfRange = 8,
    RecordOutOfRange = 9,
    EpsOutOfRange = 11,
    DecayOutOfRange = 12,
    FloorOutOfRange = 13,
    ChannelOutOfRange = 14,
    ModeUnknown = 15,
    RateUnknown = 16,
    /// A call's own that lends a store for the list: no room for one row.
    StoreWithoutRoom = 17,
    /// A start's own that chooses voices.
    IntervalOutOfRange = 18,
    TooManyVoices = 19,
}

impl Answer {
    pub fn number(self) -> usize {
        self as usize
    }
}

/// Samples written, cycles repeated and cycles dropped in a block; and what a
/// report adds up beside them: samples with a period, and how far the rates of
/// all samples lie from 65536.
#[derive(Clone, Copy, Debug, Default, PartialEq, Eq)]
pub struct Counts {
    pub written: usize,
    pub repeated: usize,
    pub dropped: usize,
    pub pitched: usize,
    pub strayed: u64,
}

impl Counts {
    /// Those of these samples.
    fn of(samples: &[Sounded]) -> Counts {
        let figures = report::Figures::of(samples);
        Counts {
            written: samples.len(),
            repeated: figures.repeated as usize,
            dropped: figures.dropped as usize,
            pitched: figures.pitched as usize,
            strayed: figures.sum,
        }
    }

    pub fn plus(self, more: Counts) -> Counts {
        Counts {
            written: self.written + more.written,
            repeated: self.repeated + more.repeated,
            dropped: self.dropped + more.dropped,
            pitched: self.pitched + more.pitched,
            strayed: self.strayed + more.strayed,
        }
    }
}

/// What is tracked.
#[derive(Clone, Copy, Debug, PartialEq, Eq)]
pub struct Tracking {
    /// The lowest of the eight lags.
    pub lowest: usize,
    /// The best lag of the last step; at first, the found lag.
    pub last_best: usize,
    /// None before the first step.
    pub pitch: Option<Pitch>,
}

#[derive(Clone, Copy, Debug, PartialEq, Eq)]
pub struct Pitch {
    pub period: i64,
    /// None without a key, in keyboard mode; a key may be outside the table.
    pub wanted_note: Option<usize>,
}

#[derive(Clone, Copy, Debug, PartialEq, Eq)]
pub enum Mode {
    Searching,
    Tracking(Tracking),
}

/// The last taken block, kept for a repeat.
#[derive(Clone, Debug, PartialEq, Eq)]
pub(crate) struct LastBlock {
    pub(crate) number: u16,
    pub(crate) samples: Vec<i16>,
    pub(crate) output: Vec<i16>,
    pub(crate) counts: Counts,
}

#[derive(Clone, Copy, Debug, PartialEq)]
pub enum Meter {
    Searching,
    /// With the found lag.
    Locking(f32),
    Pitched(Figures),
    /// The record is out of range.
    Refused,
}

#[derive(Clone, Copy, Debug, PartialEq)]
pub struct Figures {
    pub period: f32,
    pub wanted_period: f32,
    pub rate: f32,
}

/// What stands between blocks, for who looks on.
#[derive(Clone, Copy, Debug, PartialEq, Eq)]
pub struct Standing {
    pub hertz: u32,
    pub settings: Settings,
    pub keyboard: Keyboard,
    /// What rounding cut off the rate.
    pub kept: i64,
}

#[derive(Clone, Debug, PartialEq, Eq)]
pub struct Tuner {
    /// The sample rate, which only a start gives.
    pub(crate) hertz: u32,
    pub(crate) settings: Settings,
    pub(crate) keyboard: Keyboard,
    pub(crate) limit: usize,
    pub(crate) take: History,
    /// The wanted note of each sample, as it stood after its search or step;
    /// none without a period. The list of the notes sung is made of them.
    pub(crate) notes: Vec<Note>,
    /// What a report counts of each sample.
    pub(crate) sounded: Vec<Sounded>,
    /// The period beside it. Voices are worked out from both.
    pub(crate) periods: Vec<Option<i64>>,
    pub(crate) eighths: History,
    pub(crate) mode: Mode,
    pub(crate) rate: i64,
    /// What rounding cut off the rate, in 1/256 of its unit.
    pub(crate) kept: i64,
    pub(crate) position: i64,
    pub(crate) last: Option<LastBlock>,
}

impl Tuner {
    /// A tuner started with the default settings, at 44,100.
    pub fn default_start() -> Tuner {
        Tuner::fresh(CD, Settings::DEFAULT, TAKE_LIMIT)
    }

    /// A tuner started at this sample rate with these settings, or the default
    /// one beside the number of what is bad: the rate, or the first setting.
    pub fn start(hertz: u32, settings: Settings) -> (Answer, Tuner) {
        Tuner::start_with_limit(hertz, settings, TAKE_LIMIT)
    }

    /// The same with another limit of the take, so that it can be reached.
    pub fn start_with_limit(hertz: u32, settings: Settings, limit: usize) -> (Answer, Tuner) {
        let answer = Tuner::answer_to_start(hertz, &settings);
        let (hertz, settings) = match answer {
            Answer::Taken => (hertz, settings),
            _ => (CD, Settings::DEFAULT),
        };
        (answer, Tuner::fresh(hertz, settings, limit))
    }

    /// Order: 16, then the settings' own.
    pub fn answer_to_start(hertz: u32, settings: &Settings) -> Answer {
        match is_rate(hertz) {
            true => settings.answer(),
            false => Answer::RateUnknown,
        }
    }

    fn fresh(hertz: u32, settings: Settings, limit: usize) -> Tuner {
        Tuner {
            hertz,
            settings,
            keyboard: Keyboard::FRESH,
            limit,
            take: History::fresh(),
            notes: Vec::new(),
            sounded: Vec::new(),
            periods: Vec::new(),
            eighths: History::fresh(),
            mode: Mode::Searching,
            rate: LEVEL_RATE,
            kept: 0,
            position: 0,
            last: None,
        }
    }

    /// New settings count from the next sample. Another channel forgets what
    /// the keyboard sent. Order: 9, then the settings' own.
    pub fn change(&mut self, settings: Settings) -> Answer {
        if !self.is_good() {
            return Answer::RecordOutOfRange;
        }
        let answer = settings.answer();
        if answer == Answer::Taken {
            if settings.channel != self.settings.channel {
                self.keyboard = Keyboard::FRESH;
            }
            self.settings = settings;
        }
        answer
    }

    /// Sample rate and settings kept, everything else fresh.
    pub fn reset(&mut self) -> Answer {
        if !self.is_good() {
            return Answer::RecordOutOfRange;
        }
        *self = Tuner::fresh(self.hertz, self.settings, self.limit);
        Answer::Taken
    }

    /// Takes bytes of the keyboard, in both modes. 9 alone refuses them.
    pub fn midi(&mut self, bytes: &[u8], seen: &mut Statistics) -> Answer {
        if !self.is_good() {
            return Answer::RecordOutOfRange;
        }
        let before = self.standing();
        self.keyboard.take(bytes, &self.settings, seen);
        seen.midi(&before, &self.standing());
        Answer::Taken
    }

    pub fn standing(&self) -> Standing {
        Standing {
            hertz: self.hertz,
            settings: self.settings,
            keyboard: self.keyboard,
            kept: self.kept,
        }
    }

    /// Takes a block. Samples past its length in the output are not touched.
    pub fn block(
        &mut self,
        number: u16,
        samples: &[i16],
        output: &mut [i16],
        seen: &mut Statistics,
    ) -> (Answer, Counts) {
        let answer = self.answer_to(number, samples, output.len());
        let counts = match answer {
            Answer::Taken => self.tune(number, samples, output, seen),
            Answer::GivenAgain => self.give_again(output),
            _ => Counts::default(),
        };
        (answer, counts)
    }

    /// Order: 9, 2, 3, 4, then 5 or 6 or the repeat, then 7.
    fn answer_to(&self, number: u16, samples: &[i16], room: usize) -> Answer {
        if !self.is_good() {
            return Answer::RecordOutOfRange;
        }
        if samples.is_empty() {
            return Answer::BlockEmpty;
        }
        if samples.len() > LONGEST_BLOCK {
            return Answer::BlockTooLong;
        }
        if room < samples.len() {
            return Answer::OutputTooShort;
        }
        match &self.last {
            Some(last) if last.number == number && last.samples == samples => {
                return Answer::GivenAgain
            }
            Some(last) if last.number == number => return Answer::LastNumberOtherSamples,
            _ if number != self.next_number() => return Answer::NumberNeitherNextNorLast,
            _ => {}
        }
        if self.take.count() + samples.len() > self.limit {
            return Answer::TakeFull;
        }
        Answer::Taken
    }

    /// The first block of a take is 0 and 65535 is followed by 0.
    fn next_number(&self) -> u16 {
        match &self.last {
            Some(last) => last.number.wrapping_add(1),
            None => 0,
        }
    }

    fn tune(
        &mut self,
        number: u16,
        samples: &[i16],
        output: &mut [i16],
        seen: &mut Statistics,
    ) -> Counts {
        seen.block(samples.len(), self.take.count(), self.mode);
        let before = self.sounded.len();
        for (&sample, out) in samples.iter().zip(output.iter_mut()) {
            *out = self.sample(sample, seen);
        }
        let counts = Counts::of(&self.sounded[before..]);
        self.last = Some(LastBlock {
            number,
            samples: samples.to_vec(),
            output: output[..samples.len()].to_vec(),
            counts,
        });
        counts
    }

    /// The same counts and the same output; the tuner is unchanged.
    fn give_again(&self, output: &mut [i16]) -> Counts {
        let last = self.last.as_ref().expect("a repeat has a last block");
        for (out, &kept) in output.iter_mut().zip(&last.output) {
            *out = kept;
        }
        last.counts
    }

    /// One sample: stored, searched or tracked with, and one read.
    fn sample(&mut self, sample: i16, seen: &mut Statistics) -> i16 {
        self.take.store(sample);
        let n = self.take.count();
        let eighth_made = n.is_multiple_of(8);
        if eighth_made {
            self.eighths.store(eighth_rate_sample(&self.take));
        }
        match self.mode {
            Mode::Searching if eighth_made => self.search(seen),
            Mode::Tracking(tracking) if n.is_multiple_of(5) => self.track(tracking, seen),
            _ => {}
        }
        self.notes.push(self.note());
        self.periods.push(self.period());
        let input = input_position(n);
        let grown = self.position + self.rate;
        let period = self.period();
        let (position, cycle) = turn(grown, input, period);
        self.sounded.push(Sounded {
            pitched: period.is_some(),
            rate: grown - self.position,
            cycle,
        });
        self.position = position;
        seen.reading(cycle, position, input, period);
        let value = read(&self.take, position);
        seen.value(value);
        held(value)
    }

    fn search(&mut self, seen: &mut Statistics) {
        let lows = lows(&self.eighths, &self.settings);
        let finding = find(&self.take, &lows);
        seen.search(&lows, finding);
        if let Some(found) = finding.lag() {
            self.mode = Mode::Tracking(Tracking {
                lowest: lowest_around(found),
                last_best: found,
                pitch: None,
            });
            // Of a tuner reached by calls nothing is kept while it searches;
            // of a record that a host hands in something may be.
            self.kept = 0;
        }
    }

    fn track(&mut self, tracking: Tracking, seen: &mut Statistics) {
        let Tracking {
            lowest, last_best, ..
        } = tracking;
        match track(&self.take, lowest, last_best, &self.settings) {
            Err(loss) => {
                seen.loss(loss, self.kept);
                self.mode = Mode::Searching;
                (self.rate, self.kept) = (LEVEL_RATE, 0);
            }
            Ok(step) => {
                seen.step(self.hertz, &step);
                let period = step.period();
                let wanted_note = self.wanted_note(period, seen);
                let raw = raw_rate_in_bounds(period, wanted_period(self.hertz, wanted_note));
                self.smooth(raw, tracking.pitch, wanted_note, seen);
                self.mode = Mode::Tracking(Tracking {
                    lowest: step.next_lowest(),
                    last_best: step.best,
                    pitch: Some(Pitch {
                        period,
                        wanted_note,
                    }),
                });
            }
        }
    }

    /// The rate moves toward the raw rate, with what was kept.
    fn smooth(
        &mut self,
        raw: i64,
        last: Option<Pitch>,
        wanted_note: Option<usize>,
        seen: &mut Statistics,
    ) {
        let decay = self.settings.decay;
        let before = (self.rate, self.kept);
        (self.rate, self.kept) = smoothed_rate(decay, self.rate, raw, self.kept);
        let new_note = last.is_some_and(|last| last.wanted_note != wanted_note);
        seen.smoothing(decay, raw, before, (self.rate, self.kept), new_note);
    }

    /// In keyboard mode the key as it now stands, else the scale's nearest.
    fn wanted_note(&self, period: i64, seen: &mut Statistics) -> Option<usize> {
        let Settings { scale, mode, .. } = self.settings;
        let key = self.keyboard.key.map(usize::from);
        if mode == KEYBOARD {
            seen.keyboard_step(self.hertz, key, period);
            return key;
        }
        seen.scale_step(self.hertz, scale, key, period);
        Some(wanted_note(self.hertz, scale, period))
    }

    /// All of it that does not depend on how a take is cut.
    pub fn without_last_block(&self) -> Tuner {
        Tuner {
            last: None,
            ..self.clone()
        }
    }

    fn pitch(&self) -> Option<Pitch> {
        match self.mode {
            Mode::Searching => None,
            Mode::Tracking(tracking) => tracking.pitch,
        }
    }

    fn period(&self) -> Option<i64> {
        self.pitch().map(|pitch| pitch.period)
    }

    /// The wanted note that stands; none without a period.
    pub fn note(&self) -> Note {
        let note = self.pitch()?.wanted_note?;
        Some(u8::try_from(note).expect("a note is a key of a keyboard"))
    }

    /// The wanted note of each sample of the take.
    pub fn notes(&self) -> &[Note] {
        &self.notes
    }

    /// What a report counts of each sample of the take.
    pub fn sounded(&self) -> &[Sounded] {
        &self.sounded
    }

    /// Forgets what the next sample does not need: the list, the report and
    /// the voices are then those of the samples behind it.
    pub fn forget(&mut self) {
        self.take.forget();
        self.eighths.forget();
        self.notes.clear();
        self.periods.clear();
        self.sounded.clear();
    }

    /// Samples of the take.
    pub fn count(&self) -> usize {
        self.take.count()
    }

    pub fn meter(&self) -> Meter {
        if !self.is_good() {
            return Meter::Refused;
        }
        match self.mode {
            Mode::Searching => Meter::Searching,
            Mode::Tracking(tracking) => match tracking.pitch {
                None => Meter::Locking(tracking.last_best as f32),
                Some(pitch) => Meter::Pitched(Figures {
                    period: pitch.period as f32 / 256.0,
                    wanted_period: wanted_period(self.hertz, pitch.wanted_note) as f32 / 256.0,
                    rate: self.rate as f32 / 65_536.0,
                }),
            },
        }
    }

    /// Puts the read position so far behind the input, as a host that hands
    /// in a record might.
    pub fn put_behind(&mut self, units: i64) {
        self.position = input_position(self.take.count()) - units;
    }

    /// Lets the take end 10 to 49 samples from here, as if its count were as
    /// near to the limit; both phases of such a count are those of this one.
    pub fn put_near_the_limit(&mut self) {
        let near = TAKE_LIMIT - 10 - self.take.count();
        self.limit = self.take.count() + 10 + near % 40;
    }

    /// Whether every number of the record is in its range. Samples before the
    /// take are 0 by the making of a history, and no sum is kept.
    pub fn is_good(&self) -> bool {
        let count = self.take.count();
        let behind = input_position(count) - self.position;
        let last_good = self
            .last
            .as_ref()
            .is_none_or(|last| last.samples.len() <= LONGEST_BLOCK.min(count));
        let lags_good = match self.mode {
            Mode::Searching => true,
            Mode::Tracking(tracking) => {
                let Tracking {
                    lowest, last_best, ..
                } = tracking;
                (LOWEST_LAG..=HIGHEST_LAG + 1 - TRACKED).contains(&lowest)
                    && (lowest..lowest + TRACKED).contains(&last_best)
            }
        };
        let pitch_good = match self.pitch() {
            None => self.rate == LEVEL_RATE,
            Some(pitch) => {
                (4_096..=225_280).contains(&pitch.period)
                    && pitch
                        .wanted_note
                        .is_none_or(|note| note <= usize::from(HIGHEST_KEY))
                    && (32_768..=131_072).contains(&self.rate)
            }
        };
        is_rate(self.hertz)
            && self.settings.in_range()
            && self.keyboard.is_good()
            && count <= self.limit
            && self.eighths.count() == count / 8
            && last_good
            && lags_good
            && (0..=FARTHEST_BEHIND).contains(&behind)
            && (0..=MOST_KEPT).contains(&self.kept)
            && pitch_good
    }
}
