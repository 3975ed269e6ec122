//! Backing voices, as document 02 asks for them (K13): each worked out afresh
//! from the whole history of the lead.

use crate::history::History;
use crate::list::{room, Note};
use crate::night::Night;
use crate::rules::*;
use crate::settings::Settings;
use crate::statistics::Statistics;
use crate::table::{notes_at, period_of};
use crate::tuner::{Answer, Counts, Tuner};

/// The most voices beside the lead.
pub const MOST_VOICES: usize = 3;
/// The widest interval, in semitones, up or down.
pub const OCTAVE: i32 = 12;

/// What a voice is worked out from: the samples of a take, and the period and
/// the wanted note of the lead that stood after the search or step of each.
#[derive(Clone, Copy, Debug)]
pub struct Lead<'a> {
    pub hertz: u32,
    pub take: &'a History,
    /// The sample from which on the two below are known; 0 unless some are
    /// forgotten.
    pub first: usize,
    pub periods: &'a [Option<i64>],
    pub notes: &'a [Note],
}

/// A voice that sounds at a sample.
#[derive(Clone, Copy, Debug, PartialEq, Eq)]
pub struct Sounding {
    /// By so much its position grew.
    pub rate: i64,
    /// The tracked period, and what became of that cycle.
    pub period: i64,
    pub cycle: Cycle,
}

/// A voice after a sample.
#[derive(Clone, Copy, Debug, PartialEq, Eq)]
pub struct Sung {
    /// None where it is silent and was put level.
    pub sounding: Option<Sounding>,
    pub position: i64,
    pub out: i16,
}

impl Tuner {
    /// Its history, of which voices are made.
    pub fn lead(&self) -> Lead<'_> {
        Lead {
            hertz: self.hertz,
            take: &self.take,
            first: self.take.count() - self.periods.len(),
            periods: &self.periods,
            notes: &self.notes,
        }
    }
}

/// The note of the table that a voice has at this interval; none where it is
/// outside.
pub fn voice_note(hertz: u32, note: u8, interval: i32) -> Option<usize> {
    let note = usize::try_from(i32::from(note) + interval).ok()?;
    notes_at(hertz).contains(&note).then_some(note)
}

impl Lead<'_> {
    /// The period and the wanted note at a sample.
    fn at(&self, at: usize) -> (Option<i64>, Note) {
        (self.periods[at - self.first], self.notes[at - self.first])
    }

    /// The rate of a voice at a sample, counted from 0: the period over the
    /// entry of its note, without smoothing and without limits. None where it
    /// is silent: without a period, without a wanted note, or with its own note
    /// outside the table.
    pub fn voice_rate(&self, interval: i32, at: usize) -> Option<i64> {
        let (period, note) = self.at(at);
        let note = voice_note(self.hertz, note?, interval)?;
        Some(raw_rate(period?, period_of(self.hertz, note)))
    }

    /// A voice at a sample, counted from 0, before which it stood at this
    /// position.
    fn voice_sample(&self, interval: i32, at: usize, position: i64) -> Sung {
        let input = input_position(at + 1);
        let Some(rate) = self.voice_rate(interval, at) else {
            return Sung {
                sounding: None,
                position: input,
                out: 0,
            };
        };
        let period = self.at(at).0.expect("a voice that sounds has a period");
        let (position, cycle) = turn(position + rate, input, Some(period));
        Sung {
            sounding: Some(Sounding {
                rate,
                period,
                cycle,
            }),
            position,
            out: held(read(self.take, position)),
        }
    }

    /// A voice at the samples from this one on, before which it stood at this
    /// position.
    pub fn voice_from(&self, interval: i32, from: usize, mut position: i64) -> Vec<Sung> {
        let samples = from..self.first + self.periods.len();
        let voice = samples.map(|at| {
            let sung = self.voice_sample(interval, at, position);
            position = sung.position;
            sung
        });
        voice.collect()
    }

    /// A voice at the samples from this one on, afresh from the last sample
    /// before them at which it was put level; a fresh one stands level too.
    pub fn voice(&self, interval: i32, from: usize) -> Vec<Sung> {
        let silent = |at: &usize| self.voice_rate(interval, *at).is_none();
        let sounds_from = (0..from).rev().find(silent).map_or(0, |level| level + 1);
        let mut voice = self.voice_from(interval, sounds_from, input_position(sounds_from));
        voice.split_off(from - sounds_from)
    }
}

/// A tuner with the voices that its start chose.
#[derive(Clone, Debug, PartialEq, Eq)]
pub struct Ensemble {
    /// Changes, keyboard bytes, meter and list are its own.
    pub lead: Tuner,
    intervals: Vec<i32>,
}

impl Ensemble {
    /// A tuner started with the default settings has no voices.
    pub fn default_start() -> Ensemble {
        Ensemble {
            lead: Tuner::default_start(),
            intervals: Vec::new(),
        }
    }

    /// An ensemble started so, or the default one beside the number of what is
    /// bad. A start that begins a list lends a store of so many numbers.
    pub fn start(
        hertz: u32,
        settings: Settings,
        store: Option<usize>,
        intervals: &[i32],
    ) -> (Answer, Ensemble) {
        let answer = Ensemble::answer_to_start(hertz, &settings, store, intervals);
        let ensemble = match answer {
            Answer::Taken => Ensemble {
                lead: Tuner::start(hertz, settings).1,
                intervals: intervals.to_vec(),
            },
            _ => Ensemble::default_start(),
        };
        (answer, ensemble)
    }

    /// Order: the plain start's own, 17, 18, 19.
    pub fn answer_to_start(
        hertz: u32,
        settings: &Settings,
        store: Option<usize>,
        intervals: &[i32],
    ) -> Answer {
        let answer = Tuner::answer_to_start(hertz, settings);
        if answer != Answer::Taken {
            return answer;
        }
        if store.is_some_and(|numbers| room(numbers) == 0) {
            return Answer::StoreWithoutRoom;
        }
        Ensemble::answer_to_voices(intervals)
    }

    fn answer_to_voices(intervals: &[i32]) -> Answer {
        if !intervals.iter().all(|i| (-OCTAVE..=OCTAVE).contains(i)) {
            return Answer::IntervalOutOfRange;
        }
        if intervals.len() > MOST_VOICES {
            return Answer::TooManyVoices;
        }
        Answer::Taken
    }

    pub fn intervals(&self) -> &[i32] {
        &self.intervals
    }

    /// Takes a block. Of the voices' outputs only those of voices that were
    /// chosen are tested and written; one that is not lent is too short.
    pub fn block(
        &mut self,
        number: u16,
        samples: &[i16],
        output: &mut [i16],
        voices: &mut [Vec<i16>],
        seen: &mut Statistics,
    ) -> (Answer, Counts) {
        let room = self.room(output.len(), voices);
        let lead = self.lead.block(number, samples, &mut output[..room], seen);
        self.write(lead.1.written, voices);
        lead
    }

    /// Takes a night's blocks in one call, outputs as for a block.
    pub fn night(
        &mut self,
        first: u16,
        size: usize,
        samples: &[i16],
        output: &mut [i16],
        voices: &mut [Vec<i16>],
        seen: &mut Statistics,
    ) -> Night {
        let room = self.room(output.len(), voices);
        let lead = &mut self.lead;
        let night = lead.night(first, size, samples, &mut output[..room], seen);
        let again = night.again.map_or(0, |counts| counts.written);
        self.write(again + night.counts.written, voices);
        night
    }

    /// Intervals kept too, and with a fresh history every voice is level.
    pub fn reset(&mut self) -> Answer {
        self.lead.reset()
    }

    /// For so many samples every output has room.
    fn room(&self, lead: usize, voices: &[Vec<i16>]) -> usize {
        let lent = |place: usize| voices.get(place).map_or(0, |output| output.len());
        (0..self.intervals.len()).map(lent).fold(lead, usize::min)
    }

    /// Writes the voices at the newest samples: those that were taken, and
    /// before them those of a block that was given again.
    fn write(&self, written: usize, voices: &mut [Vec<i16>]) {
        for (&interval, output) in self.intervals.iter().zip(voices) {
            let voice = self.newest(interval, written);
            output[..written].copy_from_slice(&voice);
        }
    }

    /// What a voice wrote at so many newest samples.
    fn newest(&self, interval: i32, written: usize) -> Vec<i16> {
        let lead = self.lead.lead();
        let voice = lead.voice(interval, self.lead.count() - written);
        voice.iter().map(|sung| sung.out).collect()
    }
}
