//! How often each branch of what document 02 says of backing voices was gone
//! through. It only looks on.

use crate::rules::*;
use crate::statistics::counters;
use crate::table::{notes_at, FILM};
use crate::tuner::Answer;
use crate::voices::{Lead, Sounding, Sung, MOST_VOICES, OCTAVE};

/// The intervals of a voice, from the widest down to the widest up.
const INTERVALS: usize = 2 * OCTAVE as usize + 1;

/// What a rate is four octaves down or up.
const FOUR_OCTAVES: i64 = 16;

counters! {
    VoiceStatistics:
    /// Starts that are refused for their voices.
    starts_refused_by_18,
    starts_refused_by_19,
    /// Resets while a voice sounds.
    resets_of_sounding_voices,
    /// Blocks given again in which a voice sounds, for each.
    sounding_given_again,
    /// Voices of blocks that are refused.
    refused,
    /// Samples of voices in blocks that are taken, from here on: at which one
    /// sounds, and at 48,000.
    sounding,
    sounding_at_48000,
    /// It sounds beside a key outside the table.
    sounding_beside_key_outside,
    /// At which one is silent, by the first reason that there is.
    silent_without_period,
    silent_without_wanted_note,
    silent_with_note_below_table,
    silent_with_note_above_table,
    /// Its note is outside the table, beside a wanted note inside.
    silent_beside_note_inside,
    /// It is put level, and sounded at the sample before; and the other way round.
    put_level_after_sounding,
    sounding_after_level,
    /// It sounds, from here on.
    cycles_repeated,
    cycles_dropped,
    /// Past the limits that the lead's raw rate has; and still farther.
    rates_below_32768,
    rates_above_131072,
    rates_four_octaves_down,
    rates_four_octaves_up,
    /// Another rate than at the sample before.
    rates_changed,
    /// The read position just level with the input, and 1,000 samples behind it.
    positions_level,
    positions_over_990_behind,
    reads_between,
    values_held_above,
    values_held_below,
    ;
    /// Starts that are taken, by their voices.
    starts: [u64; MOST_VOICES + 1],
    /// Samples at which a voice sounds, by its interval.
    intervals: [u64; INTERVALS],
}

impl VoiceStatistics {
    /// Every counter with its name, the intervals last.
    pub fn counters(&self) -> Vec<(String, u64)> {
        let mut counters = self.named();
        let starts = self.starts.iter().enumerate();
        counters.extend(starts.map(|(voices, &count)| (format!("starts_with_{voices}"), count)));
        let intervals = (-OCTAVE..).zip(&self.intervals);
        counters
            .extend(intervals.map(|(interval, &count)| (format!("interval_{interval}"), count)));
        counters
    }

    /// Adds what another run saw.
    pub fn add(&mut self, other: &VoiceStatistics) {
        self.add_named(other);
        let more = other.starts.iter().chain(&other.intervals);
        for (count, more) in self.starts.iter_mut().chain(&mut self.intervals).zip(more) {
            *count += more;
        }
    }

    /// A start with so many voices.
    pub fn start(&mut self, answer: Answer, voices: usize) {
        match answer {
            Answer::Taken => self.starts[voices] += 1,
            Answer::IntervalOutOfRange => self.starts_refused_by_18 += 1,
            Answer::TooManyVoices => self.starts_refused_by_19 += 1,
            _ => {}
        }
    }

    /// A reset while these voices are chosen.
    pub fn reset(&mut self, lead: &Lead, intervals: &[i32]) {
        if let Some(last) = lead.periods.len().checked_sub(1) {
            let sounds = |interval: &&i32| lead.voice_rate(**interval, last).is_some();
            self.resets_of_sounding_voices += intervals.iter().filter(sounds).count() as u64;
        }
    }

    /// A voice at a block that was answered with this digit: what it does from
    /// this sample on.
    pub fn block(&mut self, digit: u8, lead: &Lead, interval: i32, from: usize, voice: &[Sung]) {
        let sounds = voice.iter().any(|sung| sung.sounding.is_some());
        match digit {
            b'0' => self.taken(lead, interval, from, voice),
            b'1' => self.sounding_given_again += u64::from(sounds),
            _ => self.refused += 1,
        }
    }

    fn taken(&mut self, lead: &Lead, interval: i32, from: usize, voice: &[Sung]) {
        for (at, sung) in (from..).zip(voice) {
            let before = at
                .checked_sub(1)
                .and_then(|at| lead.voice_rate(interval, at));
            match &sung.sounding {
                None => self.silent(lead, interval, at, before),
                Some(sounding) => {
                    self.intervals[(interval + OCTAVE) as usize] += 1;
                    self.sounding(lead, at, sounding, before);
                    self.position(lead, at, sung.position);
                }
            }
        }
    }

    fn silent(&mut self, lead: &Lead, interval: i32, at: usize, before: Option<i64>) {
        self.put_level_after_sounding += u64::from(before.is_some());
        let table = notes_at(lead.hertz);
        let reason = match (lead.periods[at], lead.notes[at]) {
            (None, _) => &mut self.silent_without_period,
            (Some(_), None) => &mut self.silent_without_wanted_note,
            (Some(_), Some(note)) => {
                self.silent_beside_note_inside += u64::from(table.contains(&note.into()));
                match i32::from(note) + interval < *table.start() as i32 {
                    true => &mut self.silent_with_note_below_table,
                    false => &mut self.silent_with_note_above_table,
                }
            }
        };
        *reason += 1;
    }

    fn sounding(&mut self, lead: &Lead, at: usize, sounding: &Sounding, before: Option<i64>) {
        let rate = sounding.rate;
        let note = lead.notes[at].map(usize::from);
        let outside = note.is_some_and(|note| !notes_at(lead.hertz).contains(&note));
        self.sounding += 1;
        self.sounding_at_48000 += u64::from(lead.hertz == FILM);
        self.sounding_beside_key_outside += u64::from(outside);
        self.sounding_after_level += u64::from(before.is_none());
        self.rates_changed += u64::from(before.is_some_and(|before| before != rate));
        self.rates_below_32768 += u64::from(rate < LEAST_RAW_RATE);
        self.rates_above_131072 += u64::from(rate > GREATEST_RAW_RATE);
        self.rates_four_octaves_down += u64::from(rate < LEVEL_RATE / FOUR_OCTAVES);
        self.rates_four_octaves_up += u64::from(rate > LEVEL_RATE * FOUR_OCTAVES);
        self.cycles_repeated += u64::from(sounding.cycle == Cycle::Repeated);
        self.cycles_dropped += u64::from(sounding.cycle == Cycle::Dropped);
    }

    fn position(&mut self, lead: &Lead, at: usize, position: i64) {
        let behind = input_position(at + 1) - position;
        self.positions_level += u64::from(behind == 0);
        self.positions_over_990_behind += u64::from(behind > 990 * POSITION_UNIT);
        self.reads_between += u64::from(read_steps(position) > 0);
        let value = read(lead.take, position);
        self.values_held_above += u64::from(value > held(value).into());
        self.values_held_below += u64::from(value < held(value).into());
    }
}
