//! The record that hosts lend, as bytes: a tuner with its list and its voices.
//!
//! A record holds a tuner if it is of this layout and good by document 01, read
//! with document 02; then this program's own tuner is made of it, and turned into
//! a record again. Every sum is taken directly.

use crate::history::History;
use crate::keyboard::Keyboard;
use crate::list::Listing;
use crate::rules::*;
use crate::settings::Settings;
use crate::statistics::Statistics;
use crate::table::{is_rate, CD};
use crate::tuner::*;
use crate::voices::{MOST_VOICES, OCTAVE};

pub const STORED: usize = 1_764;
pub const EIGHTHS: usize = 224;
pub const LAGS: usize = 109;
/// The lead's output and those of the voices.
pub const OUTPUTS: usize = 1 + MOST_VOICES;
/// The bytes of a record.
pub const SIZE: usize = 10_104;
/// The number that stands first in a record of this layout.
pub const LAYOUT: u64 = 40_000;
/// Where a key, a note or a data byte would stand: there is none.
pub const NONE: u8 = 128;

/// A voice beside the lead.
#[derive(Clone, Copy, Debug, PartialEq, Eq)]
pub struct Voice {
    /// In semitones, from an octave below the wanted note on.
    pub interval: u32,
    /// How far its read position lies behind the input.
    pub behind: u32,
}

impl Voice {
    /// Level with the input.
    pub fn level(interval: u32) -> Voice {
        Voice {
            interval,
            behind: 0,
        }
    }

    fn is_good(&self) -> bool {
        self.interval <= 2 * OCTAVE as u32 && i64::from(self.behind) <= FARTHEST_BEHIND
    }
}

/// Every number of a record, in the order of its bytes.
#[derive(Clone, Debug, PartialEq, Eq)]
pub struct Record {
    pub layout: u64,
    pub settings: Settings,
    /// The sample rate.
    pub hertz: u64,
    // The keyboard: the key, the running status (0: none) and the half message.
    pub key: u32,
    pub status: u16,
    pub half: u16,
    /// Samples of the take.
    pub count: u64,
    // The pitch: the eight lags, the tone, and which of the two modes.
    pub low: u32,
    pub last: u32,
    pub e: [u64; TRACKED],
    pub h: [i64; TRACKED],
    pub period: u32,
    pub note: u32,
    pub rate: u32,
    pub kept: u32,
    pub tracking: u64,
    /// How far the lead's read position lies behind the input.
    pub behind: u64,
    // The last block, and what its answer counts.
    pub number: u16,
    pub length: u16,
    pub repeated: u16,
    pub dropped: u16,
    pub pitched: u32,
    pub strayed: u32,
    /// Whether a list is kept, 0 or 1.
    pub listed: u32,
    /// How many voices are chosen, the first of those below; the others are any numbers.
    pub chosen: u32,
    pub list: Listing,
    pub voices: [Voice; MOST_VOICES],
    // What was heard.
    pub energies: [u64; LAGS],
    pub correlations: [i64; LAGS],
    pub heard: [i16; STORED],
    pub eighths: [i16; EIGHTHS],
    /// What lead and voices wrote of the last block.
    pub outs: [[i16; LONGEST_BLOCK]; OUTPUTS],
}

macro_rules! in_order {
    ($record:ident, $number:ident) => {
        $number!($record.layout);
        $number!($record.settings.scale);
        $number!($record.settings.eps);
        $number!($record.settings.decay);
        $number!($record.settings.floor);
        $number!($record.settings.mode);
        $number!($record.settings.channel);
        $number!($record.hertz);
        $number!($record.key);
        $number!($record.status);
        $number!($record.half);
        $number!($record.count);
        $number!($record.low);
        $number!($record.last);
        $number!(each $record.e);
        $number!(each $record.h);
        $number!($record.period);
        $number!($record.note);
        $number!($record.rate);
        $number!($record.kept);
        $number!($record.tracking);
        $number!($record.behind);
        $number!($record.number);
        $number!($record.length);
        $number!($record.repeated);
        $number!($record.dropped);
        $number!($record.pitched);
        $number!($record.strayed);
        $number!($record.listed);
        $number!($record.chosen);
        $number!($record.list.rows);
        $number!($record.list.left);
        $number!($record.list.place);
        $number!($record.list.first);
        for place in 0..MOST_VOICES {
            $number!($record.voices[place].interval);
            $number!($record.voices[place].behind);
        }
        $number!(each $record.energies);
        $number!(each $record.correlations);
        $number!(each $record.heard);
        $number!(each $record.eighths);
        for place in 0..OUTPUTS {
            $number!(each $record.outs[place]);
        }
    };
}

impl Record {
    /// The record with these bytes, low byte first; any are one.
    pub fn of_bytes(bytes: &[u8]) -> Record {
        let mut record = Record::default_start();
        let mut at = 0;
        macro_rules! read {
            (each $numbers:expr) => {
                $numbers.iter_mut().for_each(|number| read!(*number))
            };
            ($number:expr) => {{
                let size = std::mem::size_of_val(&$number);
                let mut wide = [0; 8];
                wide[..size].copy_from_slice(&bytes[at..at + size]);
                at += size;
                $number = u64::from_le_bytes(wide) as _;
            }};
        }
        in_order!(record, read);
        assert_eq!((at, bytes.len()), (SIZE, SIZE));
        record
    }

    pub fn bytes(&self) -> Vec<u8> {
        let mut bytes = Vec::with_capacity(SIZE);
        macro_rules! write {
            (each $numbers:expr) => {
                $numbers.iter().for_each(|number| write!(*number))
            };
            ($number:expr) => {
                bytes.extend($number.to_le_bytes())
            };
        }
        in_order!(self, write);
        assert_eq!(bytes.len(), SIZE);
        bytes
    }

    /// The default tuner's.
    pub fn default_start() -> Record {
        Record::fresh(CD, Settings::DEFAULT)
    }

    /// Without a list and without voices; the voices that are not chosen are in unison.
    pub fn fresh(hertz: u32, settings: Settings) -> Record {
        Record {
            layout: LAYOUT,
            settings,
            hertz: u64::from(hertz),
            key: u32::from(NONE),
            status: 0,
            half: u16::from(NONE),
            count: 0,
            low: 0,
            last: 0,
            e: [0; TRACKED],
            h: [0; TRACKED],
            period: 0,
            note: u32::from(NONE),
            rate: LEVEL_RATE as u32,
            kept: 0,
            tracking: 0,
            behind: 0,
            number: 0,
            length: 0,
            repeated: 0,
            dropped: 0,
            pitched: 0,
            strayed: 0,
            listed: 0,
            chosen: 0,
            list: Listing::FRESH,
            voices: [Voice::level(OCTAVE as u32); MOST_VOICES],
            energies: [0; LAGS],
            correlations: [0; LAGS],
            heard: [0; STORED],
            eighths: [0; EIGHTHS],
            outs: [[0; LONGEST_BLOCK]; OUTPUTS],
        }
    }

    /// With a list.
    pub fn with_list(self) -> Record {
        Record { listed: 1, ..self }
    }

    /// With a voice for each of these intervals.
    pub fn with_voices(mut self, intervals: &[i32]) -> Record {
        self.chosen = intervals.len() as u32;
        for (voice, interval) in self.voices.iter_mut().zip(intervals) {
            *voice = Voice::level((OCTAVE + interval) as u32);
        }
        self
    }

    /// How many of the three voices are chosen.
    pub fn chosen(&self) -> usize {
        self.chosen.min(MOST_VOICES as u32) as usize
    }

    /// This layout, a tuner behind it with its list, and at most three voices,
    /// each in its ranges.
    pub fn is_good(&self) -> bool {
        self.layout == LAYOUT
            && self.listed <= 1
            && self.list.is_good(self.count)
            && self.chosen <= MOST_VOICES as u32
            && self.voices[..self.chosen()].iter().all(Voice::is_good)
            && self.holds_a_lead()
    }

    /// Document 01's condition in its order, read with document 02. What is kept
    /// for a repeat is not tested.
    fn holds_a_lead(&self) -> bool {
        let kept = History::of(&self.heard);
        let eighths = History::of(&self.eighths);
        let before = |stored: &[i16], count: u64| {
            let silent = (stored.len() as u64).saturating_sub(count) as usize;
            stored[..silent].iter().all(|&sample| sample == 0)
        };
        let right = |history: &History, lowest: usize, e: &[u64], h: &[i64]| {
            let mut lags = (lowest..).zip(e.iter().zip(h));
            lags.all(|(lag, (&e, &h))| {
                e == energy(history, lag) as u64 && h == correlation(history, lag)
            })
        };
        let (low, last) = (self.low as usize, self.last as usize);
        let lags_right = self.tracking == 0
            || (LOWEST_LAG..=HIGHEST_LAG + 1 - TRACKED).contains(&low)
                && (low..low + TRACKED).contains(&last)
                && right(&kept, low, &self.e, &self.h);
        let pitch_right = match self.period {
            0 => i64::from(self.rate) == LEVEL_RATE,
            period => {
                self.tracking == 1
                    && (4_096..=225_280).contains(&period)
                    && self.note <= u32::from(NONE)
                    && (32_768..=131_072).contains(&self.rate)
            }
        };
        self.tracking <= 1
            && self.settings.in_range()
            && u32::try_from(self.hertz).is_ok_and(is_rate)
            && self.keyboard().is_some_and(|keyboard| keyboard.is_good())
            && self.count <= TAKE_LIMIT as u64
            && u64::from(self.length) <= self.count.min(LONGEST_BLOCK as u64)
            && before(&self.heard, self.count)
            && before(&self.eighths, self.count / 8)
            && self.behind <= FARTHEST_BEHIND as u64
            && i64::from(self.kept) <= MOST_KEPT
            && pitch_right
            && right(&eighths, 2, &self.energies, &self.correlations)
            && lags_right
    }

    /// The newest samples, as many as the last block has: in a good record they are its own.
    pub fn last_samples(&self) -> &[i16] {
        let length = usize::from(self.length).min(LONGEST_BLOCK);
        &self.heard[STORED - length..]
    }

    /// The number that the next block must have; the first of a take is 0.
    pub fn next_number(&self) -> u16 {
        match self.length {
            0 => 0,
            _ => self.number.wrapping_add(1),
        }
    }

    /// What the keyboard's numbers say; nothing, where one is too large for what it would be.
    fn keyboard(&self) -> Option<Keyboard> {
        let held = |number: u32| match u8::try_from(number) {
            Ok(NONE) => Some(None),
            Ok(byte) => Some(Some(byte)),
            Err(_) => None,
        };
        let status = match self.status {
            0 => None,
            status => Some(u8::try_from(status).ok()?),
        };
        Some(Keyboard {
            key: held(self.key)?,
            status,
            half: held(u32::from(self.half))?,
        })
    }

    pub(crate) fn with_keyboard(mut self, keyboard: &Keyboard) -> Record {
        self.key = u32::from(keyboard.key.unwrap_or(NONE));
        self.status = u16::from(keyboard.status.unwrap_or(0));
        self.half = u16::from(keyboard.half.unwrap_or(NONE));
        self
    }

    /// Every kept sum taken anew.
    pub fn with_right_sums(mut self) -> Record {
        let (kept, eighths) = (History::of(&self.heard), History::of(&self.eighths));
        for place in 0..LAGS {
            self.energies[place] = energy(&eighths, 2 + place) as u64;
            self.correlations[place] = correlation(&eighths, 2 + place);
        }
        if self.tracking == 1 && (1..=HIGHEST_LAG as u32 + 1).contains(&self.low) {
            for place in 0..TRACKED {
                let lag = (self.low as usize + place).min(HIGHEST_LAG);
                self.e[place] = energy(&kept, lag) as u64;
                self.h[place] = correlation(&kept, lag);
            }
        }
        self
    }

    /// A count with both phases of the record's, the same if the take is short: what is older than the kept samples is never heard.
    pub(crate) fn short_count(&self) -> usize {
        match self.count as usize {
            count if count < 4_000 => count,
            count => 2_000 + (count - 2_000) % 40,
        }
    }

    /// This program's own tuner, of a good record.
    pub(crate) fn tuner(&self) -> Tuner {
        let count = self.short_count();
        let history = |stored: &[i16], count: usize| {
            let kept = count.min(stored.len());
            let mut samples = vec![0; count - kept];
            samples.extend(&stored[stored.len() - kept..]);
            History::of(&samples)
        };
        let pitch = (self.period > 0).then_some(Pitch {
            period: i64::from(self.period),
            wanted_note: (self.note != u32::from(NONE)).then_some(self.note as usize),
        });
        let length = usize::from(self.length);
        Tuner {
            hertz: self.hertz as u32,
            settings: self.settings,
            keyboard: self.keyboard().expect("a good record has a keyboard"),
            limit: count + TAKE_LIMIT - self.count as usize,
            take: history(&self.heard, count),
            // Those of the samples that the call takes.
            notes: Vec::new(),
            sounded: Vec::new(),
            periods: Vec::new(),
            eighths: history(&self.eighths, count / 8),
            mode: match self.tracking {
                0 => Mode::Searching,
                _ => Mode::Tracking(Tracking {
                    lowest: self.low as usize,
                    last_best: self.last as usize,
                    pitch,
                }),
            },
            rate: i64::from(self.rate),
            kept: i64::from(self.kept),
            position: input_position(count) - self.behind as i64,
            last: (length > 0).then(|| LastBlock {
                number: self.number,
                samples: self.heard[STORED - length..].to_vec(),
                output: self.outs[0][..length].to_vec(),
                counts: Counts {
                    written: length,
                    repeated: usize::from(self.repeated),
                    dropped: usize::from(self.dropped),
                    pitched: self.pitched as usize,
                    strayed: u64::from(self.strayed),
                },
            }),
        }
    }

    /// The record after the tuner made of it took a block or more; its list and
    /// its voices are as they were.
    pub(crate) fn after(&self, tuner: &Tuner, seen: &Statistics) -> Record {
        let fresh = Record::fresh(tuner.hertz, tuner.settings).with_keyboard(&tuner.keyboard);
        let mut record = Record {
            listed: self.listed,
            chosen: self.chosen,
            list: self.list,
            voices: self.voices,
            outs: self.outs,
            ..fresh
        };
        record.count = self.count + (tuner.take.count() - self.short_count()) as u64;
        record.behind = (input_position(tuner.take.count()) - tuner.position) as u64;
        record.rate = tuner.rate as u32;
        record.kept = tuner.kept as u32;
        // Without a period there is no wanted note; a record may hold some number there, and it stays until a lag is found or lost.
        let found = seen.finds_by_long_low + seen.finds_by_first_low + seen.finds_by_second_low;
        let lost = seen.losses_by_eps + seen.losses_by_floor + seen.losses_by_jump;
        if found + seen.finds_tied + lost + seen.steps == 0 {
            record.note = self.note;
        }
        if let Mode::Tracking(tracking) = tuner.mode {
            record.tracking = 1;
            record.low = tracking.lowest as u32;
            record.last = tracking.last_best as u32;
            if let Some(pitch) = tracking.pitch {
                record.period = pitch.period as u32;
                record.note = pitch
                    .wanted_note
                    .map_or(u32::from(NONE), |note| note as u32);
            }
        }
        let last = tuner.last.as_ref().expect("a block was taken");
        record.keep_last(last);
        keep(&tuner.take, &mut record.heard);
        keep(&tuner.eighths, &mut record.eighths);
        record.with_right_sums()
    }

    /// The last block, for a repeat.
    fn keep_last(&mut self, last: &LastBlock) {
        self.number = last.number;
        self.length = last.samples.len() as u16;
        self.repeated = last.counts.repeated as u16;
        self.dropped = last.counts.dropped as u16;
        self.pitched = last.counts.pitched as u32;
        self.strayed = last.counts.strayed as u32;
        self.keep_output(0, &last.output);
    }

    /// What the lead, 0, or a voice, 1 to 3, wrote of the last block.
    pub(crate) fn keep_output(&mut self, place: usize, wrote: &[i16]) {
        self.outs[place] = [0; LONGEST_BLOCK];
        self.outs[place][..wrote.len()].copy_from_slice(wrote);
    }
}

/// The newest samples of a history, silence before it.
fn keep(history: &History, to: &mut [i16]) {
    let count = history.count() as i64;
    let oldest = count - to.len() as i64;
    for (place, kept) in to.iter_mut().enumerate() {
        *kept = history.at(oldest + place as i64);
    }
}
