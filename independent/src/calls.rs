//! What every call over the record that hosts lend answers and leaves.
//!
//! The lead is this program's own tuner, made of the record; the list goes on
//! with the notes of the samples that the lead took, and the voices beside them
//! from where the record has them: what they heard before is not known.

use crate::night::Night;
use crate::record::{Record, OUTPUTS};
use crate::rules::{input_position, LONGEST_BLOCK};
use crate::settings::Settings;
use crate::statistics::Statistics;
use crate::tuner::{Answer, Counts, Meter, Tuner};
use crate::voices::{Ensemble, Lead, MOST_VOICES, OCTAVE};

/// What is lent to be written: the outputs of lead and voices, and a store for
/// the list.
#[derive(Clone, Debug, Default, PartialEq)]
pub struct Lent {
    pub outs: [Vec<i16>; OUTPUTS],
    pub store: Vec<u32>,
}

/// A call, with what is lent beside the record.
#[derive(Clone, Debug, PartialEq)]
pub enum Call {
    Start {
        hertz: u32,
        settings: Settings,
        /// 0 keeps no list.
        listed: u32,
        intervals: Vec<i32>,
        store: Vec<u32>,
    },
    StartDefault,
    Change(Settings),
    Midi(Vec<u8>),
    Block {
        number: u16,
        samples: Vec<i16>,
        lent: Lent,
    },
    Night {
        first: u16,
        size: u64,
        samples: Vec<i16>,
        lent: Lent,
    },
    /// With a store.
    Reset(Vec<u32>),
    Meter,
    /// The length of a recording, and which stretch of it.
    Cut(u64, u64),
}

impl Call {
    /// A start without a list and without voices.
    pub fn start(hertz: u32, settings: Settings) -> Call {
        Call::Start {
            hertz,
            settings,
            listed: 0,
            intervals: vec![],
            store: vec![],
        }
    }

    /// A block that lends an output for the lead alone.
    pub fn block(number: u16, samples: &[i16], out: Vec<i16>) -> Call {
        Call::Block {
            number,
            samples: samples.to_vec(),
            lent: Lent::out(out),
        }
    }

    /// What it lends to be written; a start and a reset only look at how long
    /// their store is.
    pub fn lent(&self) -> Lent {
        match self {
            Call::Block { lent, .. } | Call::Night { lent, .. } => lent.clone(),
            Call::Start { store, .. } | Call::Reset(store) => Lent {
                store: store.clone(),
                ..Lent::default()
            },
            _ => Lent::default(),
        }
    }

    /// It with these outputs for the voices.
    pub fn with_voices(mut self, [first, second, third]: [Vec<i16>; MOST_VOICES]) -> Call {
        if let Call::Block { lent, .. } | Call::Night { lent, .. } = &mut self {
            let lead = std::mem::take(&mut lent.outs[0]);
            lent.outs = [lead, first, second, third];
        }
        self
    }

    /// It with this store.
    pub fn with_store(mut self, numbers: Vec<u32>) -> Call {
        match &mut self {
            Call::Block { lent, .. } | Call::Night { lent, .. } => lent.store = numbers,
            Call::Start { store, .. } | Call::Reset(store) => *store = numbers,
            _ => {}
        }
        self
    }

    /// The samples that it sends.
    pub fn samples(&self) -> &[i16] {
        match self {
            Call::Block { samples, .. } | Call::Night { samples, .. } => samples,
            _ => &[],
        }
    }
}

impl Lent {
    /// An output for the lead alone.
    pub fn out(out: Vec<i16>) -> Lent {
        let mut lent = Lent::default();
        lent.outs[0] = out;
        lent
    }

    /// For so many samples every output of the lead and so many voices has room.
    fn room(&self, chosen: usize) -> usize {
        let outs = self.outs[..=chosen].iter().map(Vec::len);
        outs.min().expect("there is a lead")
    }
}

/// The number of an answer, what it counts in the order of [`Counts`], and of
/// the list the rows and those left out.
#[derive(Clone, Copy, Debug, Default, PartialEq, Eq)]
pub struct Answered {
    pub number: u32,
    pub counts: [u64; 5],
    pub list: [u32; 2],
}

/// What a call answers and leaves. What it has no word on is 0 and empty.
#[derive(Clone, Debug, Default, PartialEq)]
pub struct Left {
    /// Of a night the number that refused, the sums of what the blocks count,
    /// and the list.
    pub answer: Answered,
    /// Of a night the number of the block that was refused, the blocks taken,
    /// and the answer to a first block that was given again.
    pub refused: u16,
    pub taken: u64,
    pub again: Answered,
    /// The meter's state and its lag, period, wanted period and rate.
    pub state: u32,
    pub figures: [f32; 4],
    /// The first sample of a stretch, and how many it has.
    pub stretch: [u64; 2],
    pub record: Vec<u8>,
    /// What was lent, as it is left.
    pub lent: Lent,
}

fn numbers_of(counts: Counts) -> [u64; 5] {
    let Counts {
        written,
        repeated,
        dropped,
        pitched,
        strayed,
    } = counts;
    let [written, repeated, dropped, pitched] =
        [written, repeated, dropped, pitched].map(|n| n as u64);
    [written, repeated, dropped, pitched, strayed]
}

impl Record {
    fn rows(&self) -> [u32; 2] {
        [self.list.rows, self.list.left]
    }

    /// The answer with this number and these counts.
    fn answered(&self, answer: Answer, counts: Counts) -> Answered {
        Answered {
            number: answer.number() as u32,
            counts: numbers_of(counts),
            list: self.rows(),
        }
    }

    /// A block or a night was made by the lead: the list and the voices go on
    /// beside the samples that it took.
    fn go_on(&self, tuner: &Tuner, seen: &Statistics, again: usize, lent: &mut Lent) -> Record {
        let mut record = self.clone();
        if !tuner.notes.is_empty() {
            record = self.after(tuner, seen);
        }
        if self.listed == 1 {
            let (note, store) = (self.tuner().note(), &mut lent.store);
            record.list.go_on(note, self.count, &tuner.notes, store);
        }
        self.sing(tuner, again, &mut record, &mut lent.outs);
        record
    }

    /// Each chosen voice writes what it kept of a block that was given again, so
    /// many samples, and then goes on beside those that the lead took.
    fn sing(&self, tuner: &Tuner, again: usize, record: &mut Record, outs: &mut [Vec<i16>]) {
        let before = self.short_count();
        // Of the samples before these no period or note is known, and none is asked for.
        let periods = [vec![None; before], tuner.periods.clone()].concat();
        let notes = [vec![None; before], tuner.notes.clone()].concat();
        let lead = Lead {
            first: 0,
            periods: &periods,
            notes: &notes,
            ..tuner.lead()
        };
        for place in 1..=self.chosen() {
            let voice = &mut record.voices[place - 1];
            let position = input_position(before) - i64::from(voice.behind);
            let sung = lead.voice_from(voice.interval as i32 - OCTAVE, before, position);
            let gave: Vec<i16> = sung.iter().map(|sung| sung.out).collect();
            let kept = &self.outs[place][..again];
            let wrote = [kept, &gave[..]].concat();
            outs[place][..wrote.len()].copy_from_slice(&wrote);
            if let Some(sung) = sung.last() {
                voice.behind = (input_position(lead.take.count()) - sung.position) as u32;
                let last = usize::from(record.length);
                record.keep_output(place, &gave[gave.len() - last..]);
            }
        }
    }

    /// A block: by the lead, in an output that has no more room than those of
    /// the chosen voices; then by list and voices.
    fn block(&self, number: u16, samples: &[i16], left: &mut Left) {
        let (mut tuner, mut seen) = (self.tuner(), Statistics::default());
        let room = left.lent.room(self.chosen());
        let out = &mut left.lent.outs[0][..room];
        let (answer, counts) = tuner.block(number, samples, out, &mut seen);
        let again = match answer {
            Answer::GivenAgain => counts.written,
            _ => 0,
        };
        let record = self.go_on(&tuner, &seen, again, &mut left.lent);
        left.answer = record.answered(answer, counts);
        left.record = record.bytes();
    }

    /// A night, likewise.
    fn night(&self, first: u16, size: usize, samples: &[i16], left: &mut Left) {
        let (mut tuner, mut seen) = (self.tuner(), Statistics::default());
        let room = left.lent.room(self.chosen());
        let out = &mut left.lent.outs[0][..room];
        let night = tuner.night(first, size, samples, out, &mut seen);
        let again = night.again.map_or(0, |counts| counts.written);
        let record = self.go_on(&tuner, &seen, again, &mut left.lent);
        left.night(&night, self, &record);
        left.record = record.bytes();
    }

    /// Sample rate, settings, whether a list is kept, and every voice's interval,
    /// that of one that is not chosen too, stay; everything else is fresh.
    fn reset(&self, store: &[u32], left: &mut Left) {
        let mut tuner = self.tuner();
        let answer = match self.listed == 1 && crate::list::room(store.len()) == 0 {
            true => Answer::StoreWithoutRoom,
            false => tuner.reset(),
        };
        left.answer.number = answer.number() as u32;
        if answer == Answer::Taken {
            let mut fresh = Record::fresh(tuner.hertz, tuner.settings);
            (fresh.listed, fresh.chosen) = (self.listed, self.chosen);
            fresh.voices = self.voices;
            fresh.voices.iter_mut().for_each(|voice| voice.behind = 0);
            left.record = fresh.bytes();
        }
    }

    fn meter(&self, left: &mut Left) {
        match self.tuner().meter() {
            Meter::Searching => {}
            Meter::Locking(lag) => (left.state, left.figures[0]) = (1, lag),
            Meter::Pitched(figures) => {
                left.state = 2;
                left.figures = [0.0, figures.period, figures.wanted_period, figures.rate];
            }
            Meter::Refused => unreachable!("a good record's meter is read"),
        }
    }
}

impl Left {
    /// A record that is not good is left as it is; a block and a night answer
    /// the rows that stand in it.
    fn refuse(&mut self, record: &Record, call: &Call) {
        match call {
            Call::Meter => self.state = Answer::RecordOutOfRange.number() as u32,
            Call::Block { .. } | Call::Night { .. } => {
                self.answer = record.answered(Answer::RecordOutOfRange, Counts::default());
            }
            _ => self.answer.number = Answer::RecordOutOfRange.number() as u32,
        }
    }

    /// The default tuner beside the number of what is bad.
    fn start(
        &mut self,
        hertz: u32,
        settings: Settings,
        listed: u32,
        intervals: &[i32],
        store: &[u32],
    ) {
        let lent = (listed != 0).then_some(store.len());
        let (answer, ensemble) = Ensemble::start(hertz, settings, lent, intervals);
        let started = ensemble.lead.standing();
        let mut record =
            Record::fresh(started.hertz, started.settings).with_voices(ensemble.intervals());
        if listed != 0 && answer == Answer::Taken {
            record = record.with_list();
        }
        self.answer.number = answer.number() as u32;
        self.record = record.bytes();
    }

    /// What a night answers over the record before it and the one after it.
    fn night(&mut self, night: &Night, before: &Record, after: &Record) {
        self.answer = after.answered(night.answer, night.counts);
        self.refused = night.refused.unwrap_or(0);
        self.taken = night.taken as u64;
        if let Some(counts) = night.again {
            self.again = before.answered(Answer::GivenAgain, counts);
        }
    }
}

/// What a call over these bytes answers and leaves.
pub fn made(bytes: &[u8], call: &Call) -> Left {
    let record = Record::of_bytes(bytes);
    let mut left = Left {
        record: bytes.to_vec(),
        lent: call.lent(),
        ..Left::default()
    };
    match call {
        Call::Start {
            hertz,
            settings,
            listed,
            intervals,
            store,
        } => left.start(*hertz, *settings, *listed, intervals, store),
        Call::StartDefault => left.record = Record::default_start().bytes(),
        Call::Cut(length, k) => {
            // Past the end in whole numbers, whatever k is.
            let from = (u128::from(*k) * LONGEST_BLOCK as u128).min(u128::from(*length)) as u64;
            left.stretch = [from, (length - from).min(LONGEST_BLOCK as u64)];
        }
        _ if !record.is_good() => left.refuse(&record, call),
        Call::Change(settings) => {
            let mut tuner = record.tuner();
            left.answer.number = tuner.change(*settings).number() as u32;
            let settings = tuner.settings;
            let changed = Record { settings, ..record };
            left.record = changed.with_keyboard(&tuner.keyboard).bytes();
        }
        Call::Midi(bytes) => {
            let mut tuner = record.tuner();
            tuner.midi(bytes, &mut Statistics::default());
            left.record = record.with_keyboard(&tuner.keyboard).bytes();
        }
        Call::Reset(store) => record.reset(store, &mut left),
        Call::Block {
            number, samples, ..
        } => record.block(*number, samples, &mut left),
        Call::Night {
            first,
            size,
            samples,
            ..
        } => record.night(*first, *size as usize, samples, &mut left),
        Call::Meter => record.meter(&mut left),
    }
    left
}
