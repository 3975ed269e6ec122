//! The line that a Standard MIDI File plays: keys that go down and up, each
//! before a sample of the take. Every byte of the file is read by the proved
//! calls (`daxfolin::smf`). Here ticks become samples, in whole numbers.
//!
//! A tick's time is the sum of ticks times tempo over the tempo map, not rounded;
//! times the samples a second it is rounded down to a sample, once.
//!
//! How a command plays a file to a take:
//!
//! ```ignore
//! let line = midi::line(name, &bytes, take.hertz, &choice)?;
//! let keys = octave.keys("tune", &source, &take, settings, &line)?;
//! let settings = midi::by_keys(settings);
//! let mut delivery = Delivery::of(&keys);
//! source.blocks("tune", &take, |_, sung| {
//!     delivery.give(sung, |part| match part {
//!         Part::Keys(bytes) => keyed(tuner.midi(bytes)),
//!         Part::Block(number, sung) => taken(tuner.block(number, sung, &mut out)),
//!     })
//! })?;
//! ```

use daxfolin::smf::{self, Event, Read, Refused, What, NO_MIDI_FILE};
use daxfolin::{Settings, KEYBOARD_MODE};
use std::collections::BTreeSet;
use std::path::Path;
use words::end::{no, End};

/// The channel on which keys are delivered, from 0 on.
const CHANNEL: u8 = 0;
/// Status bytes of channel 0.
const NOTE_OFF: u8 = 0x80;
const NOTE_ON: u8 = 0x90;
/// The highest key.
const HIGHEST: i64 = 127;

/// Settings under which the keys of a line are wanted, and otherwise these.
pub fn by_keys(settings: Settings) -> Settings {
    Settings {
        mode: KEYBOARD_MODE,
        channel: CHANNEL.into(),
        ..settings
    }
}

/// What of a file is played, and when.
#[derive(Clone, Copy, Debug, Default, PartialEq, Eq)]
pub struct Choice {
    /// 1 to 16: only this channel's notes. None: those of every channel.
    pub channel: Option<u8>,
    /// Only this track's notes; the first track is 1. Tempos count from every track.
    pub track: Option<u32>,
    /// Semitones up, or down where it is below 0.
    pub transpose: i32,
    /// Milliseconds later, or earlier where it is below 0.
    pub offset: i64,
}

/// A key that goes down or up before this sample of the take.
#[derive(Clone, Copy, Debug, PartialEq, Eq)]
pub struct Key {
    pub sample: u64,
    /// 0 to 127.
    pub key: u8,
    pub down: bool,
}

impl Key {
    /// Its message, for `Tuner::midi`.
    pub fn bytes(&self) -> [u8; 3] {
        match self.down {
            true => [NOTE_ON | CHANNEL, self.key, 100],
            false => [NOTE_OFF | CHANNEL, self.key, 64],
        }
    }
}

/// What a file plays.
#[derive(Clone, Debug, Default, PartialEq, Eq)]
pub struct Line {
    /// In their order: by tick, then by track, then as they stand in the track. Samples never fall.
    pub keys: Vec<Key>,
    /// Notes that were left out, since moved they have no key.
    pub dropped: u64,
    /// Notes of each channel, the first at 0, before channel and track were chosen.
    pub channels: [u64; 16],
    /// The tracks of the file.
    pub tracks: u32,
}

/// The line of a file in memory, at so many samples a second. A file that is refused has a sentence with its place.
pub fn line(name: &Path, file: &[u8], hertz: u32, choice: &Choice) -> Result<Line, End> {
    let read = smf::read(file).map_err(|refused| no(name, &words(refused)))?;
    let line = played(&read, hertz, choice);
    match choice.track.filter(|&track| track > line.tracks) {
        Some(track) => Err(no(
            name,
            &format!("there is no track {track}: it has {}", line.tracks),
        )),
        None => Ok(line),
    }
}

/// The sentence for a refusal.
pub fn words(Refused { number, at }: Refused) -> String {
    let why = daxfolin::words(number);
    match number {
        NO_MIDI_FILE => format!("{number}, {why}"),
        _ => format!("byte {at}: {number}, {why}"),
    }
}

// ---- ticks and samples

/// How long ticks are, at so many samples a second, and how much later all is.
#[derive(Clone, Copy)]
struct Clock {
    /// What a second has: millionths of a quarter note's ticks, or parts of frames.
    second: i128,
    /// What a tick of film has of that; by tempo, the tempo.
    film: Option<i128>,
    hertz: i128,
    offset: i128,
}

impl Clock {
    fn of(division: u32, hertz: u32, offset: i64) -> Clock {
        let (high, low) = (division >> 8, i128::from(division & 255));
        let (second, film) = match 256u32.checked_sub(high) {
            // 30 frames with drops, 30,000 in 1001 seconds
            Some(29) => (30_000 * low, Some(1001)),
            Some(frames @ 1..=128) => (i128::from(frames) * low, Some(1)),
            _ => (1_000_000 * i128::from(division), None),
        };
        Clock {
            second,
            film,
            hertz: hertz.into(),
            offset: offset.into(),
        }
    }

    /// The sample of a sum of ticks times what each has: rounded down, and the first where it is before the take.
    fn sample(&self, sum: i128) -> u64 {
        let thousandths = 1000 * sum + self.offset * self.second;
        let sample = (thousandths * self.hertz).div_euclid(1000 * self.second);
        u64::try_from(sample.max(0)).unwrap_or(u64::MAX)
    }
}

/// The sample of each of these ticks, which never fall, over the tempos among the events.
struct Times {
    clock: Clock,
    tempo: i128,
    tick: u64,
    sum: i128,
}

impl Times {
    fn of(clock: Clock) -> Times {
        Times {
            clock,
            tempo: 500_000,
            tick: 0,
            sum: 0,
        }
    }

    fn sample(&mut self, tick: u64) -> u64 {
        let each = self.clock.film.unwrap_or(self.tempo);
        self.sum += i128::from(tick - self.tick) * each;
        self.tick = tick;
        self.clock.sample(self.sum)
    }
}

/// A note of a message: its channel, from 0 on, its key, and whether it goes down.
fn note(what: What) -> Option<(u8, u8, bool)> {
    let What::Message {
        status,
        first,
        second,
    } = what
    else {
        return None;
    };
    let down = match status & 0xF0 {
        NOTE_ON => second > 0,
        NOTE_OFF => false,
        _ => return None,
    };
    Some((status & 15, first, down))
}

/// What the events of a file play, at so many samples a second. Keys that are held at the end of the last track are released there.
pub fn played(read: &Read, hertz: u32, choice: &Choice) -> Line {
    let mut events: Vec<&Event> = read.events.iter().collect();
    // stable: what stands first in the file stays first
    events.sort_by_key(|event| event.tick);
    let mut times = Times::of(Clock::of(read.head.division, hertz, choice.offset));
    let mut line = Line {
        tracks: read.head.tracks,
        ..Line::default()
    };
    let (mut held, mut end) = (BTreeSet::new(), times.sample(0));
    for event in events {
        end = times.sample(event.tick);
        match event.what {
            What::Tempo(tempo) => times.tempo = tempo.into(),
            what => line.take(what, event.track, end, choice, &mut held),
        }
    }
    let release = |key| Key {
        sample: end,
        key,
        down: false,
    };
    line.keys.extend(held.into_iter().map(release));
    line
}

impl Line {
    /// What a command says of a line that may not be what was meant, a sentence each. `past` are its keys behind the take's end
    /// (`Delivery::left`).
    pub fn remarks(&self, choice: &Choice, past: usize) -> Vec<String> {
        let sung = (1..).zip(self.channels).filter(|(_, notes)| *notes > 0);
        let channels: Vec<String> = sung
            .map(|(channel, _): (u32, u64)| channel.to_string())
            .collect();
        let mut said = Vec::new();
        if self.keys.is_empty() {
            said.push("no note of the file is played".to_string());
        }
        let all = choice.channel.is_none() && choice.track.is_none();
        if all && channels.len() > 1 {
            let channels = channels.join(", ");
            said.push(format!(
                "there are notes on channels {channels}, and all are played; --channel chooses one"
            ));
        }
        if self.dropped > 0 {
            said.push(format!(
                "{} notes have no key when they are moved, and are left out",
                self.dropped
            ));
        }
        if past > 0 {
            said.push(format!("{past} keys come behind the take's end"));
        }
        said
    }

    /// Takes an event, which is mostly no note that was chosen.
    fn take(
        &mut self,
        what: What,
        track: u32,
        sample: u64,
        choice: &Choice,
        held: &mut BTreeSet<u8>,
    ) {
        let Some((channel, key, down)) = note(what) else {
            return;
        };
        self.channels[usize::from(channel)] += u64::from(down);
        let of_channel = choice.channel.is_none_or(|chosen| chosen == channel + 1);
        if !of_channel || choice.track.is_some_and(|chosen| chosen != track) {
            return;
        }
        let Some(key) = moved(key, choice.transpose) else {
            self.dropped += u64::from(down);
            return;
        };
        match down {
            true => held.insert(key),
            false => held.remove(&key),
        };
        self.keys.push(Key { sample, key, down });
    }
}

/// A key so many semitones up, if there is one.
fn moved(key: u8, semitones: i32) -> Option<u8> {
    let key = i64::from(key) + i64::from(semitones);
    (0..=HIGHEST).contains(&key).then_some(key as u8)
}
