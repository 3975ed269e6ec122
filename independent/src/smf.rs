//! Standard MIDI Files, written from the published format (MIDI Manufacturers
//! Association, "Standard MIDI Files 1.0"): chunks are cut out first, each
//! track's events are taken from its front, and a time is computed afresh for
//! every event, as an exact fraction, from the whole tempo map.

/// A refusal: its number, and the place of the byte that shows it; the file's
/// length where the file ends too early.
#[derive(Clone, Copy, Debug, PartialEq, Eq)]
pub struct Wrong {
    pub number: u32,
    pub at: usize,
}

fn wrong<T>(number: u32, at: usize) -> Result<T, Wrong> {
    Err(Wrong { number, at })
}

#[derive(Clone, Debug, PartialEq, Eq)]
pub enum Event {
    /// A channel's message, its status before it.
    Message(Vec<u8>),
    /// Microseconds a quarter note.
    Tempo(u32),
    End,
    Other,
}

/// A track: its events, each with its tick.
pub type Track = Vec<(u64, Event)>;

#[derive(Clone, Debug, PartialEq, Eq)]
pub struct Song {
    pub format: u32,
    pub division: u32,
    pub tracks: Vec<Track>,
}

/// No delta time is taken behind this tick.
const LAST_TICK: u64 = 1 << 48;

/// The number of bytes with the greatest first.
fn big(bytes: &[u8]) -> u32 {
    bytes
        .iter()
        .fold(0, |sum, &byte| 256 * sum + u32::from(byte))
}

/// The bytes of a header's field; a file that has not all of them ends early.
fn field(file: &[u8], from: usize, to: usize) -> Result<u32, Wrong> {
    match file.get(from..to) {
        Some(bytes) => Ok(big(bytes)),
        None => wrong(33, file.len()),
    }
}

/// Whether a division says how long a tick is.
fn is_division(division: u32) -> bool {
    match division {
        0..=0x7FFF => division > 0,
        _ => [24, 25, 29, 30].contains(&(256 - division / 256)) && !division.is_multiple_of(256),
    }
}

/// Reads a file.
pub fn song(file: &[u8]) -> Result<Song, Wrong> {
    if !file.starts_with(b"MThd") {
        // Shown by the fourth byte, or by the end before it.
        return wrong(30, file.len().min(3));
    }
    let length = field(file, 4, 8)?;
    if length < 6 {
        return wrong(33, 7);
    }
    let format = field(file, 8, 10)?;
    if format > 1 {
        return wrong(31, 9);
    }
    let declared = field(file, 10, 12)? as usize;
    let division = field(file, 12, 14)?;
    if !is_division(division) {
        return wrong(32, 13);
    }
    let mut at = 8 + length as usize;
    if at > file.len() {
        return wrong(33, file.len());
    }
    let mut tracks = Vec::new();
    while at + 8 <= file.len() {
        let (name, from) = (&file[at..at + 4], at + 8);
        at = from + big(&file[at + 4..from]) as usize;
        if name == b"MTrk" {
            tracks.push(track(&file[..at.min(file.len())], from, at)?);
        }
        if at > file.len() {
            return wrong(33, file.len());
        }
    }
    if tracks.is_empty() || tracks.len() < declared {
        return wrong(33, file.len());
    }
    Ok(Song {
        format,
        division,
        tracks,
    })
}

/// What is left of a track.
struct Left<'a> {
    /// The file as far as the track goes in it.
    file: &'a [u8],
    at: usize,
    /// Where the track's chunk says that it ends.
    end: usize,
}

impl<'a> Left<'a> {
    /// So many bytes from its front. The chunk or the file may end before.
    fn take(&mut self, count: usize) -> Result<&'a [u8], Wrong> {
        let to = self.at + count;
        if to > self.file.len() {
            return match self.file.len() < self.end {
                true => wrong(33, self.file.len()),
                false => wrong(34, self.end - 1),
            };
        }
        let bytes = &self.file[self.at..to];
        self.at = to;
        Ok(bytes)
    }

    fn byte(&mut self) -> Result<u8, Wrong> {
        Ok(self.take(1)?[0])
    }

    /// The place of the byte that was taken last.
    fn last(&self) -> usize {
        self.at - 1
    }

    /// A number of one to four bytes, seven bits each; all but the last have
    /// their eighth bit set.
    fn quantity(&mut self) -> Result<u32, Wrong> {
        let mut bits = Vec::new();
        while bits.len() < 4 {
            let byte = self.byte()?;
            bits.push(u32::from(byte & 0x7F));
            if byte & 0x80 == 0 {
                return Ok(bits.iter().fold(0, |sum, seven| sum << 7 | seven));
            }
        }
        wrong(35, self.last())
    }

    /// The rest of a message: so many data bytes behind what there is of it.
    fn message(&mut self, mut message: Vec<u8>) -> Result<Event, Wrong> {
        let whole = match message[0] & 0xF0 {
            0xC0 | 0xD0 => 2,
            _ => 3,
        };
        while message.len() < whole {
            message.push(self.byte()?);
            if message.last() >= Some(&0x80) {
                return wrong(37, self.last());
            }
        }
        Ok(Event::Message(message))
    }

    fn meta(&mut self) -> Result<Event, Wrong> {
        let kind = self.byte()?;
        let length = self.quantity()?;
        if kind == 0x51 && length != 3 {
            return wrong(39, self.last());
        }
        let body = self.take(length as usize)?;
        match (kind, big(&body[body.len().saturating_sub(3)..])) {
            (0x51, 0) => wrong(39, self.last()),
            (0x51, tempo) => Ok(Event::Tempo(tempo)),
            (0x2F, _) => Ok(Event::End),
            _ => Ok(Event::Other),
        }
    }
}

/// The events of a track from a place on to the end of its chunk, or to its own.
fn track(file: &[u8], from: usize, end: usize) -> Result<Track, Wrong> {
    let mut left = Left {
        file,
        at: from,
        end,
    };
    let (mut tick, mut running, mut events) = (0, None, Vec::new());
    while left.at < end && events.last().map(|(_, event)| event) != Some(&Event::End) {
        let delta = left.quantity()?;
        if tick > LAST_TICK {
            return wrong(40, left.last());
        }
        tick += u64::from(delta);
        let event = match (left.byte()?, running) {
            (0xFF, _) => left.meta()?,
            (0xF0 | 0xF7, _) => {
                let length = left.quantity()?;
                left.take(length as usize)?;
                Event::Other
            }
            (0xF0.., _) => return wrong(38, left.last()),
            (status @ 0x80.., _) => left.message(vec![status])?,
            (data, Some(status)) => left.message(vec![status, data])?,
            (_, None) => return wrong(36, left.last()),
        };
        running = match &event {
            Event::Message(message) => Some(message[0]),
            _ => None,
        };
        events.push((tick, event));
    }
    Ok(events)
}

// ---- the line that a file plays

/// What of a file is played.
#[derive(Clone, Copy, Debug, Default, PartialEq, Eq)]
pub struct Choice {
    /// 1 to 16; all of them where it is none.
    pub channel: Option<u8>,
    /// The first is 1; all of them where it is none.
    pub track: Option<u32>,
    /// Semitones.
    pub transpose: i32,
    /// Milliseconds.
    pub offset: i64,
}

/// A key that goes down or up before a sample.
#[derive(Clone, Copy, Debug, PartialEq, Eq)]
pub struct Key {
    pub sample: u64,
    pub key: u8,
    pub down: bool,
}

/// The keys in their order, and how many notes were left out since they have no
/// key.
#[derive(Clone, Debug, PartialEq, Eq)]
pub struct Line {
    pub keys: Vec<Key>,
    pub dropped: u64,
}

/// A fraction in its lowest terms, below 0 too.
#[derive(Clone, Copy)]
struct Fraction {
    over: i128,
    under: i128,
}

impl Fraction {
    fn of(over: i128, under: i128) -> Fraction {
        let (mut a, mut b) = (over.abs(), under);
        while b > 0 {
            (a, b) = (b, a % b);
        }
        Fraction {
            over: over / a.max(1),
            under: under / a.max(1),
        }
    }

    fn plus(self, other: Fraction) -> Fraction {
        let over = self.over * other.under + other.over * self.under;
        Fraction::of(over, self.under * other.under)
    }

    fn times(self, by: i128) -> Fraction {
        Fraction::of(self.over * by, self.under)
    }

    /// The sample at this many samples, the first one where it is before.
    fn sample(self) -> u64 {
        let floor = self.over.div_euclid(self.under).max(0);
        u64::try_from(floor).unwrap_or(u64::MAX)
    }
}

impl Song {
    /// The tempo map: from which tick on, and how many microseconds a quarter
    /// note. Of several at a tick the last one counts: that of the last track,
    /// and there the last.
    fn tempos(&self) -> Vec<(u64, u32)> {
        let mut tempos = vec![(0, 500_000)];
        for track in &self.tracks {
            tempos.extend(track.iter().filter_map(|(tick, event)| match event {
                Event::Tempo(tempo) => Some((*tick, *tempo)),
                _ => None,
            }));
        }
        tempos.sort_by_key(|(tick, _)| *tick);
        tempos
    }

    /// When a tick is, in seconds.
    fn seconds(&self, tempos: &[(u64, u32)], tick: u64) -> Fraction {
        if self.division >= 0x8000 {
            let parts = i128::from(self.division % 256);
            let frames = match 256 - self.division / 256 {
                29 => (1001, 30_000),
                frames => (1, i128::from(frames)),
            };
            return Fraction::of(i128::from(tick) * frames.0, frames.1 * parts);
        }
        let mut micros = 0;
        for (place, &(from, tempo)) in tempos.iter().enumerate() {
            let to = tempos.get(place + 1).map_or(tick, |next| next.0.min(tick));
            micros += i128::from(to.saturating_sub(from)) * i128::from(tempo);
        }
        Fraction::of(micros, i128::from(self.division) * 1_000_000)
    }

    /// What is played at so many samples a second.
    pub fn line(&self, hertz: u32, choice: &Choice) -> Line {
        let tempos = self.tempos();
        let offset = Fraction::of(choice.offset.into(), 1000);
        let sample = |tick| {
            let seconds = self.seconds(&tempos, tick).plus(offset);
            seconds.times(hertz.into()).sample()
        };
        let mut notes = Vec::new();
        for (number, track) in (1..).zip(&self.tracks) {
            if choice.track.is_none_or(|chosen| chosen == number) {
                notes.extend(track.iter().filter_map(|(tick, event)| match event {
                    Event::Message(message) => note(message, choice).map(|note| (*tick, note)),
                    _ => None,
                }));
            }
        }
        // A stable sort: what stands first in the file stays first.
        notes.sort_by_key(|(tick, _)| *tick);
        let (mut keys, mut dropped, mut held) = (Vec::new(), 0, [false; 128]);
        for (tick, (key, down)) in notes {
            let Some(key) = u8::try_from(key).ok().filter(|&key| key < 128) else {
                dropped += u64::from(down);
                continue;
            };
            held[usize::from(key)] = down;
            let sample = sample(tick);
            keys.push(Key { sample, key, down });
        }
        let ticks = self.tracks.iter().flatten().map(|(tick, _)| *tick);
        let sample = sample(ticks.max().unwrap_or(0));
        let held = (0..128).filter(|&key| held[usize::from(key)]);
        keys.extend(held.map(|key| Key {
            sample,
            key,
            down: false,
        }));
        Line { keys, dropped }
    }
}

/// The key of a note that is chosen, moved, and whether it goes down.
fn note(message: &[u8], choice: &Choice) -> Option<(i64, bool)> {
    let channel = message[0] % 16 + 1;
    let chosen = choice.channel.is_none_or(|chosen| chosen == channel);
    let down = match (message[0] / 16, message.get(2)) {
        (9, Some(1..)) => true,
        (8 | 9, _) => false,
        _ => return None,
    };
    let key = i64::from(message[1]) + i64::from(choice.transpose);
    chosen.then_some((key, down))
}
