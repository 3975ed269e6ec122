//! Standard MIDI Files: what every byte of one says, by the proved calls.
//!
//! A file is read byte after byte ([`Song::byte`]). It is refused by a number,
//! at the byte that shows what is wrong, or at its end. [`read`] does that for a
//! whole file in memory.
//!
//! ```no_run
//! let file: &[u8] = &[];
//! match daxfolin::smf::read(file) {
//!     Ok(read) => println!("{} events", read.events.len()),
//!     Err(refused) => println!("byte {}: {}", refused.at, refused.number),
//! }
//! ```

use crate::wave::linked;

/// No Standard MIDI File: it does not begin with `MThd`.
pub const NO_MIDI_FILE: u32 = 30;
/// The format is not 0 or 1.
pub const FORMAT_UNKNOWN: u32 = 31;
/// No ticks a quarter note; frames a second other than 24, 25, 29 and 30, or no ticks a frame.
pub const DIVISION_WRONG: u32 = 32;
/// A header of under 6 bytes; or the file ends within its header or a chunk, without a track, or with fewer tracks than its header declares.
pub const ENDS_EARLY: u32 = 33;
/// A track ends within an event.
pub const WITHIN_AN_EVENT: u32 = 34;
/// A delta time or a length has more than four bytes.
pub const QUANTITY_TOO_LONG: u32 = 35;
/// A data byte where there is no running status: at the track's beginning, or behind an exclusive or a meta event.
pub const NO_RUNNING_STATUS: u32 = 36;
/// A status byte within a channel's message.
pub const STATUS_WITHIN: u32 = 37;
/// A status byte that no file has: 241 to 246 and 248 to 254.
pub const UNKNOWN_STATUS: u32 = 38;
/// A tempo that does not have three bytes, or is 0.
pub const TEMPO_WRONG: u32 = 39;
/// A track goes on behind tick 281,474,976,710,656.
pub const TRACK_TOO_LONG: u32 = 40;

/// What a header says, and how many tracks have begun.
#[repr(C)]
#[derive(Clone, Copy, Debug, PartialEq, Eq)]
pub struct Head {
    /// 0 or 1.
    pub format: u32,
    /// Tracks, by the header.
    pub declared: u32,
    /// Ticks a quarter note, 1 to 32767. Of 32768 and more, 256 less the high byte are frames a second, and the low byte ticks a frame.
    pub division: u32,
    /// Tracks that have begun, of which 65535 are counted.
    pub tracks: u32,
}

#[repr(C)]
#[derive(Clone, Copy, Debug, PartialEq, Eq)]
struct Track {
    number: u32,
    whole: u32,
    phase: u32,
    running: u32,
    status: u32,
    first: u32,
    value: u32,
    left: u32,
    tick: u64,
}

/// A file while it is read, as numbers alone (`struct Song` of `crates/smf`).
#[repr(C)]
#[derive(Clone, Copy, Debug, PartialEq, Eq)]
pub struct Song {
    number: u32,
    whole: u32,
    phase: u32,
    value: u32,
    count: u32,
    left: u32,
    name: u32,
    head: Head,
    track: Track,
}

/// The calls of the archive.
mod archive {
    use super::Song;

    extern "C" {
        pub fn daxfolin_smf_begin() -> Song;
        pub fn daxfolin_smf_byte(song: Song, byte: u8) -> Song;
        pub fn daxfolin_smf_end(song: Song) -> u32;
    }
}

const _: () = {
    assert!(size_of::<Head>() == 16 && size_of::<Track>() == 40);
    assert!(size_of::<Song>() == 88 && align_of::<Song>() == 8);
};

/// What an event is.
#[derive(Clone, Copy, Debug, PartialEq, Eq)]
pub enum What {
    /// A channel's message: its status, 128 to 239, and its data bytes. The second is 0 where it has one.
    Message { status: u8, first: u8, second: u8 },
    /// Microseconds a quarter note, 1 to 16777215.
    Tempo(u32),
    /// The track's end.
    End,
    /// An exclusive or another meta event.
    Other,
}

/// An event of a track.
#[derive(Clone, Copy, Debug, PartialEq, Eq)]
pub struct Event {
    /// The first track is 1.
    pub track: u32,
    pub tick: u64,
    pub what: What,
}

/// A refusal: its number, and the place of the byte that shows it; where the file ends too early, its length.
#[derive(Clone, Copy, Debug, PartialEq, Eq)]
pub struct Refused {
    pub number: u32,
    pub at: usize,
}

/// A file that was read: its header, and its events as they stand in it, track after track.
#[derive(Clone, Debug, PartialEq, Eq)]
pub struct Read {
    pub head: Head,
    pub events: Vec<Event>,
}

impl Song {
    /// A file of which no byte was read.
    pub fn begin() -> Song {
        linked();
        // SAFETY: it takes nothing.
        unsafe { archive::daxfolin_smf_begin() }
    }

    /// The file after its next byte: the event that became whole by it, if one did; or the number that it is refused by.
    pub fn byte(&mut self, byte: u8) -> Result<Option<Event>, u32> {
        // SAFETY: it takes numbers.
        *self = unsafe { archive::daxfolin_smf_byte(*self, byte) };
        match self.number {
            0 => Ok(self.event()),
            number => Err(number),
        }
    }

    /// What the file is answered where it ends here: the number that it is refused by.
    pub fn end(&self) -> Result<(), u32> {
        // SAFETY: it takes numbers.
        match unsafe { archive::daxfolin_smf_end(*self) } {
            0 => Ok(()),
            number => Err(number),
        }
    }

    /// What its header says, and how many tracks have begun.
    pub fn head(&self) -> Head {
        self.head
    }

    /// The event that the last byte made whole.
    fn event(&self) -> Option<Event> {
        let Track {
            status,
            first,
            value,
            tick,
            ..
        } = self.track;
        let what = match self.whole {
            0 => return None,
            1 => What::Message {
                status: status as u8,
                first: first as u8,
                second: value as u8,
            },
            2 => What::Tempo(value),
            3 => What::End,
            _ => What::Other,
        };
        Some(Event {
            track: self.head.tracks,
            tick,
            what,
        })
    }
}

/// Reads a whole file.
pub fn read(file: &[u8]) -> Result<Read, Refused> {
    let (mut song, mut events) = (Song::begin(), Vec::new());
    for (at, &byte) in file.iter().enumerate() {
        events.extend(song.byte(byte).map_err(|number| Refused { number, at })?);
    }
    let at = file.len();
    song.end().map_err(|number| Refused { number, at })?;
    let head = song.head();
    Ok(Read { head, events })
}
