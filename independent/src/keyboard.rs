//! The keyboard: bytes of MIDI 1.0 on one chosen channel, one at a time, and
//! the key that they hold.

use crate::settings::Settings;
use crate::statistics::Statistics;

/// Keys, and every other data byte, are 0 to 127.
pub const HIGHEST_KEY: u8 = 127;

#[derive(Clone, Copy, Debug, PartialEq, Eq)]
pub struct Keyboard {
    /// The key of the latest note on, until that key is released.
    pub key: Option<u8>,
    /// The running status: that of the last message, if one may follow
    /// without its own.
    pub status: Option<u8>,
    /// The first data byte of a message that lacks its second.
    pub half: Option<u8>,
}

/// What a byte was found to be.
#[derive(Clone, Copy, Debug, PartialEq, Eq)]
pub enum Event {
    /// It may fall inside a message, and changes nothing.
    RealTime,
    /// It ends the running status and a half message.
    System,
    /// The running status from here on; it ends a half message.
    Status,
    /// Data without a running status.
    PassedOver,
    /// The first of two data bytes.
    First,
    /// The only data byte of a message, which is never about a key.
    Single,
    /// The second of two data bytes: a whole message.
    Second(Message),
}

/// A message of two data bytes.
#[derive(Clone, Copy, Debug, PartialEq, Eq)]
pub enum Message {
    OfAnotherChannel,
    /// The latest note on.
    NoteOn,
    /// The key that was held is so no longer.
    Release,
    /// A key that was not held is released.
    OtherRelease,
    /// Pressure of a key, a controller or a bend.
    Other,
}

/// How many data bytes follow this status, 128 to 239: one after a program
/// change and after a channel's pressure, else two.
fn data_bytes(status: u8) -> usize {
    match status {
        192..=223 => 1,
        _ => 2,
    }
}

impl Keyboard {
    /// No key, no running status, no half message.
    pub const FRESH: Keyboard = Keyboard {
        key: None,
        status: None,
        half: None,
    };

    /// Takes bytes, one after the other.
    pub fn take(&mut self, bytes: &[u8], settings: &Settings, seen: &mut Statistics) {
        for &byte in bytes {
            let before = *self;
            let event = self.byte(byte, settings.channel);
            seen.keyboard_byte(&before, byte, event);
        }
        seen.calls_ending_in_half += u64::from(self.half.is_some());
    }

    /// Takes the next byte, the chosen channel being this one.
    pub fn byte(&mut self, byte: u8, channel: u32) -> Event {
        match byte {
            0..=127 => self.data(byte, channel),
            128..=239 => {
                (self.status, self.half) = (Some(byte), None);
                Event::Status
            }
            240..=247 => {
                (self.status, self.half) = (None, None);
                Event::System
            }
            248..=255 => Event::RealTime,
        }
    }

    fn data(&mut self, byte: u8, channel: u32) -> Event {
        let Some(status) = self.status else {
            return Event::PassedOver;
        };
        if data_bytes(status) == 1 {
            return Event::Single;
        }
        match self.half.take() {
            Some(first) => Event::Second(self.message(status, first, byte, channel)),
            None => {
                self.half = Some(byte);
                Event::First
            }
        }
    }

    /// A whole message; note on with velocity 0 is note off.
    fn message(&mut self, status: u8, first: u8, second: u8, channel: u32) -> Message {
        if u32::from(status % 16) != channel {
            return Message::OfAnotherChannel;
        }
        match (status / 16, second) {
            (9, 1..) => {
                self.key = Some(first);
                Message::NoteOn
            }
            (8, _) | (9, 0) if self.key == Some(first) => {
                self.key = None;
                Message::Release
            }
            (8, _) | (9, 0) => Message::OtherRelease,
            _ => Message::Other,
        }
    }

    /// Whether every number is in its range.
    pub fn is_good(&self) -> bool {
        let half_good = self.half.is_none_or(|half| {
            half <= HIGHEST_KEY && self.status.is_some_and(|status| data_bytes(status) == 2)
        });
        self.key.is_none_or(|key| key <= HIGHEST_KEY)
            && self
                .status
                .is_none_or(|status| (128..=239).contains(&status))
            && half_good
    }
}
