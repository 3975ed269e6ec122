//! What the host may set, and which setting is wrong.

use crate::tuner::Answer;

#[derive(Clone, Copy, Debug, PartialEq, Eq)]
pub struct Settings {
    /// A 12-bit mask, bit = note number mod 12.
    pub scale: u32,
    /// In 1/1024.
    pub eps: u32,
    /// In 1/256.
    pub decay: u32,
    /// A mean square.
    pub floor: u32,
    /// Whose note is wanted: the scale's or the keyboard's.
    pub mode: u32,
    /// The keyboard's, 0 to 15.
    pub channel: u32,
}

/// The modes.
pub const SCALE: u32 = 0;
pub const KEYBOARD: u32 = 1;

impl Settings {
    pub const DEFAULT: Settings = Settings::of([4095, 100, 230, 100]);

    /// The default settings without their decay, under which a rate glides: here
    /// it is the raw rate at once.
    pub const AT_ONCE: Settings = Settings {
        decay: 0,
        ..Settings::DEFAULT
    };

    /// Scale, eps, decay and floor; mode and channel are those that hold
    /// unless others are given.
    pub const fn of([scale, eps, decay, floor]: [u32; 4]) -> Settings {
        Settings {
            scale,
            eps,
            decay,
            floor,
            mode: SCALE,
            channel: 0,
        }
    }

    /// What these settings are answered: the first that is out of its range
    /// is named.
    pub fn answer(&self) -> Answer {
        if !(1..=4095).contains(&self.scale) {
            return Answer::ScaleOutOfRange;
        }
        if self.eps > 409 {
            return Answer::EpsOutOfRange;
        }
        if self.decay > 255 {
            return Answer::DecayOutOfRange;
        }
        if !(1..=1_000_000).contains(&self.floor) {
            return Answer::FloorOutOfRange;
        }
        if self.channel > 15 {
            return Answer::ChannelOutOfRange;
        }
        if self.mode > KEYBOARD {
            return Answer::ModeUnknown;
        }
        Answer::Taken
    }

    pub fn in_range(&self) -> bool {
        self.answer() == Answer::Taken
    }
}
