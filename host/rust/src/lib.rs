//! A proved tuner for one sung voice: mono, 16-bit samples, 44,100 or 48,000 a
//! second, with a list of the notes sung and up to three backing voices.
//!
//! Every call is proved for any bytes in the tuner, any settings and any block
//! (`crates/host` in the repository). What the proof takes for granted of a
//! caller is what Rust's references say: a tuner and slices at aligned
//! addresses, readable, and written by nobody else during the call. So every
//! function here is safe, and nothing is left to test but that the archive is
//! of this version.
//!
//! ```no_run
//! let mut tuner = daxfolin::Tuner::default();
//! let sung = [0i16; 1000];
//! let mut tuned = [0i16; 512];
//! for number in 0..2 {
//!     let samples = daxfolin::cut(&sung, number);
//!     let answer = tuner.block(number as u16, samples, &mut tuned);
//!     assert_eq!(answer.number, daxfolin::TAKEN);
//! }
//! ```

use std::fmt;
use std::mem::offset_of;

mod numbers;
pub mod smf;
pub mod wave;

pub use numbers::{remedy, words};

/// The version of the calls.
pub const VERSION: u32 = 12;
/// The number of the tuner's layout, which stands first in it.
pub const LAYOUT: u64 = 40_000;
/// The most samples of a block.
pub const LONGEST_BLOCK: usize = 512;
/// The most samples of a take.
pub const LONGEST_TAKE: u32 = 1_000_000_000;

/// The most rows of a list.
pub const MOST_ROWS: usize = 4096;
/// The numbers of a row: note, first sample, length.
pub const ROW: usize = 3;
/// The most voices beside the lead.
pub const MOST_VOICES: usize = 3;
/// The widest interval of a voice, in semitones, up or down.
pub const OCTAVE: i32 = 12;

/// A sample rate, in samples a second: the one that the default start has.
pub const CD: u32 = 44_100;
/// A sample rate, in samples a second.
pub const FILM: u32 = 48_000;

/// Taken: a start, a change, bytes of a keyboard, a block, a night or a reset.
pub const TAKEN: u32 = 0;
/// The last block's number, length and samples: the same counts and outputs again, the tuner unchanged.
pub const GIVEN_AGAIN: u32 = 1;
/// The block has no samples. From here on a call is refused: tuner, outputs and store are as they were, but for a start, which hands back
/// the default tuner, and for a night, which leaves what was taken before the block that was refused.
pub const BLOCK_EMPTY: u32 = 2;
/// The block has more than 512 samples; of a night, the block length is 0 or over 512.
pub const BLOCK_OVER_512: u32 = 3;
/// The output of the lead or of a chosen voice is shorter than the block; of a night, than the recording.
pub const OUTPUT_SHORT: u32 = 4;
/// The number is neither the next nor the last taken.
pub const NUMBER_NEITHER: u32 = 5;
/// The last taken number, with another length or other samples.
pub const OTHER_SAMPLES: u32 = 6;
/// The take would pass 1,000,000,000 samples.
pub const TAKE_FULL: u32 = 7;
/// The scale is 0 or over 4095. Of settings the first bad one is named, in the order scale, eps, decay, floor, channel, mode.
pub const SCALE_OUT_OF_RANGE: u32 = 8;
/// A number of the tuner is out of its range, its layout's among them.
pub const RECORD_OUT_OF_RANGE: u32 = 9;
/// Eps is over 409. (10 answers lines that cannot be read, and so no call.)
pub const EPS_OUT_OF_RANGE: u32 = 11;
/// Decay is over 255.
pub const DECAY_OUT_OF_RANGE: u32 = 12;
/// Floor is 0 or over 1,000,000.
pub const FLOOR_OUT_OF_RANGE: u32 = 13;
/// The channel is over 15.
pub const CHANNEL_OUT_OF_RANGE: u32 = 14;
/// The mode is over 1.
pub const MODE_UNKNOWN: u32 = 15;
/// The sample rate is neither [`CD`] nor [`FILM`]. A start alone is answered this, before its settings are looked at.
pub const RATE_UNKNOWN: u32 = 16;
/// The store has under three numbers, and so no room for one row: of a start that keeps a list, after its settings, and of a reset of such
/// a tuner.
pub const STORE_WITHOUT_ROOM: u32 = 17;
/// An interval is below -12 or over 12 semitones. A start alone is answered this, after 17.
pub const INTERVAL_OUT_OF_RANGE: u32 = 18;
/// More than three voices. A start alone is answered this, after 18.
pub const TOO_MANY_VOICES: u32 = 19;

/// A mode: the nearest note of the scale is wanted.
pub const SCALE_MODE: u32 = 0;
/// A mode: the key that is held on the keyboard is wanted.
pub const KEYBOARD_MODE: u32 = 1;

/// What the host may set.
#[repr(C)]
#[derive(Clone, Copy, Debug, PartialEq, Eq)]
pub struct Settings {
    /// 1 to 4095: a mask of 12 bits, bit = note number mod 12.
    pub scale: u32,
    /// 0 to 409, in 1/1024.
    pub eps: u32,
    /// 0 to 255, in 1/256: how much of the old rate is kept at a step; at 0 a note is at its goal at once.
    pub decay: u32,
    /// 1 to 1,000,000: a mean square.
    pub floor: u32,
    /// [`SCALE_MODE`] or [`KEYBOARD_MODE`].
    pub mode: u32,
    /// 0 to 15: the keyboard's.
    pub channel: u32,
}

impl Default for Settings {
    fn default() -> Settings {
        Settings {
            scale: 4095,
            eps: 100,
            decay: 230,
            floor: 100,
            mode: SCALE_MODE,
            channel: 0,
        }
    }
}

/// The answer to a block. The counts are those of a block that is taken or given again, else 0.
#[repr(C)]
#[derive(Clone, Copy, Debug, Default, PartialEq, Eq)]
pub struct Answer {
    pub number: u32,
    /// Samples written, in each output.
    pub written: u16,
    /// Cycles repeated by the lead.
    pub repeated: u16,
    /// Cycles dropped by it.
    pub dropped: u16,
    /// Samples with a period.
    pub pitched: u32,
    /// The sum over the samples of the rate's distance from 65536.
    pub strayed: u32,
    /// Rows of the list that is then kept.
    pub rows: u32,
    /// Rows left out of it.
    pub left: u32,
}

/// The answer to a night, a recording's blocks in one call.
#[repr(C)]
#[derive(Clone, Copy, Debug, Default, PartialEq, Eq)]
pub struct NightAnswer {
    /// 0, or the number that refused: 9, 3 or 4 before the first block, or a block's own 5, 6 or 7.
    pub number: u32,
    /// Of 5, 6 and 7, the number of the block that was refused; else 0.
    pub refused: u16,
    /// Blocks taken. What their answers count is added up below.
    pub taken: u64,
    /// Samples written, in each output.
    pub written: u64,
    /// Cycles repeated by the lead.
    pub repeated: u64,
    /// Cycles dropped by it.
    pub dropped: u64,
    /// Samples with a period.
    pub pitched: u64,
    /// The sum over the samples of the rate's distance from 65536.
    pub strayed: u64,
    /// The answer to a first block that was given again, which is not in the sums; else all 0.
    pub again: Answer,
    /// Rows of the list that is then kept.
    pub rows: u32,
    /// Rows left out of it.
    pub left: u32,
}

/// The outputs of the voices, in the order in which the start chose them. One beyond the chosen voices is neither tested nor touched, and
/// may be empty.
pub type Voices<'a> = [&'a mut [i16]; MOST_VOICES];

/// No output for a voice.
pub fn no_voices<'a>() -> Voices<'a> {
    [&mut [], &mut [], &mut []]
}

/// What the meter shows, in samples; the rate is a ratio.
#[derive(Clone, Copy, Debug, PartialEq)]
pub enum Meter {
    Searching,
    /// With the found lag.
    Locking(f32),
    Pitched {
        period: f32,
        /// 0 where no key is held, or one outside the table: notes 32 to 100 at 44,100, 33 to 102 at 48,000.
        wanted: f32,
        rate: f32,
    },
    /// The tuner is out of range.
    Refused,
}

/// A tuner, its list and its voices, as numbers alone: any bytes are one, and one that is not good is answered 9. So is one that a version of
/// the calls with another layout left.
#[repr(C)]
#[derive(Clone, PartialEq, Eq)]
pub struct Tuner {
    words: [u64; Tuner::SIZE / 8],
}

/// The calls of the archive. A tuner is `struct daxfolin_tuner` of `host/daxfolin.h`.
mod archive {
    use super::{Answer, NightAnswer, Settings, Tuner};

    #[repr(C)]
    pub struct Shown {
        pub state: u32,
        pub lag: f32,
        pub period: f32,
        pub wanted: f32,
        pub rate: f32,
    }

    #[repr(C)]
    pub struct Stretch {
        pub from: usize,
        pub count: usize,
    }

    extern "C" {
        pub fn daxfolin_version() -> u32;
        pub fn daxfolin_start(
            tuner: *mut Tuner,
            hertz: u32,
            settings: Settings,
            listed: u32,
            intervals: *const i32,
            intervals_length: usize,
            store: *const u32,
            store_length: usize,
        ) -> u32;
        pub fn daxfolin_start_default(tuner: *mut Tuner) -> u32;
        pub fn daxfolin_change(tuner: *mut Tuner, settings: Settings) -> u32;
        pub fn daxfolin_midi(tuner: *mut Tuner, bytes: *const u8, length: usize) -> u32;
        pub fn daxfolin_reset(tuner: *mut Tuner, store: *const u32, store_length: usize) -> u32;
        pub fn daxfolin_block(
            tuner: *mut Tuner,
            number: u16,
            samples: *const i16,
            samples_length: usize,
            out: *mut i16,
            out_length: usize,
            first: *mut i16,
            first_length: usize,
            second: *mut i16,
            second_length: usize,
            third: *mut i16,
            third_length: usize,
            store: *mut u32,
            store_length: usize,
        ) -> Answer;
        pub fn daxfolin_night(
            tuner: *mut Tuner,
            number: u16,
            size: usize,
            samples: *const i16,
            samples_length: usize,
            out: *mut i16,
            out_length: usize,
            first: *mut i16,
            first_length: usize,
            second: *mut i16,
            second_length: usize,
            third: *mut i16,
            third_length: usize,
            store: *mut u32,
            store_length: usize,
        ) -> NightAnswer;
        pub fn daxfolin_meter(tuner: *const Tuner) -> Shown;
        pub fn daxfolin_cut(length: usize, k: usize) -> Stretch;
    }
}

const _: () = {
    assert!(size_of::<Tuner>() == 10_104 && align_of::<Tuner>() == 8);
    assert!(size_of::<Settings>() == 24);
    assert!(size_of::<Answer>() == 28 && offset_of!(Answer, pitched) == 12);
    assert!(size_of::<NightAnswer>() == 96 && offset_of!(NightAnswer, again) == 56);
    assert!(offset_of!(NightAnswer, rows) == 84);
    assert!(size_of::<archive::Shown>() == 20 && size_of::<archive::Stretch>() == 16);
};

/// The version of the archive that is linked.
pub fn version() -> u32 {
    // SAFETY: it takes nothing and reads nothing.
    unsafe { archive::daxfolin_version() }
}

/// The k-th stretch of 512 samples, counted from 0: the last may be shorter, and past the end it is empty.
pub fn cut(recording: &[i16], k: usize) -> &[i16] {
    // SAFETY: it takes two numbers.
    let stretch = unsafe { archive::daxfolin_cut(recording.len(), k) };
    &recording[stretch.from..][..stretch.count]
}

/// Nothing that is not of this version is called.
fn linked() {
    let right = version() == VERSION;
    assert!(right, "an archive of another version is linked");
}

impl Meter {
    fn of(shown: archive::Shown) -> Meter {
        match shown.state {
            0 => Meter::Searching,
            1 => Meter::Locking(shown.lag),
            2 => Meter::Pitched {
                period: shown.period,
                wanted: shown.wanted,
                rate: shown.rate,
            },
            _ => Meter::Refused,
        }
    }
}

/// Where a tuner of words has how far its read position lies behind the input; in the upper half of a word how many voices are chosen; in one
/// the rows of the list and those left out, and in the lower half of the next the place of the last run's row; and the first of the
/// voices, each a word with the interval in its lower half.
const BEHIND: usize = 27;
const CHOSEN: usize = 30;
const ROWS: usize = 31;
const PLACE: usize = 32;
const VOICES: usize = 33;

impl Tuner {
    /// The bytes of a tuner.
    pub const SIZE: usize = 10_104;

    fn blank() -> Tuner {
        Tuner::from_bytes(&[0; Tuner::SIZE])
    }

    /// A fresh tuner at this sample rate, [`CD`] or [`FILM`], with these settings, and 0; or the default tuner beside a refusal: 16, then 8 or
    /// 11 to 15, then 17, 18, 19. With `list` it keeps a list of the notes sung, and with each of the intervals, up to three of -12 to 12
    /// semitones from the wanted note, it has a voice beside the lead; both stay until the next start. The store, which is not written, must
    /// have room for a row where a list is kept, and else may be empty.
    ///
    /// ```no_run
    /// use daxfolin::{Settings, Tuner, CD, MOST_ROWS, ROW, TAKEN};
    /// let mut store = [0u32; ROW * MOST_ROWS];
    /// let (number, mut tuner) = Tuner::start(CD, Settings::default(), true, &[4, -3], &store);
    /// assert_eq!(number, TAKEN);
    /// let sung = [0i16; 1000];
    /// let [mut tuned, mut above, mut below] = [[0i16; 1000]; 3];
    /// let voices = [&mut above[..], &mut below, &mut []];
    /// let answer = tuner.night_with(0, 512, &sung, &mut tuned, voices, &mut store);
    /// for row in store.chunks_exact(ROW).take(answer.rows as usize) {
    ///     println!("note {} from sample {} on, {} samples", row[0], row[1], row[2]);
    /// }
    /// ```
    pub fn start(
        hertz: u32,
        settings: Settings,
        list: bool,
        intervals: &[i32],
        store: &[u32],
    ) -> (u32, Tuner) {
        let mut tuner = Tuner::blank();
        // SAFETY: the tuner and the slices are references', so that they don't overlap, and the lengths are the slices' own.
        let number = unsafe {
            archive::daxfolin_start(
                &mut tuner,
                hertz,
                settings,
                list.into(),
                intervals.as_ptr(),
                intervals.len(),
                store.as_ptr(),
                store.len(),
            )
        };
        (number, tuner)
    }

    /// [`Tuner::start`] without a list and without voices.
    pub fn start_plain(hertz: u32, settings: Settings) -> (u32, Tuner) {
        Tuner::start(hertz, settings, false, &[], &[])
    }

    /// The default tuner, with the default settings at 44,100, without a list and without voices, and 0.
    pub fn start_default() -> (u32, Tuner) {
        let mut tuner = Tuner::blank();
        // SAFETY: the tuner is a reference's.
        let number = unsafe { archive::daxfolin_start_default(&mut tuner) };
        (number, tuner)
    }

    /// New settings, which count from the next sample; another channel than the one in force forgets the key, the running status and any
    /// half message. 0, or a refusal: 9, then 8 or 11 to 15.
    pub fn change(&mut self, settings: Settings) -> u32 {
        // SAFETY: the tuner is a reference's, and may hold any bytes.
        unsafe { archive::daxfolin_change(self, settings) }
    }

    /// Bytes of a keyboard, MIDI 1.0, between blocks: any bytes, cut anywhere, and in both modes. The key that they leave counts from
    /// the next tracking step. 0, of no bytes too; or 9.
    pub fn midi(&mut self, bytes: &[u8]) -> u32 {
        // SAFETY: the tuner and the slice are references', so that they don't overlap, and the length is the slice's own.
        unsafe { archive::daxfolin_midi(self, bytes.as_ptr(), bytes.len()) }
    }

    /// Sample rate, settings, whether a list is kept, and the voices stay, each voice level with the input; everything else is fresh. The
    /// store is as for a start. 0, or a refusal: 9, then 17.
    pub fn reset(&mut self, store: &[u32]) -> u32 {
        // SAFETY: the tuner and the slice are references', so that they don't overlap, and the length is the slice's own.
        unsafe { archive::daxfolin_reset(self, store.as_ptr(), store.len()) }
    }

    /// [`Tuner::block_with`] for a tuner without voices and without a list. With voices it is answered 4; with a list its new rows are left
    /// out.
    pub fn block(&mut self, number: u16, samples: &[i16], out: &mut [i16]) -> Answer {
        self.block_with(number, samples, out, no_voices(), &mut [])
    }

    /// Block `number` of the take: 1 to 512 samples in, as many to `out` and to the output of each chosen voice; samples past them are never
    /// touched. A refusal is 9, 2, 3, 4, then 5 or 6 (or the repeat, 1), then 7.
    ///
    /// A voice reads the take by its own read position, at the rate that makes the tracked period its note's, without smoothing and without
    /// the lead's limits. Where there is no period or no wanted note, or where the voice's own note is outside the table, it writes 0, and
    /// is put level with the input.
    ///
    /// Of a block that is taken the list of a tuner that keeps one goes on in the store: rows of three numbers, note (0 to 127), first sample
    /// of the take (from 0) and length, one for each longest run of samples with the same wanted note. A run that begins where the store
    /// then lent has no place for its row is left out, and counted. The store is written, never read, and past the rows nothing of it is
    /// touched: lent each time as it was left, it holds the list of the whole take.
    pub fn block_with(
        &mut self,
        number: u16,
        samples: &[i16],
        out: &mut [i16],
        [first, second, third]: Voices,
        store: &mut [u32],
    ) -> Answer {
        // SAFETY: the tuner and the slices are references', so that they don't overlap, and the lengths are the slices' own.
        unsafe {
            archive::daxfolin_block(
                self,
                number,
                samples.as_ptr(),
                samples.len(),
                out.as_mut_ptr(),
                out.len(),
                first.as_mut_ptr(),
                first.len(),
                second.as_mut_ptr(),
                second.len(),
                third.as_mut_ptr(),
                third.len(),
                store.as_mut_ptr(),
                store.len(),
            )
        }
    }

    /// [`Tuner::night_with`] for a tuner without voices and without a list, as [`Tuner::block`] is.
    ///
    /// ```no_run
    /// let mut tuner = daxfolin::Tuner::default();
    /// let sung = [0i16; 1000];
    /// let mut tuned = [0i16; 1000];
    /// let answer = tuner.night(0, daxfolin::LONGEST_BLOCK, &sung, &mut tuned);
    /// assert_eq!((answer.number, answer.taken), (daxfolin::TAKEN, 2));
    /// ```
    pub fn night(
        &mut self,
        first: u16,
        size: usize,
        samples: &[i16],
        out: &mut [i16],
    ) -> NightAnswer {
        self.night_with(first, size, samples, out, no_voices(), &mut [])
    }

    /// A night's blocks in one call: the recording in blocks of `size` samples, 1 to 512, the last of them maybe shorter, from block
    /// `first` of the take on. Tuner, outputs, store and sums are those of [`Tuner::block_with`] called for one block after the other, with
    /// what is left of the outputs. A first block that is the last one again is given again, and the rest go on; an empty recording takes no
    /// block. A refusal is 9, then 3 for a size of 0 or over 512, then 4; or at the first block that is refused its 5, 6 or 7, and there it
    /// stops: what was taken stays.
    pub fn night_with(
        &mut self,
        first: u16,
        size: usize,
        samples: &[i16],
        out: &mut [i16],
        [one, two, three]: Voices,
        store: &mut [u32],
    ) -> NightAnswer {
        // SAFETY: the tuner and the slices are references', so that they don't overlap, and the lengths are the slices' own.
        unsafe {
            archive::daxfolin_night(
                self,
                first,
                size,
                samples.as_ptr(),
                samples.len(),
                out.as_mut_ptr(),
                out.len(),
                one.as_mut_ptr(),
                one.len(),
                two.as_mut_ptr(),
                two.len(),
                three.as_mut_ptr(),
                three.len(),
                store.as_mut_ptr(),
                store.len(),
            )
        }
    }

    pub fn meter(&self) -> Meter {
        // SAFETY: the tuner is a reference's, and may hold any bytes.
        Meter::of(unsafe { archive::daxfolin_meter(self) })
    }

    /// How far the lead's read position lies behind the input, in 1/65536 sample, up to 1,000 samples; the output lies 4 samples more
    /// behind. Of a tuner that is answered 9, any number.
    pub fn behind(&self) -> u64 {
        self.words[BEHIND]
    }

    /// The intervals of the chosen voices, in their order; of a tuner that is answered 9, any numbers, three at most.
    pub fn intervals(&self) -> Vec<i32> {
        let chosen = (self.words[CHOSEN] >> 32).min(MOST_VOICES as u64) as usize;
        let voices = self.words[VOICES..][..chosen].iter();
        voices
            .map(|&voice| (voice as i32).wrapping_sub(OCTAVE))
            .collect()
    }

    /// The rows of the list so far, and those left out, as the last block's answer has them; after a start and a reset none.
    pub fn rows(&self) -> (u32, u32) {
        (self.words[ROWS] as u32, (self.words[ROWS] >> 32) as u32)
    }

    /// For a host that moves whole rows out of its store, so that it is never full, and lays the last one, which may go on, in the first
    /// place: the list goes on there, as one of a single row, which is a list like any other to the calls. Without a row nothing is done.
    pub fn keep_last_row(&mut self) {
        let (rows, left) = self.rows();
        if rows > 0 {
            self.words[ROWS] = u64::from(left) << 32 | 1;
            self.words[PLACE] &= !u64::from(u32::MAX);
        }
    }

    /// The number of the tuner's layout: where it is not [`LAYOUT`], a version with another layout left the tuner (or it is damaged), and
    /// every call but a start answers 9.
    pub fn layout(&self) -> u64 {
        self.words[0]
    }

    /// The tuner as bytes, to be stored or sent: low byte first, the same on every machine.
    pub fn to_bytes(&self) -> [u8; Tuner::SIZE] {
        let mut bytes = [0; Tuner::SIZE];
        for (part, word) in bytes.chunks_exact_mut(8).zip(self.words) {
            part.copy_from_slice(&word.to_le_bytes());
        }
        bytes
    }

    /// The tuner with these bytes, whatever they are.
    pub fn from_bytes(bytes: &[u8; Tuner::SIZE]) -> Tuner {
        linked();
        let mut words = [0; Tuner::SIZE / 8];
        for (word, part) in words.iter_mut().zip(bytes.chunks_exact(8)) {
            *word = u64::from_le_bytes(part.try_into().expect("eight bytes"));
        }
        Tuner { words }
    }
}

/// The default tuner.
impl Default for Tuner {
    fn default() -> Tuner {
        let (number, tuner) = Tuner::start_default();
        assert_eq!(number, TAKEN, "the default start is taken");
        tuner
    }
}

impl fmt::Debug for Tuner {
    fn fmt(&self, to: &mut fmt::Formatter) -> fmt::Result {
        to.debug_struct("Tuner").finish_non_exhaustive()
    }
}
