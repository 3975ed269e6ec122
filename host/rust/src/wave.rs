//! Takes as RIFF WAVE files: every number and every byte by the proved calls.
//!
//! Whole files in memory are read, written and mended by one call each. A file
//! of any length is sought piece by piece: a [`Seek`] says which bytes it
//! wants, until it wants no more.
//!
//! ```no_run
//! use daxfolin::wave::{Seek, Take};
//!
//! fn take_in(file: &[u8]) -> Result<Take, u32> {
//!     let mut seek = Seek::take(file.len() as u64);
//!     while let Some((place, count)) = seek.wanted() {
//!         seek.give(&file[place as usize..][..count]);
//!     }
//!     seek.found()
//! }
//! ```

/// The version of the calls for files, those of [`crate::smf`] among them.
pub const VERSION: u32 = 1;

/// Not a RIFF WAVE file. A refusal, any of these, leaves every output as it was.
pub const NOT_RIFF_WAVE: u32 = 20;
/// No fmt before the data or the end.
pub const NO_FMT: u32 = 21;
/// Under 16 bytes of fmt, a field of it wrong, or an odd data size.
pub const FMT_WRONG: u32 = 22;
/// No data chunk.
pub const NO_DATA: u32 = 23;
/// A chunk runs past the RIFF chunk, or that past the file.
pub const RUNS_PAST: u32 = 24;
/// The output has not room for all samples, or all bytes.
pub const NO_ROOM: u32 = 25;
/// Mending: no fmt that reading takes before the data or the end.
pub const NO_GOOD_FMT: u32 = 26;
/// Mending: no data chunk is reached.
pub const NO_DATA_REACHED: u32 = 27;
/// Mending: a file of 2,147,483,648 bytes or more.
pub const FILE_TOO_LONG: u32 = 29;

/// The take in a file: its sample rate, the place of its first sample's first byte, and how many samples.
#[derive(Clone, Copy, Debug, PartialEq, Eq)]
pub struct Take {
    pub hertz: u32,
    pub at: u64,
    pub count: u64,
}

/// A size of a WAVE file: its place, what it is, what it becomes (equal where it stays).
#[repr(C)]
#[derive(Clone, Copy, Debug, PartialEq, Eq)]
pub struct Size {
    pub at: u64,
    pub old: u32,
    pub new: u32,
}

/// What was read: how many samples, and their rate.
#[derive(Clone, Copy, Debug, PartialEq, Eq)]
pub struct Read {
    pub count: usize,
    pub hertz: u32,
}

/// A seek in a file, as numbers alone (`struct daxfolin_seek` of `host/daxfolin_wave.h`).
#[repr(C)]
#[derive(Clone, Copy, Debug, PartialEq, Eq)]
pub struct Seek {
    length: u64,
    mends: u32,
    number: u32,
    riff: u32,
    hertz: u32,
    fmt: Place,
    data: Place,
    past: u64,
    wanted: Piece,
}

#[repr(C)]
#[derive(Clone, Copy, Debug, PartialEq, Eq)]
struct Place {
    at: u64,
    size: u32,
    found: u32,
}

#[repr(C)]
#[derive(Clone, Copy, Debug, PartialEq, Eq)]
struct Piece {
    at: u64,
    count: usize,
}

/// The calls of the archive (`host/daxfolin_wave.h`).
mod archive {
    use super::{Piece, Seek, Size};

    #[repr(C)]
    pub struct WaveRead {
        pub number: u32,
        pub hertz: u32,
        pub count: usize,
    }

    #[repr(C)]
    pub struct WaveTake {
        pub number: u32,
        pub hertz: u32,
        pub at: u64,
        pub count: u64,
    }

    #[repr(C)]
    pub struct WaveWritten {
        pub number: u32,
        pub length: usize,
    }

    #[repr(C)]
    pub struct Mending {
        pub number: u32,
        pub riff: Size,
        pub data: Size,
    }

    extern "C" {
        pub fn daxfolin_files_version() -> u32;
        pub fn daxfolin_wave_read(
            bytes: *const u8,
            length: usize,
            out: *mut i16,
            room: usize,
        ) -> WaveRead;
        pub fn daxfolin_wave_write(
            hertz: u32,
            samples: *const i16,
            count: usize,
            out: *mut u8,
            room: usize,
        ) -> WaveWritten;
        pub fn daxfolin_wave_mend(bytes: *const u8, length: usize) -> Mending;
        pub fn daxfolin_wave_header(
            hertz: u32,
            samples: u64,
            out: *mut u8,
            room: usize,
        ) -> WaveWritten;
        pub fn daxfolin_wave_samples(
            bytes: *const u8,
            length: usize,
            out: *mut i16,
            room: usize,
        ) -> usize;
        pub fn daxfolin_wave_bytes(
            samples: *const i16,
            count: usize,
            out: *mut u8,
            room: usize,
        ) -> usize;
        pub fn daxfolin_seek_take(length: u64) -> Seek;
        pub fn daxfolin_seek_mending(length: u64) -> Seek;
        pub fn daxfolin_seek_wanted(seek: Seek) -> Piece;
        pub fn daxfolin_seek_give(seek: Seek, bytes: *const u8, length: usize) -> Seek;
        pub fn daxfolin_seek_found(seek: Seek) -> WaveTake;
        pub fn daxfolin_seek_mended(seek: Seek) -> Mending;
    }
}

const _: () = {
    assert!(size_of::<Seek>() == 80 && size_of::<Piece>() == 16 && size_of::<Place>() == 16);
    assert!(size_of::<archive::WaveRead>() == 16 && size_of::<archive::WaveTake>() == 24);
    assert!(size_of::<archive::WaveWritten>() == 16 && size_of::<archive::Mending>() == 40);
};

/// The version of the archive that is linked.
pub fn version() -> u32 {
    // SAFETY: it takes nothing and reads nothing.
    unsafe { archive::daxfolin_files_version() }
}

/// Nothing that is not of this version is called.
pub(crate) fn linked() {
    let right = version() == VERSION;
    assert!(right, "an archive of another version is linked");
}

/// A number that refuses, or what came of it.
fn unless<T>(number: u32, answer: T) -> Result<T, u32> {
    if number == 0 {
        Ok(answer)
    } else {
        Err(number)
    }
}

/// Reads the take of a file, its samples to the front of the output; or 20 to 25, and the output is as it was.
pub fn read(file: &[u8], out: &mut [i16]) -> Result<Read, u32> {
    linked();
    // SAFETY: the slices are references', so that they don't overlap, and the lengths are their own.
    let r = unsafe {
        archive::daxfolin_wave_read(file.as_ptr(), file.len(), out.as_mut_ptr(), out.len())
    };
    unless(
        r.number,
        Read {
            count: r.count,
            hertz: r.hertz,
        },
    )
}

/// Writes a take in the canonical form, a header of 44 bytes and the samples, to the front of the output, and says how many bytes; or 16
/// for an unknown rate, 7 for over 1,000,000,000 samples, 25, and the output is as it was.
pub fn write(hertz: u32, samples: &[i16], out: &mut [u8]) -> Result<usize, u32> {
    linked();
    // SAFETY: the slices are references', so that they don't overlap, and the lengths are their own.
    let w = unsafe {
        archive::daxfolin_wave_write(
            hertz,
            samples.as_ptr(),
            samples.len(),
            out.as_mut_ptr(),
            out.len(),
        )
    };
    unless(w.number, w.length)
}

/// What is mended in a file that a recorder left: the RIFF size and the data size; or 20, 29, 26, 27.
pub fn mend(file: &[u8]) -> Result<(Size, Size), u32> {
    linked();
    // SAFETY: the slice is a reference's, and the length is its own.
    let m = unsafe { archive::daxfolin_wave_mend(file.as_ptr(), file.len()) };
    unless(m.number, (m.riff, m.data))
}

/// The canonical form's 44 bytes before so many samples; or 16 for an unknown rate, 7 for over 1,000,000,000 samples.
pub fn header(hertz: u32, samples: u64) -> Result<[u8; 44], u32> {
    linked();
    let mut out = [0; 44];
    // SAFETY: the output is an array, and the length is its own.
    let w = unsafe { archive::daxfolin_wave_header(hertz, samples, out.as_mut_ptr(), out.len()) };
    unless(w.number, out)
}

/// Bytes of a file as samples, as many as both have room for; says how many.
pub fn samples(bytes: &[u8], out: &mut [i16]) -> usize {
    linked();
    // SAFETY: the slices are references', so that they don't overlap, and the lengths are their own.
    unsafe {
        archive::daxfolin_wave_samples(bytes.as_ptr(), bytes.len(), out.as_mut_ptr(), out.len())
    }
}

/// Samples as bytes of a file, as many as both have room for; says how many samples.
pub fn bytes(samples: &[i16], out: &mut [u8]) -> usize {
    linked();
    // SAFETY: the slices are references', so that they don't overlap, and the lengths are their own.
    unsafe {
        archive::daxfolin_wave_bytes(samples.as_ptr(), samples.len(), out.as_mut_ptr(), out.len())
    }
}

impl Seek {
    /// For the take in a file of so many bytes, as [`read`] finds it.
    pub fn take(length: u64) -> Seek {
        linked();
        // SAFETY: it takes a number.
        unsafe { archive::daxfolin_seek_take(length) }
    }

    /// For what is mended in a file of so many bytes, as [`mend`] finds it.
    pub fn mending(length: u64) -> Seek {
        linked();
        // SAFETY: it takes a number.
        unsafe { archive::daxfolin_seek_mending(length) }
    }

    /// The place and the number of the bytes that it wants, 12, 8 or 16, all inside the file; or none, and it is at its end. It is so after
    /// at most an eighth as many pieces as the file has bytes, and one.
    pub fn wanted(&self) -> Option<(u64, usize)> {
        // SAFETY: it takes numbers.
        let piece = unsafe { archive::daxfolin_seek_wanted(*self) };
        (piece.count != 0).then_some((piece.at, piece.count))
    }

    /// Gives it the bytes that it wants. Where they are not as many, nothing changes.
    pub fn give(&mut self, bytes: &[u8]) {
        // SAFETY: the slice is a reference's, and the length is its own.
        *self = unsafe { archive::daxfolin_seek_give(*self, bytes.as_ptr(), bytes.len()) };
    }

    /// The take that was found, or 20 to 24, once it wants no more. Before, what would be found if the file had nothing more to say.
    pub fn found(&self) -> Result<Take, u32> {
        // SAFETY: it takes numbers.
        let t = unsafe { archive::daxfolin_seek_found(*self) };
        unless(
            t.number,
            Take {
                hertz: t.hertz,
                at: t.at,
                count: t.count,
            },
        )
    }

    /// What is mended, the RIFF size and the data size, or 20, 29, 26, 27, once it wants no more. Before, what would be if the file had
    /// nothing more to say.
    pub fn found_mending(&self) -> Result<(Size, Size), u32> {
        // SAFETY: it takes numbers.
        let m = unsafe { archive::daxfolin_seek_mended(*self) };
        unless(m.number, (m.riff, m.data))
    }
}
