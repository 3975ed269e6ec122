//! Mending a WAVE file that a recorder left when it stopped: the RIFF size and
//! the data size, and nothing else.

use crate::wave::{first_data, fmt_before_data, is_riff_wave, rate_of, riff_end, word};

/// A file of so many bytes is too long to be mended.
pub const TOO_LONG: u64 = 2_147_483_648;
/// The place of the RIFF size.
pub const RIFF_SIZE: usize = 4;

/// A size of a file: its place, what it is, and what it is mended to.
#[derive(Clone, Copy, Debug, PartialEq, Eq)]
pub struct Size {
    pub place: u64,
    pub old: u32,
    pub new: u32,
}

impl Size {
    pub fn changes(&self) -> bool {
        self.old != self.new
    }
}

/// The RIFF size and the data size. Order: 20, 29, 26, 27.
pub fn sizes(file: &[u8]) -> Result<[Size; 2], u32> {
    let length = file.len() as u64;
    if !is_riff_wave(file) {
        return Err(20);
    }
    if length >= TOO_LONG {
        return Err(29);
    }
    let fmt = fmt_before_data(file, length);
    if fmt.and_then(|fmt| rate_of(file, &fmt, length)).is_none() {
        return Err(26);
    }
    let data = first_data(file, length).ok_or(27u32)?;

    let behind = length - data.body() as u64;
    let mended = match is_bad(data.size, data.end(), length) {
        true => (behind - behind % 2) as u32,
        false => data.size,
    };
    let mended_end = data.body() as u64 + u64::from(mended);

    let riff = word(file, RIFF_SIZE);
    let riff_end = riff_end(file);
    let whole = match is_bad(riff, riff_end, length) || riff_end < mended_end {
        true => (length - 8) as u32,
        false => riff,
    };
    let size = |place: usize, old, new| Size {
        place: place as u64,
        old,
        new,
    };
    Ok([
        size(RIFF_SIZE, riff, whole),
        size(data.at + 4, data.size, mended),
    ])
}

/// 0, 4294967295, or so large that the chunk runs past the end of the file.
fn is_bad(size: u32, chunk_end: u64, length: u64) -> bool {
    size == 0 || size == u32::MAX || chunk_end > length
}

/// The sizes that change, RIFF's first.
pub fn mend(file: &[u8]) -> Result<Vec<Size>, u32> {
    let sizes = sizes(file)?.into_iter();
    Ok(sizes.filter(Size::changes).collect())
}

/// The file with these sizes put in.
pub fn mended(file: &[u8], changes: &[Size]) -> Vec<u8> {
    let mut mended = file.to_vec();
    for change in changes {
        let at = change.place as usize;
        mended[at..at + 4].copy_from_slice(&change.new.to_le_bytes());
    }
    mended
}
