//! WAVE files of document 02: PCM, one channel, 16 bits, at either sample rate.
//!
//! Each refusal is a predicate over the whole file, and the least number whose
//! predicate holds is the answer.

use crate::table::is_rate;
use crate::tuner::TAKE_LIMIT;

/// The bytes before the first chunk: RIFF, its size, WAVE.
const OPENING: usize = 12;
/// The bytes of a chunk's header: its name and its size.
pub const CHUNK_HEADER: usize = 8;
/// The bytes of fmt that are looked at.
const FMT: u64 = 16;
/// The bytes before the samples of a file that is written.
pub const HEADER: usize = 44;

/// The number of 4 bytes at this place, low byte first.
pub fn word(file: &[u8], at: usize) -> u32 {
    u32::from_le_bytes(file[at..at + 4].try_into().expect("four bytes"))
}

/// The number of 2 bytes at this place, low byte first.
fn half(file: &[u8], at: usize) -> u16 {
    u16::from_le_bytes([file[at], file[at + 1]])
}

/// A chunk that the walk comes to.
#[derive(Clone, Copy, Debug, PartialEq, Eq)]
pub struct Chunk {
    pub name: [u8; 4],
    pub size: u32,
    /// The place of its header's first byte.
    pub at: usize,
}

impl Chunk {
    /// The place of the first byte behind its header.
    pub fn body(&self) -> usize {
        self.at + CHUNK_HEADER
    }

    /// Where it says that it ends, a pad byte not counted.
    pub fn end(&self) -> u64 {
        self.body() as u64 + u64::from(self.size)
    }
}

/// Whether the file begins as a RIFF WAVE file, whatever its RIFF size.
pub fn is_riff_wave(file: &[u8]) -> bool {
    file.len() >= OPENING && file[..4] == *b"RIFF" && file[8..12] == *b"WAVE"
}

/// Where the RIFF chunk says that it ends.
pub fn riff_end(file: &[u8]) -> u64 {
    CHUNK_HEADER as u64 + u64::from(word(file, 4))
}

/// The chunks up to an end inside the file, one behind the other, odd ones with
/// their pad byte, until under 8 bytes are left.
pub fn chunks(file: &[u8], end: u64) -> impl Iterator<Item = Chunk> + '_ {
    let mut next = OPENING as u64;
    std::iter::from_fn(move || {
        if next + CHUNK_HEADER as u64 > end {
            return None;
        }
        let at = next as usize;
        let chunk = Chunk {
            name: file[at..at + 4].try_into().expect("four bytes"),
            size: word(file, at + 4),
            at,
        };
        next = chunk.end() + u64::from(chunk.size % 2);
        Some(chunk)
    })
}

/// The first fmt chunk up to an end, if it comes before the data.
pub fn fmt_before_data(file: &[u8], end: u64) -> Option<Chunk> {
    let first = chunks(file, end).find(|chunk| [*b"fmt ", *b"data"].contains(&chunk.name));
    first.filter(|chunk| chunk.name == *b"fmt ")
}

/// The first data chunk up to an end.
pub fn first_data(file: &[u8], end: u64) -> Option<Chunk> {
    chunks(file, end).find(|chunk| chunk.name == *b"data")
}

/// The sample rate of a fmt chunk of which 16 bytes lie before the end, and all
/// fields are right.
pub fn rate_of(file: &[u8], fmt: &Chunk, end: u64) -> Option<u32> {
    let at = fmt.body();
    if fmt.end().min(end) - (at as u64) < FMT {
        return None;
    }
    let (tag, channels) = (half(file, at), half(file, at + 2));
    let (hertz, bytes_a_second) = (word(file, at + 4), word(file, at + 8));
    let (block, bits) = (half(file, at + 12), half(file, at + 14));
    let right = (tag, channels, block, bits) == (1, 1, 2, 16)
        && is_rate(hertz)
        && bytes_a_second == 2 * hertz;
    right.then_some(hertz)
}

/// A file, and where its walk ends.
struct Walk<'a> {
    file: &'a [u8],
    /// The end of the RIFF chunk or of the file, whichever comes first.
    end: u64,
}

impl Walk<'_> {
    fn of(file: &[u8]) -> Walk<'_> {
        let end = match is_riff_wave(file) {
            true => riff_end(file).min(file.len() as u64),
            false => 0,
        };
        Walk { file, end }
    }

    fn fmt(&self) -> Option<Chunk> {
        fmt_before_data(self.file, self.end)
    }

    fn data(&self) -> Option<Chunk> {
        first_data(self.file, self.end)
    }

    fn hertz(&self) -> Option<u32> {
        let fmt = self.fmt()?;
        rate_of(self.file, &fmt, self.end)
    }

    /// Document 02's words on this refusal, whatever else applies.
    fn applies(&self, refusal: u32, room: usize) -> bool {
        let data = self.data();
        match refusal {
            // Not RIFF WAVE.
            20 => !is_riff_wave(self.file),
            // No fmt before the data or the end.
            21 => self.fmt().is_none(),
            // Under 16 bytes of fmt, a field of it wrong, or an odd data size.
            22 => self.hertz().is_none() || data.is_some_and(|data| data.size % 2 == 1),
            // No data chunk.
            23 => data.is_none(),
            // A chunk runs past the RIFF chunk, or that past the file.
            24 => {
                let riff_end = riff_end(self.file);
                let past = |chunk: Chunk| chunk.end() > riff_end;
                chunks(self.file, self.end).any(past) || riff_end > self.file.len() as u64
            }
            // Output too small.
            25 => data.is_some_and(|data| room < (data.size / 2) as usize),
            _ => false,
        }
    }
}

/// The samples of a file: their rate, the place of the first one's first byte, and
/// how many there are.
#[derive(Clone, Copy, Debug, PartialEq, Eq)]
pub struct Take {
    pub hertz: u32,
    pub at: u64,
    pub count: u64,
}

/// The take in a file, for which there is room for so many samples, or the
/// refusal.
fn take_with_room(file: &[u8], room: usize) -> Result<Take, u32> {
    let walk = Walk::of(file);
    if let Some(refusal) = (20..=25).find(|&refusal| walk.applies(refusal, room)) {
        return Err(refusal);
    }
    let data = walk.data().expect("23 does not apply");
    Ok(Take {
        hertz: walk.hertz().expect("22 does not apply"),
        at: data.body() as u64,
        count: u64::from(data.size / 2),
    })
}

/// The same with room for every take.
pub fn take(file: &[u8]) -> Result<Take, u32> {
    take_with_room(file, usize::MAX)
}

/// The sample rate and the samples of a file, for an output with such room.
pub fn read(file: &[u8], room: usize) -> Result<(u32, Vec<i16>), u32> {
    let Take { hertz, at, count } = take_with_room(file, room)?;
    let from = at as usize;
    let samples = file[from..from + 2 * count as usize].chunks_exact(2);
    let samples = samples.map(|pair| i16::from_le_bytes([pair[0], pair[1]]));
    Ok((hertz, samples.collect()))
}

/// The bytes before so many samples. Order: 16, 7.
pub fn header(hertz: u32, samples: u64) -> Result<[u8; HEADER], u32> {
    if !is_rate(hertz) {
        return Err(16);
    }
    if samples > TAKE_LIMIT as u64 {
        return Err(7);
    }
    let size = 2 * samples as u32;
    let parts: [&[u8]; 13] = [
        b"RIFF",
        &(36 + size).to_le_bytes(),
        b"WAVE",
        b"fmt ",
        &16u32.to_le_bytes(),
        &1u16.to_le_bytes(),
        &1u16.to_le_bytes(),
        &hertz.to_le_bytes(),
        &(2 * hertz).to_le_bytes(),
        &2u16.to_le_bytes(),
        &16u16.to_le_bytes(),
        b"data",
        &size.to_le_bytes(),
    ];
    Ok(parts.concat().try_into().expect("44 bytes"))
}

/// The file of a take, for an output with room for so many bytes. Order: 16, 7,
/// 25.
pub fn write(hertz: u32, samples: &[i16], room: usize) -> Result<Vec<u8>, u32> {
    let header = header(hertz, samples.len() as u64)?;
    if room < HEADER + 2 * samples.len() {
        return Err(25);
    }
    let bytes = samples.iter().flat_map(|sample| sample.to_le_bytes());
    Ok(header.into_iter().chain(bytes).collect())
}
