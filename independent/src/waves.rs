//! Calls over WAVE files as bytes and their answers as lines, so that any two
//! programs can be held to one another.
//!
//! A case is one byte that says what it is and then its fields, every number low
//! byte first:
//!
//! | byte | call | fields |
//! |---|---|---|
//! | r | read a file | room in samples, u32; n, u32; n bytes |
//! | w | write a take | sample rate, u32; room in bytes, u32; n, u32; n samples |
//! | m | mend a file | n, u32; n bytes |
//! | s | seek the take of a file piece by piece | n, u32; n bytes |
//! | t | seek what is to be mended piece by piece | n, u32; n bytes |
//! | h | the header alone | sample rate, u32; samples, u64 |
//!
//! The answer to a case is a line of fields parted by tabs. It begins with the
//! letter and the number, 0 or the refusal; every number behind a refusal is 0.
//!
//! | letter | fields behind the number |
//! |---|---|
//! | r | rate, count, then each sample of the output, untouched ones -21931 |
//! | w | length, then the bytes of the output, untouched ones a5 |
//! | m | two sizes; the mended file; number and sizes of mending that once more; number, rate and count of reading it |
//! | s | rate, place of the first sample's first byte, count |
//! | t | two sizes |
//! | h | the header's bytes, or nothing |
//!
//! A size is place, old and new value, RIFF's before the data's, also where it
//! stays. Bytes are two letters each, low ones, with nothing between them.

use crate::mend::{mended, sizes, Size};
use crate::wave::{self, Take, HEADER};
use std::io::{self, BufRead, Read, Write};

/// Every sample of an output before a file is read, and every byte of one before
/// a file is written.
const NO_SAMPLE: i16 = -21_931;
const NO_BYTE: u8 = 0xA5;

/// The calls of a program. A refusal is its number.
pub trait Waves {
    /// The sample rate, and how many samples.
    fn read(&self, file: &[u8], out: &mut [i16]) -> Result<(u32, usize), u32>;
    /// How many bytes.
    fn write(&self, hertz: u32, samples: &[i16], out: &mut [u8]) -> Result<usize, u32>;
    fn mend(&self, file: &[u8]) -> Result<[Size; 2], u32>;
    fn seek_take(&self, file: &[u8]) -> Result<Take, u32>;
    fn seek_mending(&self, file: &[u8]) -> Result<[Size; 2], u32>;
    fn header(&self, hertz: u32, samples: u64) -> Result<[u8; HEADER], u32>;
}

/// This program's own calls. It has every file whole: to seek is to look.
pub struct Independent;

impl Waves for Independent {
    fn read(&self, file: &[u8], out: &mut [i16]) -> Result<(u32, usize), u32> {
        let (hertz, samples) = wave::read(file, out.len())?;
        out[..samples.len()].copy_from_slice(&samples);
        Ok((hertz, samples.len()))
    }

    fn write(&self, hertz: u32, samples: &[i16], out: &mut [u8]) -> Result<usize, u32> {
        let bytes = wave::write(hertz, samples, out.len())?;
        out[..bytes.len()].copy_from_slice(&bytes);
        Ok(bytes.len())
    }

    fn mend(&self, file: &[u8]) -> Result<[Size; 2], u32> {
        sizes(file)
    }

    fn seek_take(&self, file: &[u8]) -> Result<Take, u32> {
        wave::take(file)
    }

    fn seek_mending(&self, file: &[u8]) -> Result<[Size; 2], u32> {
        sizes(file)
    }

    fn header(&self, hertz: u32, samples: u64) -> Result<[u8; HEADER], u32> {
        wave::header(hertz, samples)
    }
}

#[derive(Clone, Debug, PartialEq, Eq)]
pub enum Case {
    Read {
        room: u32,
        file: Vec<u8>,
    },
    Write {
        hertz: u32,
        room: u32,
        samples: Vec<i16>,
    },
    Mend(Vec<u8>),
    SeekTake(Vec<u8>),
    SeekMending(Vec<u8>),
    Header {
        hertz: u32,
        samples: u64,
    },
}

impl Case {
    /// The next case; none at the input's end.
    pub fn read(from: &mut impl BufRead) -> io::Result<Option<Case>> {
        if from.fill_buf()?.is_empty() {
            return Ok(None);
        }
        let [what] = array(from)?;
        let case = match what {
            b'r' => Case::Read {
                room: number(from)?,
                file: bytes(from, 1)?,
            },
            b'w' => Case::Write {
                hertz: number(from)?,
                room: number(from)?,
                samples: samples(&bytes(from, 2)?),
            },
            b'm' => Case::Mend(bytes(from, 1)?),
            b's' => Case::SeekTake(bytes(from, 1)?),
            b't' => Case::SeekMending(bytes(from, 1)?),
            b'h' => Case::Header {
                hertz: number(from)?,
                samples: u64::from_le_bytes(array(from)?),
            },
            _ => return Err(io::Error::other(format!("there is no case {what}"))),
        };
        Ok(Some(case))
    }

    pub fn bytes(&self) -> Vec<u8> {
        let whole = |what: u8, file: &[u8]| {
            let length = (file.len() as u32).to_le_bytes();
            [&[what], &length[..], file].concat()
        };
        match self {
            Case::Read { room, file } => {
                let file = whole(b'r', file);
                [&file[..1], &room.to_le_bytes(), &file[1..]].concat()
            }
            Case::Write {
                hertz,
                room,
                samples,
            } => {
                let numbers = [*hertz, *room, samples.len() as u32];
                let numbers = numbers.into_iter().flat_map(u32::to_le_bytes);
                let samples = samples.iter().flat_map(|sample| sample.to_le_bytes());
                [b'w'].into_iter().chain(numbers).chain(samples).collect()
            }
            Case::Mend(file) => whole(b'm', file),
            Case::SeekTake(file) => whole(b's', file),
            Case::SeekMending(file) => whole(b't', file),
            Case::Header { hertz, samples } => {
                [&b"h"[..], &hertz.to_le_bytes(), &samples.to_le_bytes()].concat()
            }
        }
    }

    /// The line that a program answers, without its end.
    pub fn answer(&self, by: &impl Waves) -> String {
        match self {
            Case::Read { room, file } => {
                let mut out = vec![NO_SAMPLE; *room as usize];
                let read = by.read(file, &mut out);
                let samples: String = out.iter().map(|sample| format!("\t{sample}")).collect();
                format!("r\t{}{samples}", reading(read))
            }
            Case::Write {
                hertz,
                room,
                samples,
            } => {
                let mut out = vec![NO_BYTE; *room as usize];
                let (number, length) = parted(by.write(*hertz, samples, &mut out), 0);
                format!("w\t{number}\t{length}\t{}", hex(&out))
            }
            Case::Mend(file) => {
                let first = by.mend(file);
                let file = mended(file, first.as_ref().map_or(&[], |sizes| sizes));
                let again = mending(by.mend(&file));
                let read = reading(by.read(&file, &mut vec![NO_SAMPLE; file.len()]));
                format!("m\t{}\t{}\t{again}\t{read}", mending(first), hex(&file))
            }
            Case::SeekTake(file) => {
                let none = Take {
                    hertz: 0,
                    at: 0,
                    count: 0,
                };
                let (number, Take { hertz, at, count }) = parted(by.seek_take(file), none);
                format!("s\t{number}\t{hertz}\t{at}\t{count}")
            }
            Case::SeekMending(file) => format!("t\t{}", mending(by.seek_mending(file))),
            Case::Header { hertz, samples } => {
                let header = by.header(*hertz, *samples);
                let bytes = header.map_or(String::new(), |header| hex(&header));
                format!("h\t{}\t{bytes}", parted(header, [0; HEADER]).0)
            }
        }
    }
}

/// Answers cases until the input ends.
pub fn answer_all(by: &impl Waves, from: &mut impl BufRead, to: &mut impl Write) -> io::Result<()> {
    while let Some(case) = Case::read(from)? {
        writeln!(to, "{}", case.answer(by))?;
    }
    to.flush()
}

/// The number of an answer, and what it has; behind a refusal, what is there in
/// its place.
fn parted<T>(answer: Result<T, u32>, refused: T) -> (u32, T) {
    match answer {
        Ok(found) => (0, found),
        Err(refusal) => (refusal, refused),
    }
}

fn reading(read: Result<(u32, usize), u32>) -> String {
    let (number, (hertz, count)) = parted(read, (0, 0));
    format!("{number}\t{hertz}\t{count}")
}

fn mending(sizes: Result<[Size; 2], u32>) -> String {
    let none = Size {
        place: 0,
        old: 0,
        new: 0,
    };
    let (number, sizes) = parted(sizes, [none; 2]);
    let sizes = sizes.map(|Size { place, old, new }| format!("\t{place}\t{old}\t{new}"));
    format!("{number}{}", sizes.concat())
}

/// Bytes in two letters each.
pub fn hex(bytes: &[u8]) -> String {
    bytes.iter().map(|byte| format!("{byte:02x}")).collect()
}

pub fn array<const N: usize>(from: &mut impl Read) -> io::Result<[u8; N]> {
    let mut array = [0; N];
    from.read_exact(&mut array)?;
    Ok(array)
}

pub fn number(from: &mut impl Read) -> io::Result<u32> {
    Ok(u32::from_le_bytes(array(from)?))
}

/// So many bytes as a number before them says, each thing having several.
pub fn bytes(from: &mut impl Read, each: usize) -> io::Result<Vec<u8>> {
    let mut bytes = vec![0; each * number(from)? as usize];
    from.read_exact(&mut bytes)?;
    Ok(bytes)
}

fn samples(bytes: &[u8]) -> Vec<i16> {
    let pairs = bytes.chunks_exact(2);
    pairs
        .map(|pair| i16::from_le_bytes([pair[0], pair[1]]))
        .collect()
}
