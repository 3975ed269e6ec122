//! What a file looks like to people: its chunks and the fields of its fmt. No
//! take is read by this; it only finds words for what the proved calls refuse
//! or leave out.

use std::fs::File;
use std::io;
use std::os::unix::fs::FileExt;

/// More chunks than a file for people has are not looked at.
const MOST: usize = 4096;
const HEADER: u64 = 8;
const OPENING: u64 = 12;

pub struct Chunk {
    pub name: [u8; 4],
    /// The place of its header.
    pub at: u64,
    pub size: u32,
}

impl Chunk {
    pub fn body(&self) -> u64 {
        self.at + HEADER
    }

    pub fn end(&self) -> u64 {
        self.body() + u64::from(self.size)
    }

    /// Its name, without blanks at its end.
    pub fn title(&self) -> String {
        let name = String::from_utf8_lossy(&self.name);
        name.trim_end().escape_debug().to_string()
    }
}

/// The chunks of a RIFF file as far as its RIFF chunk goes, or where that has no size its bytes.
pub fn all(file: &File, length: u64) -> io::Result<Vec<Chunk>> {
    let mut opening = [0; OPENING as usize];
    file.read_exact_at(&mut opening, 0)?;
    let end = match word(&opening, 4) {
        0 => length,
        size => (HEADER + u64::from(size)).min(length),
    };
    let (mut chunks, mut at) = (Vec::new(), OPENING);
    while at + HEADER <= end && chunks.len() < MOST {
        let mut header = [0; HEADER as usize];
        file.read_exact_at(&mut header, at)?;
        let chunk = Chunk {
            name: [header[0], header[1], header[2], header[3]],
            at,
            size: word(&header, 4),
        };
        at = chunk.end() + u64::from(chunk.size % 2);
        chunks.push(chunk);
    }
    Ok(chunks)
}

fn word(bytes: &[u8], at: usize) -> u32 {
    u32::from_le_bytes([bytes[at], bytes[at + 1], bytes[at + 2], bytes[at + 3]])
}

fn half(bytes: &[u8], at: usize) -> u16 {
    u16::from_le_bytes([bytes[at], bytes[at + 1]])
}

/// The fields of a fmt chunk.
pub struct Format {
    pub tag: u16,
    pub channels: u16,
    pub hertz: u32,
    pub bytes_a_second: u32,
    pub block: u16,
    pub bits: u16,
}

/// Those of the first fmt chunk; none where there is none, or not all of them are there.
pub fn format(file: &File, chunks: &[Chunk]) -> Option<Format> {
    let fmt = chunks.iter().find(|chunk| chunk.name == *b"fmt ")?;
    let mut bytes = [0; 16];
    file.read_exact_at(&mut bytes, fmt.body()).ok()?;
    (fmt.size >= 16).then(|| Format {
        tag: half(&bytes, 0),
        channels: half(&bytes, 2),
        hertz: word(&bytes, 4),
        bytes_a_second: word(&bytes, 8),
        block: half(&bytes, 12),
        bits: half(&bytes, 14),
    })
}

/// The chunks that a tuned take does not have, in a few words: each name once, with the time reference of a bext. None where all is kept.
pub fn left_out(file: &File, length: u64, hertz: u32) -> Option<String> {
    let mut names: Vec<String> = Vec::new();
    for chunk in all(file, length).ok()? {
        if [*b"fmt ", *b"data"].contains(&chunk.name) {
            continue;
        }
        let title = match chunk.name == *b"bext" {
            true => bext(file, &chunk, hertz),
            false => chunk.title(),
        };
        if !names.contains(&title) {
            names.push(title);
        }
    }
    (!names.is_empty()).then(|| names.join(", "))
}

/// A bext chunk's time reference: the take's first sample, counted from midnight (EBU Tech 3285).
fn bext(file: &File, chunk: &Chunk, hertz: u32) -> String {
    const AT: u64 = 256 + 32 + 32 + 10 + 8;
    let mut bytes = [0; 8];
    if u64::from(chunk.size) < AT + 8 || file.read_exact_at(&mut bytes, chunk.body() + AT).is_err()
    {
        return "bext".to_string();
    }
    let reference = u64::from_le_bytes(bytes);
    let seconds = reference / u64::from(hertz);
    let (hours, minutes, seconds) = (seconds / 3600, seconds / 60 % 60, seconds % 60);
    format!("bext (time reference {reference}, {hours:02}:{minutes:02}:{seconds:02})")
}
