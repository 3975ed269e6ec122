//! A list of notes as a Standard MIDI File in which a tick is a sample.
//!
//! Format 0, 120 quarter notes a minute, and half as many ticks a quarter note as
//! the take has samples a second: 22,050 or 24,000. So a tick is 500,000
//! microseconds / 22,050, exactly 1 / 44,100 of a second, and likewise at 48,000.
//! Of all pairs of tempo and division with that property this one has the tempo
//! that every player takes where a file says none.

use crate::rows::Row;

/// Microseconds a quarter note.
const TEMPO: [u8; 3] = [0x07, 0xA1, 0x20];
/// The most ticks of a delta time: four bytes, seven bits each.
const LONGEST: u64 = (1 << 28) - 1;
const VELOCITY: u8 = 100;

/// The file of rows in their order, which do not overlap, of a take of so many samples at so many a second. It ends with the take.
pub fn score(rows: &[Row], samples: u64, hertz: u32) -> Vec<u8> {
    let mut track = Track::default();
    track.event(0, &[&[0xFF, 0x51, 3], &TEMPO[..]].concat());
    for row in rows {
        track.event(row.first, &[0x90, row.note, VELOCITY]);
        track.event(row.end(), &[0x80, row.note, 64]);
    }
    track.event(samples.max(track.at), &[0xFF, 0x2F, 0]);
    let division = (hertz / 2) as u16;
    let header = [0, 1, division].map(u16::to_be_bytes).concat();
    [chunk(b"MThd", &header), chunk(b"MTrk", &track.bytes)].concat()
}

fn chunk(name: &[u8; 4], body: &[u8]) -> Vec<u8> {
    let size = (body.len() as u32).to_be_bytes();
    [&name[..], &size, body].concat()
}

/// A track that is written.
#[derive(Default)]
struct Track {
    bytes: Vec<u8>,
    /// The tick of its last event.
    at: u64,
}

impl Track {
    /// An event at a tick. A longer wait than a delta time can say is filled with empty texts.
    fn event(&mut self, tick: u64, bytes: &[u8]) {
        while tick - self.at > LONGEST {
            self.push(LONGEST, &[0xFF, 0x01, 0]);
        }
        self.push(tick - self.at, bytes);
    }

    fn push(&mut self, delta: u64, bytes: &[u8]) {
        let high = (1..4).rev().filter(|place| delta >> (7 * place) > 0);
        let high = high.map(|place| 0x80 | (delta >> (7 * place) & 0x7F) as u8);
        self.bytes.extend(high);
        self.bytes.push((delta & 0x7F) as u8);
        self.bytes.extend(bytes);
        self.at += delta;
    }
}
