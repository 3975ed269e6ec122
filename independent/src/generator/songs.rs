//! Cases of Standard MIDI Files: first those of a list, small files cut at every
//! place and damaged at every byte; then files by chance, whole and damaged.

use super::random::Random;
use crate::smf::Choice;
use crate::songs::Case;

pub struct Songs {
    /// The files of the list that are still to come.
    listed: std::vec::IntoIter<Vec<u8>>,
    random: Random,
}

impl Songs {
    pub fn seeded(seed: u64) -> Songs {
        Songs {
            listed: listed().into_iter(),
            random: Random::seeded(seed),
        }
    }

    pub fn case(&mut self) -> Case {
        let random = &mut self.random;
        let file = self.listed.next().unwrap_or_else(|| file(random));
        Case {
            hertz: random.one_of(&[44_100, 48_000]),
            choice: choice(random),
            file,
        }
    }
}

/// Mostly all of a file as it is.
fn choice(random: &mut Random) -> Choice {
    let channel = random.whole(1, 16) as u8;
    let track = random.whole(1, 6) as u32;
    let (transpose, far) = (random.whole(0, 24) as i32 - 12, random.next() as i32 >> 20);
    let (near, offset) = (random.whole(0, 4_000) as i64 - 2_000, random.next() as i64);
    Choice {
        channel: random.chance(300).then_some(channel),
        track: random.chance(300).then_some(track),
        transpose: match random.whole(0, 9) {
            0..=4 => 0,
            5..=8 => transpose,
            _ => far,
        },
        offset: match random.whole(0, 9) {
            0..=4 => 0,
            5..=8 => near,
            _ => offset >> random.whole(20, 40),
        },
    }
}

// ---- what files are made of

/// A number in as few bytes as it needs, or with leading ones that say nothing.
fn quantity(value: u32, more: usize) -> Vec<u8> {
    let needed = (1..4).find(|bytes| value >> (7 * bytes) == 0).unwrap_or(4);
    let count = (needed + more).min(4);
    let byte = |place: usize| (value >> (7 * (count - 1 - place)) & 0x7F) as u8;
    let high = |place: usize| if place + 1 < count { 0x80 } else { 0 };
    (0..count).map(|place| byte(place) | high(place)).collect()
}

fn chunk(name: &[u8; 4], body: &[u8]) -> Vec<u8> {
    let size = (body.len() as u32).to_be_bytes();
    [&name[..], &size, body].concat()
}

fn header(format: u16, tracks: u16, division: u16, more: &[u8]) -> Vec<u8> {
    let fields = [format, tracks, division].map(u16::to_be_bytes).concat();
    chunk(b"MThd", &[&fields[..], more].concat())
}

/// How long a tick is: mostly what sequencers write.
fn division(random: &mut Random) -> u16 {
    let parts = [1, 2, 4, 8, 10, 40, 80, 100, 255][random.whole(0, 8)];
    match random.whole(0, 9) {
        0..=5 => random.one_of(&[24, 96, 120, 192, 480, 960]),
        6 => random.one_of(&[1, 22_050, 24_000, 32_767]),
        7 => random.whole(1, 32_767) as u16,
        _ => (256 - random.one_of(&[24, 25, 29, 30])) << 8 | parts,
    }
}

fn delta(random: &mut Random) -> Vec<u8> {
    let long = random.next() as u32 >> 4 >> random.whole(0, 27);
    let value = match random.whole(0, 9) {
        0..=2 => 0,
        3..=5 => random.whole(0, 130) as u32,
        6..=8 => random.whole(0, 4_000) as u32,
        _ => long,
    };
    let more = random.one_of(&[0, 0, 0, 0, 0, 0, 1, 3]);
    quantity(value, more)
}

fn any_bytes(random: &mut Random, most: usize) -> Vec<u8> {
    let count = random.whole(0, most);
    (0..count).map(|_| random.next() as u8).collect()
}

/// A number of bytes and as many bytes.
fn body(bytes: &[u8]) -> Vec<u8> {
    [quantity(bytes.len() as u32, 0), bytes.to_vec()].concat()
}

/// A tempo: mostly one that is played.
fn tempo(random: &mut Random) -> Vec<u8> {
    let any = random.next() as u32 >> 8;
    let value = random.one_of(&[500_000, 428_571, 600_000, 1, 16_777_215, any.max(1)]);
    [&[0xFF, 0x51, 3], &value.to_be_bytes()[1..]].concat()
}

/// An event behind its delta time. The status is left out by chance where the
/// one before it is the same.
fn event(random: &mut Random, running: &mut Option<u8>) -> Vec<u8> {
    let kind = random.whole(0, 99);
    let short = random.chance(900);
    let most = if short { 6 } else { 300 };
    let other = match kind {
        0..=7 => Some(tempo(random)),
        8..=12 => {
            let kind = random.one_of(&[0, 1, 3, 5, 0x20, 0x54, 0x58, 0x59, 0x7F, 0xFE]);
            Some([&[0xFF, kind], &body(&any_bytes(random, most))[..]].concat())
        }
        13..=16 => {
            let status = random.one_of(&[0xF0, 0xF7]);
            Some([&[status], &body(&any_bytes(random, most))[..]].concat())
        }
        _ => None,
    };
    if let Some(other) = other {
        *running = None;
        return other;
    }
    message(random, running)
}

fn message(random: &mut Random, running: &mut Option<u8>) -> Vec<u8> {
    let channel = random.one_of(&[0, 0, 0, 0, 1, 9, 15]);
    let kind = random.one_of(&[8, 9, 9, 9, 9, 9, 10, 11, 12, 13, 14]);
    let status = kind << 4 | channel;
    let velocity = random.one_of(&[0, 0, 1, 64, 127]);
    let key = random.whole(0, 127) as u8;
    let near = random.whole(57, 62) as u8;
    let key = if random.chance(700) { near } else { key };
    let data = match kind {
        12 | 13 => vec![key],
        _ => vec![key, velocity],
    };
    let same = *running == Some(status) && random.chance(700);
    *running = Some(status);
    match same {
        true => data,
        false => [vec![status], data].concat(),
    }
}

fn track(random: &mut Random) -> Vec<u8> {
    let most = random.one_of(&[0, 3, 12, 40]);
    let events = random.whole(0, most);
    let (mut bytes, mut running) = (Vec::new(), None);
    for _ in 0..events {
        bytes.extend(delta(random));
        bytes.extend(event(random, &mut running));
    }
    // Some writers leave the end out, and some let something follow it.
    if random.chance(950) {
        bytes.extend(delta(random));
        bytes.extend([0xFF, 0x2F, 0]);
        if random.chance(50) {
            bytes.extend(any_bytes(random, 9));
        }
    }
    bytes
}

/// A file that is whole.
fn whole(random: &mut Random) -> Vec<u8> {
    let format = random.whole(0, 1) as u16;
    let tracks = match format {
        0 => 1,
        _ => random.whole(1, 5),
    };
    let declared = match random.chance(950) {
        true => tracks,
        false => random.whole(0, 6),
    };
    let more = match random.chance(950) {
        true => vec![],
        false => any_bytes(random, 9),
    };
    let mut file = header(format, declared as u16, division(random), &more);
    for _ in 0..tracks {
        if random.chance(50) {
            file.extend(chunk(b"XFIH", &any_bytes(random, 20)));
        }
        file.extend(chunk(b"MTrk", &track(random)));
    }
    if random.chance(50) {
        file.extend(any_bytes(random, 12));
    }
    file
}

/// Bytes that mean something, and any others.
fn telling(random: &mut Random) -> u8 {
    let any = random.next() as u8;
    let some = [
        0, 1, 2, 3, 4, 0x2F, 0x51, 0x7F, 0x80, 0x81, 0x90, 0xC0, 0xE0, 0xEF, 0xF0, 0xF1, 0xF6,
        0xF7, 0xF8, 0xFE, 0xFF, any, any, any,
    ];
    random.one_of(&some)
}

/// One damage more, somewhere.
fn damage(random: &mut Random, file: &mut Vec<u8>) {
    if file.is_empty() {
        return;
    }
    let at = random.whole(0, file.len() - 1);
    // Headers are few among the bytes, and say much.
    let at = if random.chance(200) { at % 26 } else { at }.min(file.len() - 1);
    let byte = telling(random);
    match random.whole(0, 9) {
        0 | 1 => file.truncate(at),
        2 => file.insert(at, byte),
        3 => drop(file.remove(at)),
        4 => file[at] ^= 1 << random.whole(0, 7),
        5 => {
            let to = random.whole(at, file.len());
            drop(file.drain(at..to.min(at + 9)));
        }
        _ => file[at] = byte,
    }
}

fn file(random: &mut Random) -> Vec<u8> {
    let mut file = whole(random);
    let damages = random.one_of(&[0, 0, 0, 0, 1, 1, 1, 2, 3, 8]);
    for _ in 0..damages {
        damage(random, &mut file);
    }
    file
}

// ---- the list

/// A small file that has something of everything.
fn small(format: u16, division: u16) -> Vec<u8> {
    let conductor = [
        &[0, 0xFF, 0x51, 3, 7, 0xA1, 0x20][..],
        &[0x60, 0xFF, 0x51, 3, 0x0A, 0x2C, 0x2B],
        &[0, 0xFF, 0x2F, 0],
    ];
    let keys = [
        &[0x83, 0, 0x90, 60, 100][..],
        &[0x10, 62, 0],
        &[5, 0xC0, 7],
        &[0, 9],
        &[1, 0xF0, 3, 1, 2, 0xF7],
        &[0x81, 0x82, 0x83, 4, 0x80, 60, 64],
        &[0, 0x91, 64, 1],
        &[0x20, 0xFF, 3, 2, 65, 66],
        &[0, 0xFF, 0x2F, 0],
    ];
    let mut file = header(format, 2, division, &[]);
    file.extend(chunk(b"MTrk", &conductor.concat()));
    file.extend(chunk(b"XFIH", &[1, 2, 3]));
    file.extend(chunk(b"MTrk", &keys.concat()));
    file
}

/// The small files, each cut at every place and with every byte replaced.
pub fn listed() -> Vec<Vec<u8>> {
    let mut files = Vec::new();
    for (format, division) in [(0, 96), (1, 480), (1, 0xE728), (1, 0xE301), (2, 96)] {
        let file = small(format, division);
        files.extend((0..=file.len()).map(|end| file[..end].to_vec()));
        for at in 0..file.len() {
            for byte in [0, 1, 0x7F, 0x80, 0x90, 0xC1, 0xF0, 0xF4, 0xFF] {
                let mut damaged = file.clone();
                damaged[at] = byte;
                files.push(damaged);
            }
        }
    }
    files
}
