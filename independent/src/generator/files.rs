//! Cases of WAVE files: first those of a list, in which every field is damaged,
//! every place is cut and every size is wrong in turn; then mixtures by chance.

use super::random::Random;
use crate::table::{CD, FILM};
use crate::tuner::TAKE_LIMIT;
use crate::wave::{take, word, HEADER};
use crate::waves::Case;

pub struct Files {
    /// The cases of the list that are still to come.
    listed: std::vec::IntoIter<Case>,
    random: Random,
}

impl Files {
    pub fn seeded(seed: u64) -> Files {
        Files {
            listed: listed().into_iter(),
            random: Random::seeded(seed),
        }
    }

    pub fn case(&mut self) -> Case {
        if let Some(case) = self.listed.next() {
            return case;
        }
        let random = &mut self.random;
        match random.whole(0, 99) {
            0..=29 => {
                let file = file(random);
                let room = room(random, &file);
                Case::Read { room, file }
            }
            30..=59 => Case::Mend(file(random)),
            60..=73 => Case::SeekTake(file(random)),
            74..=87 => Case::SeekMending(file(random)),
            88..=96 => written(random),
            _ => {
                let any = random.next() >> random.whole(0, 63);
                let edge = random.one_of(&COUNTS);
                Case::Header {
                    hertz: hertz(random),
                    samples: random.one_of(&[any, edge]),
                }
            }
        }
    }
}

/// All cases of the list, for who looks on.
pub fn listed() -> Vec<Case> {
    let mut cases = Vec::new();
    for (place, file) in listed_files().into_iter().enumerate() {
        for room in rooms(&file, place) {
            let file = file.clone();
            cases.push(Case::Read { room, file });
        }
        cases.push(Case::Mend(file.clone()));
        cases.push(Case::SeekTake(file.clone()));
        cases.push(Case::SeekMending(file));
    }
    for hertz in [&RATES[..], &NO_RATES].concat() {
        for room in [0, 43, 44, 51, 52, 53, 60] {
            for samples in [vec![], vec![1, -1, i16::MIN, i16::MAX]] {
                cases.push(Case::Write {
                    hertz,
                    room,
                    samples,
                });
            }
        }
        cases.extend(COUNTS.map(|samples| Case::Header { hertz, samples }));
    }
    cases
}

const RATES: [u32; 2] = [CD, FILM];
/// Rates that are not taken, neighbours of those that are among them.
const NO_RATES: [u32; 10] = [
    0,
    1,
    22_050,
    44_099,
    44_101,
    47_999,
    48_001,
    96_000,
    CD | 1 << 16,
    u32::MAX,
];

/// Numbers of samples at and around what can be written, and where numbers that
/// lost high bits would be right again.
const COUNTS: [u64; 14] = [
    0,
    1,
    4,
    TAKE_LIMIT as u64 - 1,
    TAKE_LIMIT as u64,
    TAKE_LIMIT as u64 + 1,
    (1 << 31) - 23,
    1 << 31,
    (1 << 31) + 4,
    (1 << 32) - 1,
    1 << 32,
    (1 << 32) + 4,
    1 << 63,
    u64::MAX,
];

// ---- what files are made of

/// A chunk with its right size.
#[derive(Clone)]
struct Part {
    name: [u8; 4],
    body: Vec<u8>,
    /// Behind an odd body; a recorder may have left it out.
    pad: Option<u8>,
}

fn part(name: &[u8; 4], body: &[u8]) -> Part {
    Part {
        name: *name,
        body: body.to_vec(),
        pad: Some(0),
    }
}

/// The fields of fmt.
#[derive(Clone, Copy)]
struct Fmt {
    tag: u16,
    channels: u16,
    hertz: u32,
    bytes_a_second: u32,
    block: u16,
    bits: u16,
}

impl Fmt {
    fn at(hertz: u32) -> Fmt {
        Fmt {
            tag: 1,
            channels: 1,
            hertz,
            bytes_a_second: hertz.wrapping_mul(2),
            block: 2,
            bits: 16,
        }
    }

    /// The chunk, so many bytes long; those behind the fields are as in files with
    /// tag 65534.
    fn part(&self, length: usize) -> Part {
        const MORE: [u8; 24] = [
            22, 0, 16, 0, 4, 0, 0, 0, 1, 0, 0, 0, 0, 0, 16, 0, 128, 0, 0, 170, 0, 56, 155, 113,
        ];
        let fields: [&[u8]; 7] = [
            &self.tag.to_le_bytes(),
            &self.channels.to_le_bytes(),
            &self.hertz.to_le_bytes(),
            &self.bytes_a_second.to_le_bytes(),
            &self.block.to_le_bytes(),
            &self.bits.to_le_bytes(),
            &MORE,
        ];
        part(b"fmt ", &fields.concat()[..length])
    }
}

/// A file of parts, every size right.
struct Laid {
    file: Vec<u8>,
    /// The places of the chunks' sizes.
    sizes: Vec<usize>,
}

fn laid(parts: &[Part]) -> Laid {
    let mut file = b"RIFF\0\0\0\0WAVE".to_vec();
    let mut sizes = Vec::new();
    for Part { name, body, pad } in parts {
        file.extend(name);
        sizes.push(file.len());
        file.extend((body.len() as u32).to_le_bytes());
        file.extend(body);
        if body.len() % 2 == 1 {
            file.extend(pad);
        }
    }
    let size = file.len() as u32 - 8;
    put(&mut file, 4, size);
    Laid { file, sizes }
}

fn put(file: &mut [u8], at: usize, size: u32) {
    file[at..at + 4].copy_from_slice(&size.to_le_bytes());
}

/// The file with this size at this place.
fn with(file: &[u8], at: usize, size: u32) -> Vec<u8> {
    let mut file = file.to_vec();
    put(&mut file, at, size);
    file
}

/// A LIST in which there are chunks that would count outside it.
fn list() -> Part {
    let inside = laid(&[Fmt::at(FILM).part(16), part(b"data", &[9; 6])]).file;
    part(b"LIST", &inside[8..])
}

/// So many bytes of samples.
fn data(bytes: usize) -> Part {
    let body: Vec<u8> = (0..bytes).map(|at| (17 * at + 1) as u8).collect();
    part(b"data", &body)
}

// ---- the list

/// Room for just the samples, one short, more, and none; for most files one of
/// these in turn.
fn rooms(file: &[u8], place: usize) -> Vec<u32> {
    let count = samples_in(file);
    let all = [count, count.saturating_sub(1), count + 3, 0];
    match place {
        0..10 => all.to_vec(),
        _ => vec![all[[0, 2, 1, 2, 3, 0][place % 6]]],
    }
}

/// How many samples are read; of a refused file some.
fn samples_in(file: &[u8]) -> u32 {
    take(file).map_or(4, |take| take.count as u32)
}

fn listed_files() -> Vec<Vec<u8>> {
    let mut files = whole_files();
    files.extend(damaged_bytes());
    let around = around();
    for laid in [&laid(&[Fmt::at(CD).part(16), data(4)]), &around] {
        files.extend((0..laid.file.len()).map(|length| laid.file[..length].to_vec()));
        files.extend(wrong_sizes(laid));
    }
    files.extend((0..=around.file.len() as u32).map(|size| with(&around.file, 4, size)));
    files.extend(formats());
    files.extend(stopped_recorders());
    files
}

/// Chunks before, between and behind, with odd sizes.
fn around() -> Laid {
    laid(&[
        part(b"fact", &[1, 2, 3]),
        Fmt::at(FILM).part(18),
        part(b"JUNK", &[4]),
        data(6),
        part(b"cue ", &[5, 6, 7, 8, 9]),
    ])
}

fn whole_files() -> Vec<Vec<u8>> {
    let fmt = |hertz| Fmt::at(hertz).part(16);
    let mut files = Vec::new();
    for hertz in RATES {
        files.extend([0, 2, 8].map(|bytes| laid(&[fmt(hertz), data(bytes)]).file));
    }
    files.push(around().file);
    files.push(laid(&[list(), fmt(CD), list(), data(8), list()]).file);
    files.extend(NO_RATES.map(|hertz| laid(&[fmt(hertz), data(8)]).file));
    // Of two the first counts, and fmt stands before data.
    let stereo = Fmt {
        channels: 2,
        ..Fmt::at(CD)
    };
    let stereo = stereo.part(16);
    let orders: [&[Part]; 14] = [
        &[],
        &[list()],
        &[fmt(CD)],
        &[data(8)],
        &[data(8), fmt(CD)],
        &[data(8), fmt(CD), data(4)],
        &[stereo.clone(), fmt(CD), data(8)],
        &[fmt(CD), stereo.clone(), data(8)],
        &[fmt(CD), fmt(FILM), data(8)],
        &[fmt(CD), data(8), stereo],
        &[fmt(CD), data(8), data(4)],
        &[fmt(CD), data(0), data(8)],
        &[fmt(CD), data(8), data(3)],
        &[fmt(CD), data(3), data(8)],
    ];
    files.extend(orders.map(|parts| laid(parts).file));
    // Other forms.
    for name in [b"RIFX", b"RF64", b"riff", b"RIF\0"] {
        files.push([name, &laid(&[fmt(CD), data(8)]).file[4..]].concat());
    }
    // Pads that are missing, with sizes that count them and not.
    for place in 0..3 {
        let mut parts = [fmt(CD), part(b"JUNK", &[1]), data(5), part(b"tail", &[2])];
        parts[place + 1].pad = None;
        let laid = laid(&parts).file;
        files.push(with(&laid, 4, laid.len() as u32 - 7));
        files.push(laid);
    }
    files
}

/// Each byte of the header, set to what is often wrong.
fn damaged_bytes() -> Vec<Vec<u8>> {
    let whole = laid(&[Fmt::at(CD).part(16), data(8)]).file;
    let mut files = Vec::new();
    for place in 0..HEADER {
        let was = whole[place];
        for byte in [0, 1, 255, was.wrapping_sub(1), was.wrapping_add(1)] {
            let mut file = whole.clone();
            file[place] = byte;
            files.push(file);
        }
    }
    files
}

/// Each size of a file, RIFF's too, set to what may be wrong with it.
fn wrong_sizes(laid: &Laid) -> Vec<Vec<u8>> {
    let mut files = Vec::new();
    for &at in [4].iter().chain(&laid.sizes) {
        let sizes = sizes_around(&laid.file, at);
        files.extend(sizes.map(|size| with(&laid.file, at, size)));
    }
    files
}

/// What the size at this place may be in place of what it is.
fn sizes_around(file: &[u8], at: usize) -> [u32; 18] {
    let size = word(file, at);
    let rest = file.len().saturating_sub(at + 4) as u32;
    [
        0,
        1,
        2,
        size.wrapping_sub(2),
        size.wrapping_sub(1),
        size.wrapping_add(1),
        size.wrapping_add(2),
        rest.wrapping_sub(8),
        rest.wrapping_sub(2),
        rest.wrapping_sub(1),
        rest,
        rest + 1,
        rest + 2,
        size | 1 << 16,
        1 << 31,
        size.wrapping_sub(at as u32 + 4),
        u32::MAX - 1,
        u32::MAX,
    ]
}

/// Every length of fmt, with every tag.
fn formats() -> Vec<Vec<u8>> {
    let mut files = Vec::new();
    for tag in [0, 1, 2, 3, 257, 65_534, 65_535] {
        for length in [0, 2, 14, 15, 16, 17, 18, 40] {
            let fmt = Fmt { tag, ..Fmt::at(CD) };
            files.push(laid(&[fmt.part(length), data(8)]).file);
        }
    }
    files
}

/// Some bytes behind the data's header, and both sizes as recorders leave them.
fn stopped_recorders() -> Vec<Vec<u8>> {
    let mut files = Vec::new();
    for rest in [0, 1, 2, 3, 8, 9] {
        let whole = laid(&[Fmt::at(CD).part(16), data(rest)]);
        let file = &whole.file[..HEADER + rest];
        let (riff, rest) = (file.len() as u32 - 8, rest as u32);
        for data_size in [0, 1, rest, rest + 1, rest + 2, u32::MAX - 1, u32::MAX] {
            for riff_size in [0, 36, riff - 2, riff - 1, riff, riff + 1, u32::MAX] {
                files.push(with(&with(file, 4, riff_size), 40, data_size));
            }
        }
    }
    files
}

// ---- by chance

fn room(random: &mut Random, file: &[u8]) -> u32 {
    let count = samples_in(file);
    let more = random.whole(1, 9) as u32;
    let some = random.whole(0, count as usize) as u32;
    random.one_of(&[count, count, count.saturating_sub(1), count + more, some, 0])
}

fn hertz(random: &mut Random) -> u32 {
    let other = random.one_of(&NO_RATES);
    random.one_of(&[CD, CD, CD, FILM, FILM, FILM, other])
}

fn written(random: &mut Random) -> Case {
    let few = random.whole(0, 40);
    let count = match random.chance(20) {
        true => random.whole(1_000, 4_000),
        false => random.one_of(&[0, 1, few, few, few]),
    };
    let exact = (HEADER + 2 * count) as u32;
    let less = random.whole(0, exact as usize - 1) as u32;
    let more = exact + random.whole(1, 9) as u32;
    Case::Write {
        hertz: hertz(random),
        room: random.one_of(&[exact, exact, exact - 1, less, more, HEADER as u32, 0]),
        samples: (0..count).map(|_| random.next() as i16).collect(),
    }
}

fn bytes(random: &mut Random, length: usize) -> Vec<u8> {
    (0..length).map(|_| random.next() as u8).collect()
}

/// A file with some of what may be wrong, or nothing.
fn file(random: &mut Random) -> Vec<u8> {
    let mut laid = laid(&parts(random));
    if random.chance(150) {
        let length = random.whole(1, 9);
        laid.file.extend(bytes(random, length));
    }
    match random.whole(0, 9) {
        0..=3 => {}
        4..=6 => wrong_size(random, &mut laid),
        _ => stop_recorder(random, &mut laid),
    }
    let mut file = laid.file;
    if random.chance(60) {
        file.truncate(random.whole(0, file.len()));
    }
    if random.chance(80) && !file.is_empty() {
        let place = random.whole(0, file.len().min(64) - 1);
        file[place] = random.one_of(&[0, 1, 255, file[place] ^ 1, file[place] ^ 32]);
    }
    if random.chance(20) && file.len() > 4 {
        file[..4].copy_from_slice(random.one_of(&[b"RIFX", b"RF64", b"FORM"]));
    }
    file
}

/// Mostly fmt and then data, and other chunks anywhere.
fn parts(random: &mut Random) -> Vec<Part> {
    let mut parts = match random.whole(0, 39) {
        0 => vec![some_fmt(random)],
        1 => vec![some_data(random)],
        2 => vec![some_data(random), some_fmt(random)],
        3 => vec![some_fmt(random), some_fmt(random), some_data(random)],
        4 => vec![some_fmt(random), some_data(random), some_fmt(random)],
        5 => vec![some_fmt(random), some_data(random), some_data(random)],
        6 => vec![],
        _ => vec![some_fmt(random), some_data(random)],
    };
    for _ in 0..random.one_of(&[0, 0, 1, 1, 2, 3]) {
        let place = random.whole(0, parts.len());
        parts.insert(place, other(random));
    }
    for part in &mut parts {
        let any = random.next() as u8;
        part.pad = random.one_of(&[Some(0), Some(0), Some(0), Some(any), None]);
    }
    parts
}

/// Four of five are taken.
fn some_fmt(random: &mut Random) -> Part {
    let mut fmt = Fmt::at(random.one_of(&RATES));
    let any = random.next();
    let half = random.one_of(&[0, 1, 2, 3, 4, 8, 15, 16, 17, 24, 257, 65_534, any as u16]);
    match random.whole(0, 79) {
        0 => fmt.tag = half,
        1 => fmt.channels = half,
        2 => fmt = Fmt::at(hertz(random)),
        3 => fmt.hertz = hertz(random),
        4 => {
            fmt.bytes_a_second = random.one_of(&[fmt.hertz, 4 * fmt.hertz, 2 * CD, any as u32]);
        }
        5 => fmt.block = half,
        6 => fmt.bits = half,
        7 => fmt.tag = 65_534,
        _ => {}
    }
    let any = random.whole(0, 40);
    fmt.part(match random.chance(800) {
        true => 16,
        false => random.one_of(&[18, 18, 40, 40, 14, 15, 17, any]),
    })
}

fn some_data(random: &mut Random) -> Part {
    let few = random.whole(0, 30);
    let length = match random.chance(10) {
        true => random.whole(500, 2_000),
        false => random.one_of(&[0, 1, few, few, few]),
    };
    let odd = usize::from(random.chance(100));
    part(b"data", &bytes(random, 2 * length + odd))
}

/// A chunk that is skipped.
fn other(random: &mut Random) -> Part {
    if random.chance(250) {
        return list();
    }
    let names = [
        b"LIST",
        b"JUNK",
        b"bext",
        b"fact",
        b"cue ",
        b"fmt\0",
        b"FMT ",
        b"DATA",
        b"dat\xE1",
        b"\0\0\0\0",
        b"RIFF",
        b"WAVE",
    ];
    let name = random.one_of(&names);
    let length = random.whole(0, 12);
    part(name, &bytes(random, length))
}

/// One or two sizes are wrong.
fn wrong_size(random: &mut Random, laid: &mut Laid) {
    for _ in 0..random.whole(1, 2) {
        let places = [&[4, 4][..], &laid.sizes].concat();
        let at = random.one_of(&places);
        let some = random.one_of(&sizes_around(&laid.file, at));
        // Up to somewhere in the file, most often near where a chunk begins or ends.
        let near = random.one_of(&places) + random.whole(0, 12);
        let anywhere = random.whole(0, laid.file.len() + 3);
        let up_to = |place: usize| (place as u32).saturating_sub(at as u32 + 4);
        let size = random.one_of(&[some, some, up_to(near), up_to(anywhere)]);
        put(&mut laid.file, at, size);
    }
}

/// The recorder wrote both sizes early, or not at all, and stopped anywhere.
fn stop_recorder(random: &mut Random, laid: &mut Laid) {
    let Some(&at) = laid.sizes.last() else {
        return;
    };
    let is_data = |at: &usize| laid.file[at - 4..*at] == *b"data";
    let data = laid.sizes.iter().copied().find(is_data);
    let at = random.one_of(&[at, data.unwrap_or(at)]);
    let length = laid.file.len();
    if random.chance(500) {
        laid.file.truncate(random.whole(at + 4, length));
    }
    let rest = (laid.file.len() - at - 4) as u32;
    let whole = laid.file.len() as u32 - 8;
    let some = random.whole(0, rest as usize + 3) as u32;
    let size = random.one_of(&[0, 0, u32::MAX, u32::MAX - 1, rest, rest + 1, some]);
    put(&mut laid.file, at, size);
    let some = random.whole(0, whole as usize + 3) as u32;
    let short = whole - rest % 2;
    let short = random.one_of(&[short, short - 1, short - 2]);
    let size = random.one_of(&[0, u32::MAX, whole, whole + 1, short, short, some]);
    put(&mut laid.file, 4, size);
}

#[cfg(test)]
mod tests {
    use super::*;
    use crate::table::is_rate;
    use crate::wave::header;

    #[test]
    fn rates_and_headers_are_what_they_are_said_to_be() {
        assert!(RATES.into_iter().all(is_rate));
        assert!(!NO_RATES.into_iter().any(is_rate));
        let canonical = laid(&[Fmt::at(CD).part(16), data(8)]).file;
        assert_eq!(canonical[..HEADER], header(CD, 4).unwrap());
    }
}
