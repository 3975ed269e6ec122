//! Calls over records, good, damaged and of any bytes, with blocks, numbers,
//! lengths and buffers of every sort; the records at the edges come first, and
//! of those behind them each third is one with the next byte damaged, until all
//! were. Of the others one in five has voices, and two in five have a list.

use super::edges::{calls_over, choices, edges, fresh_of_version_2, BEGINNING_OF_OLD};
use super::ensembles::{
    alter_voices, any_intervals, ensemble_choices, reached_by, room, turned_bits, with_intervals,
};
use super::lists::{any_length, any_listing, list_choices, start_listed, store, SHORT};
use super::nights::{any_night, night_choices};
use super::random::Random;
use super::sound::{period_of_note, sing, Passage, Wave};
use super::voices::chosen;
use crate::calls::Call;
use crate::list::Listing;
use crate::record::{Record, LAYOUT};
use crate::rules::{LONGEST_BLOCK, TRACKED};
use crate::settings::Settings;
use crate::table::{CD, FILM};
use crate::tuner::TAKE_LIMIT;

/// Longer blocks and outputs are not lent.
pub const MOST: usize = 1_024;

pub struct Cases {
    /// The calls over the records at the edges that are still to come, and those over a record with every byte damaged in turn.
    first: Box<dyn Iterator<Item = (Vec<u8>, Call)>>,
    turned: Box<dyn Iterator<Item = (Vec<u8>, Call)>>,
    /// How many came behind the first.
    behind: usize,
    random: Random,
    /// Records with voices and a list that calls from a start left. Their leads are those that the same calls without them leave.
    reached: Vec<Record>,
}

impl Cases {
    pub fn seeded(seed: u64) -> Cases {
        let mut random = Random::seeded(seed);
        let mut reached = vec![Record::default_start()];
        for _ in 0..40 {
            reach(&mut random, &mut reached);
        }
        Cases {
            first: Box::new(first()),
            turned: Box::new(turned_bits()),
            behind: 0,
            random,
            reached,
        }
    }

    /// A record's bytes, and a call over it.
    pub fn case(&mut self) -> (Vec<u8>, Call) {
        if let Some(case) = self.first.next() {
            return case;
        }
        self.behind += 1;
        if self.behind.is_multiple_of(3) {
            if let Some(case) = self.turned.next() {
                return case;
            }
        }
        let random = &mut self.random;
        let mut some = || self.reached[random.whole(0, self.reached.len() - 1)].clone();
        let (reached, other) = (some(), some());
        let record = any_record(random, reached);
        let call = any_call(random, &record);
        let call = any_lent(random, &record, call);
        let mut bytes = record.bytes();
        spoil(random, &mut bytes, &other.bytes());
        (bytes, call)
    }
}

/// The calls over the records at the edges.
fn first() -> impl Iterator<Item = (Vec<u8>, Call)> {
    let edges = edges().into_iter().flat_map(|(record, _)| {
        let calls = calls_over(&record).into_iter();
        calls.map(move |call| (record.clone(), call))
    });
    let choices = choices().into_iter().chain(night_choices());
    let choices = choices.chain(list_choices()).chain(ensemble_choices());
    let of_version_2 = calls_over(&Record::default_start()).into_iter();
    let of_version_2 = of_version_2.map(|call| (fresh_of_version_2().to_vec(), call));
    let at_the_edges = edges.chain(choices);
    let at_the_edges = at_the_edges.map(|(record, call)| (record.bytes(), call));
    at_the_edges.chain(of_version_2)
}

/// The record with its voices, with a list alone, or with neither, and some of its numbers altered.
fn any_record(random: &mut Random, reached: Record) -> Record {
    let mut record = altered(random, reached);
    let with_voices = random.chance(200);
    if with_voices {
        if random.chance(500) {
            for _ in 0..random.whole(1, 3) {
                alter_voices(random, &mut record);
            }
        }
    } else {
        (record.chosen, record.listed) = (0, u32::from(random.chance(400)));
        record.list = Listing::FRESH;
    }
    if (record.listed > 0 && !with_voices) || random.chance(100) {
        record.list = any_listing(random, &record);
    }
    record
}

/// Any of the calls, with an output for the lead alone.
fn any_call(random: &mut Random, record: &Record) -> Call {
    match random.whole(0, 99) {
        0..=46 => block(random, record),
        47..=59 => any_night(random, record),
        60..=69 => Call::Midi(midi(random)),
        70..=77 => Call::Change(change(random, record)),
        78..=84 => Call::Reset(vec![]),
        85..=93 => Call::Meter,
        94..=96 => any_start(random),
        97 => Call::StartDefault,
        _ => Call::Cut(long(random), long(random) / 512),
    }
}

fn any_start(random: &mut Random) -> Call {
    let keep = random.one_of(&[0, 0, 1, 1, 2, u32::MAX]);
    let call = start_listed(hertz(random), settings(random), keep);
    let intervals = if random.chance(500) {
        any_intervals(random)
    } else {
        vec![]
    };
    with_intervals(call, &intervals)
}

/// The call with a store and outputs for the voices, most often where the record needs them.
fn any_lent(random: &mut Random, record: &Record, call: Call) -> Call {
    let numbers = match call {
        Call::Start { .. } | Call::Reset(_) => random.one_of(&SHORT),
        _ if record.listed > 0 || random.chance(200) => any_length(random, &record.list),
        _ => 0,
    };
    let lend = record.chosen > 0 || random.chance(100);
    let length = call.samples().len();
    let voices = [0, 1, 2].map(|place| {
        let mut output = vec![];
        if lend {
            output.resize(room(random, place < record.chosen(), length), 0);
            noise(random, &mut output);
        }
        output
    });
    call.with_voices(voices).with_store(store(numbers))
}

/// Some bytes damaged, or those of another record in their place.
fn spoil(random: &mut Random, bytes: &mut [u8], other: &[u8]) {
    let size = bytes.len();
    match random.whole(0, 19) {
        0 | 1 => {
            let bit = random.whole(0, 8 * size - 1);
            bytes[bit / 8] ^= 1 << (bit % 8);
        }
        2 => any_bytes(random, bytes, size),
        3 => any_bytes(random, bytes, 64),
        4 => bytes[random.whole(0, size)..].fill(0),
        5 => {
            let from = random.whole(0, size);
            bytes[from..].copy_from_slice(&other[from..]);
        }
        // Without the layout's number.
        6 => bytes.copy_within(8.., 0),
        _ => {}
    }
}

/// The record, its take often near the limit, some of its samples noise, some of its numbers altered.
fn altered(random: &mut Random, mut record: Record) -> Record {
    if random.chance(150) && record.count >= 1_764 {
        let near = TAKE_LIMIT - random.whole(0, 600);
        record.count = (near - near % 40) as u64 + record.count % 40;
    }
    if random.chance(100) {
        noise(random, &mut record.heard);
        noise(random, &mut record.eighths);
        record.count = record.count.max(1_800);
        record = record.with_right_sums();
    }
    if random.chance(500) {
        for _ in 0..random.whole(1, 3) {
            alter(random, &mut record);
        }
        if random.chance(500) {
            record = record.with_right_sums();
        }
    }
    record
}

/// A short take: tones that are flat and sharp, each swinging, silence between them.
pub fn sung() -> Vec<i16> {
    let (mut random, mut phase) = (Random::seeded(1), 0.0);
    let mut take = Vec::new();
    for (note, cents) in [
        (57, -45.0),
        (61, -40.0),
        (64, 45.0),
        (52, 30.0),
        (69, -20.0),
    ] {
        take.extend([0; 700]);
        let voice = Wave::Partials(vec![1.0, 0.6, 0.3, 0.1]);
        let passage = Passage::of(voice, period_of_note(CD, note, cents), 8_000)
            .swinging(0.003, 8_000.0)
            .loud(9_000.0)
            .breathy(60.0);
        take.extend(sing(&passage, &mut phase, &mut random));
    }
    take
}

/// Plays a take from a start, with voices and a list, and keeps records on the way.
fn reach(random: &mut Random, reached: &mut Vec<Record>) {
    let mut allowed = settings(random);
    while !allowed.in_range() {
        allowed = settings(random);
    }
    let hertz = random.one_of(&[CD, FILM]);
    let mut record = Record::fresh(hertz, allowed).with_voices(&chosen(random));
    let mut store = vec![0; random.one_of(&[0, 3, 6, 30, 300])];
    if !store.is_empty() {
        record = record.with_list();
    }
    let (mut phase, mut number) = (0.0, 0);
    for _ in 0..random.whole(1, 8) {
        let period = random.one_of(&[17.3, 50.0, 100.2, 187.0, 330.5, 601.0, 870.0]);
        let wave = match random.whole(0, 2) {
            0 => Wave::Square,
            _ => Wave::Partials(vec![1.0, 0.5, 0.3]),
        };
        let length = random.whole(1, 3_000);
        let loudness = random.one_of(&[0.0, 40.0, 3_000.0, 12_000.0, 32_000.0]);
        let passage = Passage::of(wave, period, length)
            .loud(loudness)
            .gliding(period * random.real(0.97, 1.03));
        let sung = sing(&passage, &mut phase, random);
        for samples in sung.chunks(random.whole(1, LONGEST_BLOCK)) {
            let block = Call::block(number, samples, vec![0; samples.len()]);
            // A key of the table or beside it, and bytes that may release it.
            let status = 144 + allowed.channel as u8;
            let key = random.whole(28, 104) as u8;
            let struck = [vec![status, key, 100], midi(random)].concat();
            let played = random.one_of(&[0, 0, 3, struck.len()]);
            for call in [Call::Midi(struck[..played].to_vec()), block] {
                record = reached_by(&record, &mut store, call);
            }
            number = number.wrapping_add(1);
            if random.chance(150) {
                reached.push(record.clone());
            }
        }
        reached.push(record.clone());
    }
}

/// A sample rate, most often one that there is.
fn hertz(random: &mut Random) -> u32 {
    let near = random.one_of(&[CD - 1, CD + 1, FILM - 1, FILM + 1]);
    random.one_of(&[CD, CD, FILM, FILM, near, 0, 96_000, u32::MAX])
}

/// Some settings, most of them in their ranges; some have several out of them.
fn settings(random: &mut Random) -> Settings {
    let mut settings = Settings {
        scale: random.whole(1, 4_095) as u32,
        eps: random.whole(0, 409) as u32,
        decay: random.whole(0, 255) as u32,
        floor: random.one_of(&[1, 100, 1_000, 1_000_000]),
        mode: random.one_of(&[0, 1]),
        channel: random.one_of(&[0, 0, 1, 9, 15]),
    };
    for _ in 0..random.one_of(&[0, 0, 0, 1, 3]) {
        match random.whole(0, 6) {
            0 => settings.scale = random.one_of(&[0, 1, 4_095, 4_096, u32::MAX]),
            1 => settings.eps = random.one_of(&[0, 409, 410, u32::MAX]),
            2 => settings.decay = random.one_of(&[0, 255, 256, u32::MAX]),
            3 => settings.floor = random.one_of(&[0, 1, 1_000_000, 1_000_001, u32::MAX]),
            4 => settings.mode = random.one_of(&[0, 1, 2, 256, u32::MAX]),
            5 => settings.channel = random.one_of(&[0, 15, 16, 256, u32::MAX]),
            _ => settings.eps = random.next() as u32,
        }
    }
    if random.chance(250) {
        settings = Settings::DEFAULT;
    }
    settings
}

/// Some settings; half of the time the record's own but for a few of them.
fn change(random: &mut Random, record: &Record) -> Settings {
    let (new, old) = (settings(random), record.settings);
    match random.whole(0, 5) {
        0 => Settings {
            mode: new.mode,
            ..old
        },
        1 => Settings {
            channel: new.channel,
            ..old
        },
        2 => Settings {
            mode: old.mode,
            channel: old.channel,
            ..new
        },
        _ => new,
    }
}

/// Bytes of a keyboard: whole messages, cut ones, or any bytes.
fn midi(random: &mut Random) -> Vec<u8> {
    let length = random.one_of(&[0, 1, 1, 2, 3, 5, 9, 40, MOST]);
    let few = [0, 1, 31, 32, 33, 60, 62, 100, 101, 102, 103, 127];
    let kind = random.whole(0, 3);
    let byte = |random: &mut Random| match random.whole(0, 9) {
        0..=6 if kind > 0 => random.one_of(&few),
        7 if kind > 0 => random.one_of(&[128, 144, 144, 145, 159]),
        8 if kind > 1 => random.one_of(&[160, 176, 192, 208, 223, 224, 239]),
        9 if kind > 1 => random.one_of(&[240, 241, 244, 246, 247, 248, 254, 255]),
        _ => random.next() as u8,
    };
    (0..length).map(|_| byte(random)).collect()
}

/// One number of the record altered, most often to the edge of its range.
fn alter(random: &mut Random, record: &mut Record) {
    let place = random.whole(0, LONGEST_BLOCK - 1);
    let few = random.whole(0, 2) as i64 - 1;
    // Past 32 bits, the rest as it was or 0: what lost high bits would make right.
    let high = random.next() << 32;
    match random.whole(0, 36) {
        0 => record.settings = settings(random),
        1 => record.count = random.one_of(&[0, 1, 7, 8, 1_763, 1_764, 1_765, 1_791, 1_792]),
        2 => record.count = random.one_of(&[999_999_999, 1_000_000_000, 1_000_000_001, u64::MAX]),
        3 => record.behind = random.one_of(&[0, 1, 65_535_999, 65_536_000, 65_536_001, u64::MAX]),
        4 => record.behind = random.whole(0, 70_000_000) as u64,
        5 => record.tracking = random.one_of(&[0, 1, 2, 3, 255, 256, 1 << 31, 0xFFFF_FFFF]),
        6 => record.tracking = random.one_of(&[0, 1, high, record.tracking | high, u64::MAX]),
        7 => record.period = random.one_of(&[0, 1, 4_095, 4_096, 225_280, 225_281, u32::MAX]),
        8 => record.period = random.whole(4_096, 225_280) as u32,
        9 => {
            let near = random.one_of(&[31, 32, 33, 100, 101, 102, 103]);
            record.note = random.one_of(&[0, near, near, 69, 127, 128, 129, u32::MAX]);
        }
        10 => record.rate = random.one_of(&[0, 32_767, 32_768, 65_536, 131_072, 131_073, u32::MAX]),
        11 => record.rate = random.whole(32_768, 131_072) as u32,
        12 => record.low = random.one_of(&[0, 15, 16, 17, 872, 873, 874, 881, u32::MAX]),
        13 => {
            record.low = random.whole(16, 873) as u32;
            record.last = record.low + random.whole(0, 7) as u32;
        }
        14 => record.last = record.low.wrapping_add(random.one_of(&[u32::MAX, 0, 7, 8])),
        15 => record.number = random.one_of(&[0, 1, 65_534, 65_535, place as u16]),
        16 => record.length = random.one_of(&[0, 1, 511, 512, 513, u16::MAX]),
        17 => {
            record.length = (record.count.min(512) as u16).wrapping_add(random.whole(0, 1) as u16)
        }
        18 => {
            (record.repeated, record.dropped) = (random.next() as u16, random.next() as u16);
            (record.pitched, record.strayed) = (random.next() as u32, random.next() as u32);
        }
        19 => record.outs[0][place] = random.next() as i16,
        20 => record.heard[random.whole(0, 1_763)] = random.next() as i16,
        21 => record.eighths[random.whole(0, 223)] = random.next() as i16,
        22 => {
            let place = random.whole(0, TRACKED - 1);
            record.e[place] = record.e[place].wrapping_add_signed(few);
            record.h[place] = record.h[place].wrapping_add(few);
        }
        23 => (record.period, record.rate) = (0, 65_536),
        24 => record.layout = random.one_of(&[0, LAYOUT - 1, LAYOUT + 1, BEGINNING_OF_OLD, high]),
        25 => record.count = random.one_of(&[high, record.count | high]),
        26 => record.behind = random.one_of(&[high, record.behind | high]),
        27 => record.key = random.one_of(&[0, 31, 32, 60, 100, 101, 127, 128, 129, 256, u32::MAX]),
        28 => record.status = random.one_of(&[0, 1, 127, 128, 144, 145, 191, 192, 223, 224]),
        29 => record.status = random.one_of(&[239, 240, 255, 256, 400, u16::MAX]),
        30 => record.half = random.one_of(&[0, 60, 127, 128, 129, 255, 256, u16::MAX]),
        31 => record.kept = random.one_of(&[0, 1, 254, 255, 256, 257, 511, 65_536, u32::MAX]),
        32 => record.kept = random.whole(0, 255) as u32,
        // Without a period, and with something kept: a find or the first step may follow.
        33 => {
            (record.period, record.rate) = (0, 65_536);
            (record.tracking, record.kept) = (random.one_of(&[0, 1]), random.whole(1, 255) as u32);
        }
        34 => record.hertz = random.one_of(&[CD, FILM]).into(),
        35 => {
            let some = u64::from(hertz(random));
            record.hertz = random.one_of(&[some, high, record.hertz | high]);
        }
        _ => {
            let place = random.whole(0, 108);
            record.energies[place] = record.energies[place].wrapping_add_signed(few);
            record.correlations[place] = record.correlations[place].wrapping_sub(few);
        }
    }
}

/// A block: the next, the last again, nearly the last again, or some other.
fn block(random: &mut Random, record: &Record) -> Call {
    let number = match random.whole(0, 9) {
        0..=5 => record.next_number(),
        6..=8 => record.number,
        _ => random.next() as u16,
    };
    let mut samples = match random.whole(0, 19) {
        0..=6 => record.last_samples().to_vec(),
        7 => vec![],
        8 => vec![0; random.one_of(&[511, 512, 513, 1_024])],
        9 => vec![i16::MIN; random.whole(1, 64)],
        10 => vec![0; random.whole(100, 512)],
        _ => vec![0; random.whole(1, 48)],
    };
    match random.whole(0, 9) {
        0..=3 => {}
        4 if !samples.is_empty() => {
            let place = random.whole(0, samples.len() - 1);
            samples[place] = samples[place].wrapping_add(1);
        }
        5 => drop(samples.pop()),
        _ => noise(random, &mut samples),
    }
    let room = match random.whole(0, 9) {
        0..=5 => samples.len(),
        6 => samples.len().saturating_sub(1),
        7 => random.whole(0, MOST),
        8 => 0,
        _ => (samples.len() + random.whole(1, 64)).min(MOST),
    };
    let mut out = vec![0; room];
    noise(random, &mut out);
    Call::block(number, &samples, out)
}

/// Noise of some loudness.
pub(super) fn noise(random: &mut Random, samples: &mut [i16]) {
    let shift = random.whole(0, 15);
    for sample in samples {
        *sample = (random.next() as i16) >> shift;
    }
}

fn any_bytes(random: &mut Random, bytes: &mut [u8], most: usize) {
    let from = random.whole(0, bytes.len() - 1);
    let to = bytes.len().min(from + random.whole(1, most));
    let all = most == bytes.len() && random.chance(500);
    let part = if all { bytes } else { &mut bytes[from..to] };
    part.iter_mut().for_each(|byte| *byte = random.next() as u8);
}

/// A number of any size.
fn long(random: &mut Random) -> u64 {
    random.next() >> random.whole(0, 63)
}
