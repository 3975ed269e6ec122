//! A scripted take as records of calls, for a program that has no lines to
//! read: every call, every refusal, repeats and resets, in both programs.
//!
//! A record has 1054 bytes: byte 0 is the call; 2, 4 and 6 are a block's
//! number, length and room, low byte first; from 8 on a start's sample rate,
//! then scale, eps, decay and floor; from 28 on the samples, each with 32768
//! added. Where settings are given, mode and channel stand in the places of
//! number and room. Bytes of the keyboard stand in the place of samples, as
//! many as the length says. Of a night the length of its blocks stands in the
//! place of the sample rate.

use crate::night::Night;
use crate::rules::{cut, POSITION_UNIT};
use crate::settings::Settings;
use crate::statistics::Statistics;
use crate::table::{CD, FILM};
use crate::tuner::{Answer, Counts, Meter, Tuner};

pub const RECORD: usize = 1054;
const MOST: usize = 513;
/// Where the rate stands, where the settings behind it, and where the samples.
const HERTZ: usize = 8;
const SETTINGS: usize = 12;
const SAMPLES: usize = 28;

/// A sample rate, then scale, eps, decay and floor.
type Numbers = [u32; 5];
/// All twelve notes, at 44,100 and decay 0. The take opens with the defaults, and
/// sends this later.
const ALL: Numbers = [CD, 4095, 100, 0, 100];
/// A alone, so that cycles are repeated and dropped.
const SOME: Numbers = [CD, 0b0010_0000_0000, 150, 100, 50];

/// What is asked of the tuner.
#[derive(Clone, Copy, Debug, PartialEq, Eq)]
pub enum Call {
    Start = 0,
    StartDefault = 1,
    Change = 2,
    Reset = 3,
    Block = 4,
    Meter = 5,
    Cut = 6,
    /// The position is put too far behind: the record is out of range.
    Spoil = 7,
    /// The count is put near the take's limit, its phases kept.
    Age = 8,
    /// The position is put level.
    Mend = 9,
    Midi = 10,
    /// A block over the record lent, with the answers of `Block`.
    BlockLent = 11,
    /// A night over the record lent.
    Night = 12,
}

/// One record.
pub fn record(call: Call, number: u16, room: u16, numbers: Numbers, samples: &[i16]) -> Vec<u8> {
    let mut bytes = vec![0u8; RECORD];
    bytes[0] = call as u8;
    bytes[2..4].copy_from_slice(&number.to_le_bytes());
    bytes[4..6].copy_from_slice(&(samples.len() as u16).to_le_bytes());
    bytes[6..8].copy_from_slice(&room.to_le_bytes());
    for (place, number) in bytes[HERTZ..SAMPLES].chunks_exact_mut(4).zip(numbers) {
        place.copy_from_slice(&number.to_le_bytes());
    }
    for (place, &sample) in bytes[SAMPLES..].chunks_exact_mut(2).zip(samples) {
        let level = (i32::from(sample) + 32_768) as u16;
        place.copy_from_slice(&level.to_le_bytes());
    }
    bytes
}

/// One record of bytes of the keyboard.
fn midi_record(midi: &[u8]) -> Vec<u8> {
    let mut bytes = record(Call::Midi, 0, 0, [0; 5], &[]);
    bytes[4..6].copy_from_slice(&(midi.len() as u16).to_le_bytes());
    bytes[SAMPLES..SAMPLES + midi.len()].copy_from_slice(midi);
    bytes
}

fn word(bytes: &[u8], at: usize) -> u16 {
    u16::from_le_bytes([bytes[at], bytes[at + 1]])
}

fn sample(bytes: &[u8], place: usize) -> i16 {
    (i32::from(word(bytes, SAMPLES + 2 * place)) - 32_768) as i16
}

fn long(bytes: &[u8], at: usize) -> u32 {
    u32::from_le_bytes(bytes[at..at + 4].try_into().unwrap())
}

fn settings(bytes: &[u8]) -> Settings {
    Settings {
        mode: u32::from(word(bytes, 2)),
        channel: u32::from(word(bytes, 6)),
        ..Settings::of([0, 4, 8, 12].map(|place| long(bytes, SETTINGS + place)))
    }
}

fn said(answer: Answer, counts: Counts) -> String {
    let Counts {
        written,
        repeated,
        dropped,
        ..
    } = counts;
    format!("{} {written} {repeated} {dropped} ", answer.number())
}

/// A night's answer; without a block given again, zeros in its place.
fn told(night: Night) -> String {
    let Counts {
        written,
        repeated,
        dropped,
        ..
    } = night.counts;
    let again = match night.again {
        Some(counts) => said(Answer::GivenAgain, counts),
        None => "0 0 0 0 ".into(),
    };
    let (number, refused) = (night.answer.number(), night.refused.unwrap_or(0));
    let taken = night.taken;
    format!("{number} {refused} {taken} {written} {repeated} {dropped} {again}")
}

/// What a block or a night is given: its samples, and an output of as much room
/// as it says.
fn lent(bytes: &[u8]) -> (Vec<i16>, Vec<i16>) {
    let most = |at: usize| usize::from(word(bytes, at)).min(MOST);
    let samples = (0..most(4)).map(|place| sample(bytes, place)).collect();
    (samples, vec![7; most(6)])
}

fn levels(samples: &[i16]) -> String {
    samples.iter().map(|&sample| level(sample)).collect()
}

fn level(sample: i16) -> String {
    format!("{} ", i32::from(sample) + 32_768)
}

/// Plays one record, and gives its line.
pub fn play(tuner: &mut Tuner, bytes: &[u8]) -> String {
    let none = Counts::default();
    match bytes[0] {
        0 => {
            let (answer, started) = Tuner::start(long(bytes, HERTZ), settings(bytes));
            *tuner = started;
            said(answer, none)
        }
        1 => {
            *tuner = Tuner::default_start();
            said(Answer::Taken, none)
        }
        2 => said(tuner.change(settings(bytes)), none),
        3 => said(tuner.reset(), none),
        4 | 11 => {
            let (samples, mut output) = lent(bytes);
            let seen = &mut Statistics::default();
            let (answer, counts) = tuner.block(word(bytes, 2), &samples, &mut output, seen);
            said(answer, counts) + &levels(&output)
        }
        5 => match tuner.meter() {
            Meter::Searching => "0 ".into(),
            Meter::Locking(_) => "1 ".into(),
            Meter::Pitched(_) => "2 ".into(),
            Meter::Refused => "3 ".into(),
        },
        6 => {
            let recording: Vec<i16> = (0..MOST).map(|place| sample(bytes, place)).collect();
            let part = cut(&recording, usize::from(word(bytes, 2)));
            let first = part.first().map_or(String::new(), |&sample| level(sample));
            format!("{} {first}", part.len())
        }
        7 => {
            tuner.put_behind(1_000 * POSITION_UNIT + 1);
            String::new()
        }
        8 => {
            tuner.put_near_the_limit();
            String::new()
        }
        9 => {
            tuner.put_behind(0);
            String::new()
        }
        10 => {
            let length = usize::from(word(bytes, 4)).min(MOST);
            let midi = &bytes[SAMPLES..SAMPLES + length];
            said(tuner.midi(midi, &mut Statistics::default()), none)
        }
        _ => {
            let (samples, mut output) = lent(bytes);
            let (first, size) = (word(bytes, 2), long(bytes, HERTZ) as usize);
            let seen = &mut Statistics::default();
            told(tuner.night(first, size, &samples, &mut output, seen)) + &levels(&output)
        }
    }
}

/// A voice for the take: two partials whose period wanders, in whole numbers.
fn voice(at: usize) -> i16 {
    let wave = |period: i64, loud: i64| {
        let phase = at as i64 % period;
        let half = period / 2;
        let rise = if phase < half { phase } else { period - phase };
        loud * (4 * rise - period) / period
    };
    let period = if at % 20_000 < 5_000 { 223 } else { 165 };
    (wave(period, 9_000) + wave(period / 2, 2_500)) as i16
}

fn stretch(from: usize, length: usize) -> Vec<i16> {
    (from..from + length).map(voice).collect()
}

/// The scripted take: every call, every refusal, repeats and resets.
pub fn script() -> Vec<u8> {
    let mut bytes = Vec::new();
    let mut add = |call, number, room, numbers, samples: &[i16]| {
        bytes.extend(record(call, number, room, numbers, samples))
    };
    let none: &[i16] = &[];
    // Each refusal of a setting: the first bad one is named.
    let refused: [Numbers; 7] = [
        [CD, 0, 100, 0, 100],
        [CD, 4096, 410, 256, 0],
        [CD, 4095, 410, 0, 100],
        [CD, 4095, 410, 256, 0],
        [CD, 4095, 409, 256, 0],
        [CD, 4095, 409, 255, 0],
        [CD, 4095, 100, 0, 1_000_001],
    ];
    add(Call::Meter, 0, 0, ALL, none);
    add(Call::Block, 65_535, 512, ALL, &stretch(0, 512));
    let mut at = 0;
    for number in 0..48u16 {
        let length = [512, 511, 512, 1, 300, 512, 77, 512][usize::from(number % 8)];
        let samples = stretch(at, length);
        add(
            Call::Block,
            number,
            length as u16 + number % 2,
            ALL,
            &samples,
        );
        add(Call::Meter, 0, 0, ALL, none);
        at += length;
        if number % 7 == 3 {
            // The last block again, among refusals and changes.
            add(Call::Block, number, 513, ALL, &samples);
            add(Call::Block, number, 513, ALL, &samples[1..]);
            add(Call::Block, number + 1, 513, ALL, none);
            add(Call::Block, number + 1, 513, ALL, &stretch(at, 513));
            add(Call::Block, number + 1, 9, ALL, &stretch(at, 10));
            add(Call::Block, number + 2, 512, ALL, &stretch(at, 10));
            add(Call::Change, 0, 0, refused[usize::from(number / 7)], none);
            add(
                Call::Change,
                0,
                0,
                if number == 3 { ALL } else { SOME },
                none,
            );
            add(Call::Block, number, 512, ALL, &samples);
        }
        if number % 16 == 9 {
            // A record out of range, and mended.
            add(Call::Spoil, 0, 0, ALL, none);
            add(Call::Block, number + 1, 512, ALL, none);
            add(Call::Change, 0, 0, [CD, 0, 0, 0, 0], none);
            add(Call::Reset, 0, 0, ALL, none);
            add(Call::Meter, 0, 0, ALL, none);
            add(Call::Mend, 0, 0, ALL, none);
        }
    }
    add(Call::Reset, 0, 0, ALL, none);
    // Eight samples at a time, so that the meter is seen locking.
    for number in 0..100u16 {
        add(
            Call::Block,
            number,
            8,
            ALL,
            &stretch(8 * usize::from(number), 8),
        );
        add(Call::Meter, 0, 0, ALL, none);
    }
    add(Call::Reset, 0, 0, ALL, none);
    add(Call::Block, 0, 512, ALL, &stretch(0, 512));
    add(Call::Age, 0, 0, ALL, none);
    add(Call::Block, 1, 512, ALL, &stretch(512, 512));
    add(Call::Block, 0, 512, ALL, &stretch(0, 512));
    add(Call::Block, 1, 512, ALL, &stretch(512, 10));
    add(Call::Start, 0, 0, SOME, none);
    add(Call::Block, 0, 512, ALL, &stretch(100, 512));
    for settings in refused {
        add(Call::Start, 0, 0, settings, none);
    }
    add(Call::Block, 0, 512, ALL, &stretch(100, 512));
    for number in [0, 1, 2, 65_535] {
        add(Call::Cut, number, 0, ALL, &stretch(7, 513));
    }
    add(Call::StartDefault, 0, 0, ALL, none);
    add(Call::Meter, 0, 0, ALL, none);
    bytes.extend(played());
    bytes.extend(filmed());
    bytes.extend(lent_blocks());
    bytes.extend(nights());
    bytes
}

/// The take goes on in keyboard mode, on channel 3: keys near and far, none,
/// cut messages, a new channel, refusals and a reset.
fn played() -> Vec<u8> {
    let settings = |call, mode, channel| record(call, mode, channel, ALL, &[]);
    let mut records = vec![settings(Call::Start, 1, 3)];
    let between: [&[u8]; 12] = [
        &[],
        &[147, 53, 100],
        &[58, 90, 53],
        &[0],
        &[57, 248, 64, 57, 0],
        &[131, 50, 0, 147, 31, 1],
        &[101, 1],
        &[40, 1, 70, 1],
        &[144, 55, 100, 240, 55, 1, 247, 55],
        &[179, 123, 0, 195, 55, 55],
        &[147, 56],
        &[100],
    ];
    for number in 0..36u16 {
        let samples = stretch(400 * usize::from(number), 400);
        records.push(record(Call::Block, number, 400, ALL, &samples));
        records.push(record(Call::Meter, 0, 0, ALL, &[]));
        records.push(midi_record(between[usize::from(number) % between.len()]));
        match number {
            10 => records.push(settings(Call::Change, 0, 3)),
            12 | 21 => records.push(settings(Call::Change, 1, 3)),
            20 => records.push(settings(Call::Change, 1, 4)),
            24 => {
                records.push(settings(Call::Change, 2, 3));
                records.push(settings(Call::Change, 2, 16));
                // Sent again after all of this.
                records.push(record(Call::Block, number, 400, ALL, &samples));
            }
            30 => {
                records.push(settings(Call::Spoil, 0, 0));
                records.push(midi_record(&[147, 60, 100]));
                records.push(settings(Call::Change, 2, 16));
                records.push(settings(Call::Mend, 0, 0));
            }
            _ => {}
        }
    }
    records.push(settings(Call::Reset, 0, 0));
    records.push(record(Call::Block, 0, 8, ALL, &[1, 2, 3, 4, 5, 6, 7, 8]));
    records.push(settings(Call::Start, 2, 16));
    records.push(settings(Call::Start, 2, 15));
    records.push(settings(Call::Meter, 0, 0));
    records.concat()
}

/// The take goes on at 48,000, which a change, a reset and bytes of the keyboard
/// keep; then back at 44,100, by a start that is refused, whose rate comes before
/// its settings, and by one that is taken.
fn filmed() -> Vec<u8> {
    const AT_FILM: Numbers = [FILM, 4095, 100, 0, 100];
    let sung = |numbers: std::ops::Range<u16>| -> Vec<u8> {
        let block = |number: u16| {
            let samples = stretch(400 * usize::from(number), 400);
            let block = record(Call::Block, number, 400, ALL, &samples);
            [block, record(Call::Meter, 0, 0, ALL, &[])].concat()
        };
        numbers.flat_map(block).collect()
    };
    let start = |numbers| record(Call::Start, 0, 0, numbers, &[]);
    let mut records = vec![
        start(AT_FILM),
        sung(0..9),
        record(Call::Change, 0, 0, [CD, 4095, 150, 128, 50], &[]),
        sung(9..14),
        record(Call::Reset, 0, 0, ALL, &[]),
        sung(0..6),
        record(Call::Change, 1, 0, ALL, &[]),
        midi_record(&[144, 56, 100]),
        sung(6..10),
        midi_record(&[101, 100]),
        sung(10..12),
    ];
    for hertz in [0, 44_101, 48_001, u32::MAX] {
        records.push(start([hertz, 4095, 100, 0, 100]));
        // Each setting bad behind it.
        records.push(start([hertz, 0, 100, 0, 100]));
        records.push(start([hertz, 4095, 410, 0, 100]));
        records.push(start([hertz, 4095, 100, 256, 100]));
        records.push(start([hertz, 4095, 100, 0, 0]));
        records.push(record(Call::Start, 2, 16, [hertz, 0, 410, 256, 0], &[]));
    }
    records.extend([
        sung(0..6),
        start(AT_FILM),
        sung(0..3),
        start([FILM, 4095, 410, 256, 0]),
        sung(0..6),
        start(AT_FILM),
        record(Call::StartDefault, 0, 0, AT_FILM, &[]),
        sung(0..6),
        start(AT_FILM),
        start(ALL),
        sung(0..6),
    ]);
    records.concat()
}

/// The take goes on over the record lent, in turns with the calls by value: blocks
/// taken, given again with changes and refusals between, and refused with 2 to 7
/// and with 9.
fn lent_blocks() -> Vec<u8> {
    let none: &[i16] = &[];
    let call = |call, numbers| record(call, 0, 0, numbers, none);
    let block = |number, room, samples: &[i16]| record(Call::BlockLent, number, room, ALL, samples);
    let mut records = vec![call(Call::Start, SOME)];
    let mut at = 0;
    for number in 0..24u16 {
        let length = [512, 300, 1, 511][usize::from(number % 4)];
        let samples = stretch(at, length);
        let by = [Call::BlockLent, Call::BlockLent, Call::Block][usize::from(number % 3)];
        let room = length as u16 + number % 2;
        records.push(record(by, number, room, ALL, &samples));
        records.push(call(Call::Meter, ALL));
        at += length;
        if number % 5 == 3 {
            records.extend([
                block(number, 513, &samples),
                block(number, 513, &samples[1..]),
                block(number + 1, 513, none),
                block(number + 1, 513, &stretch(at, 513)),
                block(number + 1, 9, &stretch(at, 10)),
                block(number + 2, 512, &stretch(at, 10)),
                call(Call::Change, if number == 8 { ALL } else { SOME }),
                record(Call::Block, number, 512, ALL, &samples),
                block(number, 512, &samples),
            ]);
        }
        if number == 11 {
            records.extend([
                call(Call::Spoil, ALL),
                block(number, 512, &samples),
                block(number + 1, 0, none),
                call(Call::Mend, ALL),
            ]);
        }
    }
    records.extend([
        call(Call::Age, ALL),
        block(24, 512, &stretch(at, 512)),
        block(24, 8, &stretch(at, 8)),
        block(24, 8, &stretch(at, 8)),
        block(25, 512, &stretch(at + 8, 60)),
    ]);
    records.concat()
}

/// The take goes on by nights, each of some blocks: taken, begun by a block given
/// again, and refused with 3 to 7 and with 9. Single blocks stand between, by value
/// and over the record lent.
fn nights() -> Vec<u8> {
    const AT_FILM: Numbers = [FILM, 0b0010_0000_0000, 150, 100, 50];
    let none: &[i16] = &[];
    let call = |call, numbers| record(call, 0, 0, numbers, none);
    let night = |number, size, room, samples: &[i16]| {
        record(Call::Night, number, room, [size, 0, 0, 0, 0], samples)
    };
    let mut records = Vec::new();
    // Up to 5,000 the voice is below the note and cycles are repeated; behind that it is
    // above, and they are dropped.
    for (start, from) in [(SOME, 0), (AT_FILM, 5_000)] {
        let sung = |at: usize, length| stretch(from + at, length);
        records.extend([
            call(Call::Start, start),
            // Six blocks, the last one short; it is given again, and more behind it.
            night(0, 100, 513, &sung(0, 513)),
            night(5, 13, 513, &sung(500, 513)),
            call(Call::Meter, ALL),
            // One block, as long as a block may be; a short one; many of one sample each.
            night(45, 512, 512, &sung(1_013, 512)),
            night(46, 512, 20, &sung(1_525, 19)),
            night(47, 1, 41, &sung(1_544, 40)),
            record(Call::Block, 87, 512, ALL, &sung(1_584, 512)),
            night(87, 512, 513, &sung(1_584, 512)),
            record(Call::BlockLent, 87, 512, ALL, &sung(1_584, 512)),
            // No block at all.
            night(88, 512, 0, none),
            night(9, 1, 30, none),
        ]);
        // Refused before the first block: 3 goes before 4.
        for size in [0, 513, u32::MAX] {
            records.push(night(88, size, 513, &sung(2_096, 513)));
            records.push(night(88, size, 9, &sung(2_096, 10)));
        }
        records.extend([
            night(88, 64, 512, &sung(2_096, 513)),
            night(88, 64, 0, &sung(2_096, 1)),
            // Refused at it: a number that is neither next nor last, and the last
            // one with other samples.
            night(89, 64, 513, &sung(2_096, 513)),
            night(86, 64, 513, &sung(2_096, 513)),
            night(87, 64, 513, &sung(2_096, 513)),
            night(87, 512, 513, &sung(1_583, 513)),
            call(Call::Spoil, ALL),
            night(88, 64, 513, &sung(2_096, 513)),
            night(88, 0, 9, &sung(2_096, 10)),
            call(Call::Mend, ALL),
        ]);
        // A long voice, the last block again at the head of each night.
        let (mut at, mut number) = (2_096, 88u16);
        for _ in 0..16 {
            records.push(night(number, 128, 512, &sung(at, 512)));
            records.push(call(Call::Meter, ALL));
            (at, number) = (at + 384, number + 3);
        }
        // Near the take's limit: some blocks are taken, then one is refused.
        records.extend([
            call(Call::Age, ALL),
            night(number, 128, 512, &sung(at, 512)),
            night(number + 1, 8, 513, &sung(at + 128, 120)),
            night(number + 1, 8, 513, &sung(at + 128, 120)),
            call(Call::Meter, ALL),
        ]);
    }
    records.concat()
}
