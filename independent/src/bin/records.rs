//! Makes calls over records of any bytes through another program, and compares
//! what each answers and leaves with this program's own account of it.
//!
//!     records CASES SEED PROGRAM WORDS..
//!
//! The other program reads calls and writes what they left, as `host/driver.c`
//! does.

use independent::calls::{made, Answered, Call, Left, Lent};
use independent::generator::cases::Cases;
use independent::record::Record;
use independent::settings::Settings;
use independent::words::{words, wrong};
use std::collections::BTreeMap;
use std::io::{Read, Write};
use std::process::{Command, Stdio};

const USAGE: &str = "records CASES SEED PROGRAM WORDS..";

/// The bytes of what the other program says before the record.
const SAID: usize = 168;

/// The number of a call and its name.
fn numbered(call: &Call) -> (u32, &'static str) {
    match call {
        Call::Start { .. } => (0, "start"),
        Call::StartDefault => (1, "start_default"),
        Call::Change(_) => (2, "change"),
        Call::Block { .. } => (3, "block"),
        Call::Reset(_) => (4, "reset"),
        Call::Meter => (5, "meter"),
        Call::Cut(..) => (6, "cut"),
        Call::Midi(_) => (8, "midi"),
        Call::Night { .. } => (9, "night"),
    }
}

fn bytes_of<T: Copy, const SIZE: usize>(numbers: &[T], bytes: fn(T) -> [u8; SIZE]) -> Vec<u8> {
    numbers.iter().flat_map(|&number| bytes(number)).collect()
}

/// What is lent beside the record, and what a call is told.
#[derive(Default)]
struct Asked {
    number: u32,
    settings: [u32; 6],
    listed: u32,
    longs: [u64; 2],
    /// Samples, bytes of a keyboard or intervals: how many, and as bytes.
    length: usize,
    sent: Vec<u8>,
    lent: Lent,
}

impl Asked {
    fn of(call: &Call) -> Asked {
        let mut asked = Asked {
            lent: call.lent(),
            ..Asked::default()
        };
        asked.send(call.samples(), i16::to_le_bytes);
        match call {
            // A start's sample rate stands in the place of a block's number.
            Call::Start {
                hertz,
                settings,
                listed,
                intervals,
                ..
            } => {
                (asked.number, asked.settings) = (*hertz, in_order(settings));
                asked.listed = *listed;
                asked.send(intervals, i32::to_le_bytes);
            }
            Call::Change(settings) => asked.settings = in_order(settings),
            Call::Block { number, .. } => asked.number = (*number).into(),
            Call::Night { first, size, .. } => {
                asked.number = (*first).into();
                // The length of its blocks stands in the place of a recording's.
                asked.longs[0] = *size;
            }
            Call::Cut(length, k) => asked.longs = [*length, *k],
            Call::Midi(bytes) => asked.send(bytes, u8::to_le_bytes),
            _ => {}
        }
        asked
    }

    fn send<T: Copy, const SIZE: usize>(&mut self, numbers: &[T], bytes: fn(T) -> [u8; SIZE]) {
        (self.length, self.sent) = (numbers.len(), bytes_of(numbers, bytes));
    }

    /// As the other program reads it, around these bytes of a record.
    fn around(&self, record: &[u8], call: u32) -> Vec<u8> {
        let Lent { outs, store } = &self.lent;
        let lengths = [self.length, store.len()].map(|length| length as u32);
        let rooms = outs.each_ref().map(|out| out.len() as u32);
        let words = [
            &[call, self.number][..],
            &lengths,
            &rooms,
            &self.settings,
            &[self.listed, 0],
        ];
        [
            bytes_of(&words.concat(), u32::to_le_bytes),
            bytes_of(&self.longs, u64::to_le_bytes),
            record.to_vec(),
            self.sent.clone(),
            bytes_of(&outs.concat(), i16::to_le_bytes),
            bytes_of(store, u32::to_le_bytes),
        ]
        .concat()
    }
}

/// In the order of a record.
fn in_order(settings: &Settings) -> [u32; 6] {
    [
        settings.scale,
        settings.eps,
        settings.decay,
        settings.floor,
        settings.mode,
        settings.channel,
    ]
}

/// The bytes of what the other program says, by their place.
struct Said([u8; SAID]);

impl Said {
    fn some<const SIZE: usize>(&self, at: usize) -> [u8; SIZE] {
        self.0[at..at + SIZE].try_into().expect("so many bytes")
    }

    fn half(&self, at: usize) -> u16 {
        u16::from_le_bytes(self.some(at))
    }

    fn word(&self, at: usize) -> u32 {
        u32::from_le_bytes(self.some(at))
    }

    fn long(&self, at: usize) -> u64 {
        u64::from_le_bytes(self.some(at))
    }

    /// `struct daxfolin_answer` at this place.
    fn answer(&self, at: usize) -> Answered {
        let [written, repeated, dropped] = [4, 6, 8].map(|more| self.half(at + more).into());
        let [pitched, strayed] = [12, 16].map(|more| self.word(at + more).into());
        Answered {
            number: self.word(at),
            counts: [written, repeated, dropped, pitched, strayed],
            list: [20, 24].map(|more| self.word(at + more)),
        }
    }

    /// `struct daxfolin_night_answer` at the beginning.
    fn night(&self) -> Left {
        Left {
            answer: Answered {
                number: self.word(0),
                counts: [16, 24, 32, 40, 48].map(|at| self.long(at)),
                list: [84, 88].map(|at| self.word(at)),
            },
            refused: self.half(4),
            taken: self.long(8),
            again: self.answer(56),
            ..Left::default()
        }
    }

    /// What any other call answers, behind it.
    fn other(&self) -> Left {
        Left {
            answer: self.answer(96),
            state: self.word(124),
            figures: [128, 132, 136, 140].map(|at| f32::from_bits(self.word(at))),
            stretch: [self.long(144), self.long(152)],
            ..Left::default()
        }
    }
}

/// What the other program says that the call left, as long in every part as what is right, and whether it touched anything else.
fn said(from: &mut impl Read, call: &Call, right: &Left) -> std::io::Result<(Left, bool)> {
    let mut said = Said([0; SAID]);
    from.read_exact(&mut said.0)?;
    let mut left = match call {
        Call::Night { .. } => said.night(),
        _ => said.other(),
    };
    left.record = part(from, right.record.len(), |[byte]| byte)?;
    for (out, right) in left.lent.outs.iter_mut().zip(&right.lent.outs) {
        *out = part(from, right.len(), i16::from_le_bytes)?;
    }
    left.lent.store = part(from, right.lent.store.len(), u32::from_le_bytes)?;
    Ok((left, said.long(160) != 0))
}

/// The next so many numbers.
fn part<T, const SIZE: usize>(
    from: &mut impl Read,
    length: usize,
    number: fn([u8; SIZE]) -> T,
) -> std::io::Result<Vec<T>> {
    let mut bytes = vec![0; length * SIZE];
    from.read_exact(&mut bytes)?;
    let numbers = bytes.chunks_exact(SIZE);
    let numbers = numbers.map(|bytes| number(bytes.try_into().unwrap()));
    Ok(numbers.collect())
}

fn main() {
    let words = words(USAGE);
    let [cases, seed, program, rest @ ..] = &words[..] else {
        wrong(USAGE)
    };
    let whole = |word: &String| word.parse::<u64>().unwrap_or_else(|_| wrong(USAGE));
    let (cases, mut source) = (whole(cases), Cases::seeded(whole(seed)));
    let mut other = Command::new(program)
        .args(rest)
        .stdin(Stdio::piped())
        .stdout(Stdio::piped())
        .spawn()
        .expect("the other program starts");
    let mut to = other.stdin.take().expect("its standard input");
    let mut from = other.stdout.take().expect("its standard output");
    let mut seen: BTreeMap<(&str, u32), u64> = BTreeMap::new();
    let mut good = 0;
    for case in 0..cases {
        let (bytes, call) = source.case();
        let right = made(&bytes, &call);
        let (number, name) = numbered(&call);
        to.write_all(&Asked::of(&call).around(&bytes, number))
            .expect("the call is sent");
        to.flush().expect("the call is sent");
        let (left, touched) = said(&mut from, &call, &right).expect("the call is answered");
        assert!(
            !touched,
            "case {case}: something else was touched by {call:?}"
        );
        if left != right {
            panic!(
                "case {case}: {call:?}\n{:?}\nleft {left:?}\nright {right:?}",
                Record::of_bytes(&bytes)
            );
        }
        let answer = match call {
            Call::Meter => right.state,
            _ => right.answer.number,
        };
        *seen.entry((name, answer)).or_default() += 1;
        good += u64::from(Record::of_bytes(&bytes).is_good());
    }
    drop(to);
    assert!(other.wait().expect("the other program ends").success());
    for ((call, answer), count) in seen {
        println!("{call}\t{answer}\t{count}");
    }
    println!("{cases} calls compared, {good} of them over good records");
}
