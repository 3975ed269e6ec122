//! Lines at the edge of what can be read, on both sides of it.

use super::random::Random;
use super::script::Moment;
use super::spoilt::{filled_line, SPOILT};
use crate::lines::LONGEST_LINE;
use crate::rules::LONGEST_BLOCK;

/// A line of each record that would be taken, NEXT being the block's number.
/// The block comes last, since its line grows with that number. A start without
/// its rate is what is left of this one when it is cut.
const RECORDS: [&str; 7] = [
    "start\t4095\t100\t0\t100\t48000",
    "change\t4095\t100\t0\t100",
    "reset",
    "mode\t1",
    "channel\t0",
    MIDI,
    BLOCK,
];
const MIDI: &str = "midi\t144\t60\t100";
const BLOCK: &str = "block\tNEXT\t12\t-345";

/// Lines of the keyboard that cannot be read.
const SPOILT_KEYBOARD: &[&[u8]] = &[
    b"mode",
    b"mode\t",
    b"mode\t\t1",
    b"mode\t0\t1",
    b"mode 1",
    b"mode\tkeyboard",
    b"channel",
    b"channel\t",
    b"channel\t0\t0",
    b"channel\t-1",
    b"channels\t0",
    b"midi",
    b"midi\t",
    b"midi\t\t144",
    b"midi\t144\t\t100",
    b"midi\t144\t60\t100\t",
    b"midi\t256",
    b"midi\t-0",
    b"midi\t144\t60\t-100",
    b"midi\t144\t60\t300",
    b"midi\t0x90\t60\t100",
    b"midi 144 60 100",
    b"Midi\t144\t60\t100",
    b"midi\t\x90\x3C\x64",
];

/// A field written in another way.
type Odd = fn(&str) -> String;

const ODD_WORDS: &[Odd] = &[
    |word| word.to_uppercase(),
    |word| word[..1].to_uppercase() + &word[1..],
    |word| word[1..].to_string(),
    |word| format!("{word}s"),
    |word| format!("{word}{word}"),
    |word| format!("un{word}"),
    |word| format!("-{word}"),
    |word| format!(" {word}"),
    |word| format!("{word} "),
    |word| format!("{word} 0"),
    |word| format!("\t{word}"),
    |word| format!("{word}\t"),
    |word| format!("{word}\t0"),
    |word| format!("\r{word}"),
    |word| format!("{word}\r"),
    |word| format!("\0{word}"),
    |word| format!("{word}\0"),
    |word| format!("\u{FEFF}{word}"),
];

/// Words in another's place; what they make may be read.
const OTHER_WORDS: &[&str] = &[
    "", "0", "stop", "start", "change", "block", "reset", "mode", "channel", "midi",
];

const ODD_NUMBERS: &[Odd] = &[
    // Signs.
    |number| format!("-{number}"),
    |number| format!("+{number}"),
    |number| format!("--{number}"),
    |number| format!("-+{number}"),
    |number| format!("{number}-"),
    |number| format!("{number}+"),
    |number| format!("0-{number}"),
    |number| format!("- {number}"),
    // Zeros before it, as many as one likes.
    |number| zeros_before(number, 1),
    |number| zeros_before(number, 40),
    |number| zeros_before(number, 4_000),
    |number| format!("0{number}"),
    // Tabs, ends of a line, and what is none.
    |number| format!("\t{number}"),
    |number| format!("{number}\t"),
    |number| format!("{number}\t\t"),
    |number| format!("{number}\t0"),
    |number| format!(" {number}"),
    |number| format!("{number} "),
    |number| format!("\r{number}"),
    |number| format!("{number}\r"),
    |number| format!("\0{number}"),
    |number| format!("{number}\0"),
    |number| format!("{number}\u{B}"),
    // The bytes beside the digits, and other ways to write a number.
    |number| format!("{number}/"),
    |number| format!("{number}:"),
    |number| format!("{number}.0"),
    |number| format!("{number},0"),
    |number| format!("{number}e0"),
    |number| format!("0x{number}"),
    |number| format!("{number}u16"),
    // Numbers that are this one once their high bits are lost.
    |number| added(number, 1 << 16),
    |number| added(number, 1 << 32),
    |number| added(number, 1 << 64),
    |number| added(number, (1 << 64) * 1_000),
    |number| added(number, (1 << 64) * 10_000_000_000),
    |number| added(number, 1 << 126),
    |number| added(number, -(1 << 16)),
    |number| added(number, -(1 << 32)),
    |number| added(number, -(1 << 64)),
    // Ten to so high a power that 32, then 64, low bits of it are 0.
    |number| format!("1{number:0>39}"),
    |number| format!("1{number:0>64}"),
];

/// At each limit and one past it.
const OTHER_NUMBERS: &[&str] = &[
    "",
    "-",
    "+",
    "0",
    "1",
    "2",
    "15",
    "16",
    "127",
    "128",
    "255",
    "256",
    "409",
    "410",
    "4096",
    "32767",
    "32768",
    "44100",
    "44101",
    "47999",
    "-32768",
    "-32769",
    "65535",
    "65536",
    "-65535",
    "1000000",
    "1000001",
    "2147483647",
    "2147483648",
    "-2147483649",
    "4294967295",
    "4294967296",
    "9223372036854775807",
    "9223372036854775808",
    "-9223372036854775809",
    "18446744073709551615",
    "18446744073709551616",
    "340282366920938463463374607431768211455",
    "340282366920938463463374607431768211456",
    "\u{661}",
    "zero",
];

/// A hostile line that is not left to chance.
enum Hostile {
    Plain(&'static [u8]),
    /// A record, the place of a field in it, and the way to write that field.
    Oddly(&'static str, usize, Odd),
    /// A record, the place of a field in it, and the field to stand there.
    Other(&'static str, usize, &'static str),
    /// Zeros alone.
    Zeros(usize),
    /// A record, the place of the number that has zeros before it, and the
    /// line's length.
    Long(String, usize, usize),
    /// A record and how much of it is left.
    Cut(&'static str, usize),
}

impl Hostile {
    fn line(&self, next: u16) -> Vec<u8> {
        let line = match *self {
            Hostile::Plain(line) => return line.to_vec(),
            Hostile::Zeros(length) => return filled_line(b"", length),
            Hostile::Oddly(record, place, odd) => altered(&numbered(record, next), place, odd),
            Hostile::Other(record, place, other) => {
                altered(&numbered(record, next), place, |_| other.to_string())
            }
            Hostile::Long(ref record, place, length) => {
                let line = numbered(record, next);
                let zeros = length - line.len();
                altered(&line, place, |number| zeros_before(number, zeros))
            }
            Hostile::Cut(record, length) => numbered(record, next)[..length].to_string(),
        };
        line.into_bytes()
    }
}

fn numbered(record: &str, next: u16) -> String {
    record.replace("NEXT", &next.to_string())
}

fn altered(line: &str, place: usize, alter: impl Fn(&str) -> String) -> String {
    let mut fields: Vec<String> = line.split('\t').map(String::from).collect();
    fields[place] = alter(&fields[place]);
    fields.join("\t")
}

fn zeros_before(number: &str, zeros: usize) -> String {
    let (sign, digits) = number.split_at(usize::from(number.starts_with('-')));
    [sign, &"0".repeat(zeros), digits].concat()
}

fn added(number: &str, more: i128) -> String {
    let number: i128 = number.parse().expect("a record has numbers in its fields");
    (number + more).to_string()
}

/// Every hostile line that is not left to chance.
fn corpus(next: u16) -> Vec<Hostile> {
    let spoilt = SPOILT.iter().chain(SPOILT_KEYBOARD);
    let mut corpus: Vec<Hostile> = spoilt.map(|line| Hostile::Plain(line)).collect();
    for record in RECORDS {
        for place in 0..record.split('\t').count() {
            let (odd, others) = match place {
                0 => (ODD_WORDS, OTHER_WORDS),
                _ => (ODD_NUMBERS, OTHER_NUMBERS),
            };
            corpus.extend(odd.iter().map(|&odd| Hostile::Oddly(record, place, odd)));
            let others = others.iter();
            corpus.extend(others.map(|&other| Hostile::Other(record, place, other)));
        }
    }
    let full = ["block\tNEXT", &"\t-12345".repeat(LONGEST_BLOCK)].concat();
    let many = ["midi\t144", &"\t6\t7\t6\t0".repeat(1_022)].concat();
    for length in LONGEST_LINE - 2..=LONGEST_LINE + 2 {
        corpus.push(Hostile::Zeros(length));
        let records = [
            (RECORDS[1], 4),
            (MIDI, 3),
            (&many, 1),
            (BLOCK, 1),
            (BLOCK, 3),
            (&full, 1),
        ];
        for (record, place) in records {
            corpus.push(Hostile::Long(record.to_string(), place, length));
        }
    }
    for record in RECORDS {
        let lengths = 0..numbered(record, next).len();
        corpus.extend(lengths.map(|length| Hostile::Cut(record, length)));
    }
    corpus
}

/// One line of the corpus after the other, each followed by one by chance.
pub fn hostile_line(random: &mut Random, moment: &Moment) -> Option<Vec<u8>> {
    let &Moment { place, next, .. } = moment;
    if !place.is_multiple_of(2) {
        return Some(line_by_chance(random, next));
    }
    let corpus = corpus(next);
    Some(corpus[place / 2 % corpus.len()].line(next))
}

/// Any bytes, ends of lines among them; pieces of records; or a record that
/// would be taken, but for one byte.
fn line_by_chance(random: &mut Random, next: u16) -> Vec<u8> {
    const PIECES: &[&str] = &[
        "start", "change", "block", "reset", "mode", "channel", "midi", "\t", "\t", "\t", "\t",
        "\t", "0", "7", "144", "48000", "65535", "-", " ", "\r", "\0", "\n",
    ];
    match random.whole(0, 2) {
        0 => {
            let length = random.whole(0, 200);
            (0..length).map(|_| random.next() as u8).collect()
        }
        1 => {
            let pieces = random.whole(1, 16);
            let pieces = (0..pieces).flat_map(|_| random.one_of(PIECES).bytes());
            pieces.collect()
        }
        _ => {
            let mut line = numbered(random.one_of(&RECORDS), next).into_bytes();
            let place = random.whole(0, line.len() - 1);
            match random.whole(0, 3) {
                0 => line[place] = random.next() as u8,
                1 => line[place] = random.one_of(b"\t\r\n\0 -+09"),
                2 => line.insert(place, random.one_of(b"\t\r\n\0 -+09")),
                _ => drop(line.remove(place)),
            }
            line
        }
    }
}

/// Lines that are too long; one in a hundred, the first among them, has a
/// million bytes.
pub fn endless_line(random: &mut Random, moment: &Moment) -> Option<Vec<u8>> {
    let length = match moment.place % 100 {
        0 => 1_000_000,
        _ => LONGEST_LINE + random.whole(1, 2_000),
    };
    let place = random.whole(1, 3);
    Some(Hostile::Long(BLOCK.to_string(), place, length).line(moment.next))
}
