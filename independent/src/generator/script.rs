//! A script: the sound of a kind cut into blocks, with what else is sent.

use super::cuts::write_cuts;
use super::filming::{any_rate, RATES};
use super::kinds::Kind;
use super::random::Random;
use super::sound::sing;
use super::spoilt::{filled_line, spoilt_line};
use crate::lines::{Record, LONGEST_LINE};
use crate::rules::LONGEST_BLOCK;
use crate::table::CD;
use crate::tuner::{Answer, Tuner};
use std::io::{self, Write};

/// Writes the script of a kind and a seed that has at least so many samples
/// in blocks to be taken. With a length, those blocks have just that one, unless
/// the kind cuts its takes itself.
pub fn write_script(
    kind: &Kind,
    seed: u64,
    samples: usize,
    length: Option<usize>,
    to: impl Write,
) -> io::Result<()> {
    if kind.cut {
        return write_cuts(kind, seed, samples, to);
    }
    let lengths = length.map_or(kind.lengths, |length| (length, length));
    Script::of(kind, seed, to).write(samples, lengths)
}

/// Chance for the rates on start lines alone, so that all else of a script is
/// what it would be without them; other kinds have others.
pub(super) fn rates_of(kind: &Kind, seed: u64) -> Random {
    let bytes = kind.name.bytes().map(u64::from);
    Random::seeded(bytes.fold(!seed, |mixed, byte| mixed.rotate_left(8) ^ byte))
}

/// So many choices are there of a block that changes nothing.
pub const IN_VAIN: usize = 70;

/// The line of this block.
pub fn block_line(number: u16, samples: &[i16]) -> Vec<u8> {
    let fields = samples.iter().map(|sample| format!("\t{sample}"));
    format!("block\t{number}{}", fields.collect::<String>()).into_bytes()
}

/// What stands when a block was sent and something may follow it.
pub struct Moment {
    /// The place among such moments.
    pub place: usize,
    /// The number that would be taken next.
    pub next: u16,
    /// The period with which the passage that is sung began, in samples.
    pub period: f64,
    /// The sample rate in force.
    pub hertz: u32,
    /// The takes so far, the opening among them, and the seed.
    pub takes: usize,
    pub seed: u64,
}

/// The same in memory.
pub fn script(kind: &Kind, seed: u64, samples: usize) -> Vec<u8> {
    let mut bytes = Vec::new();
    write_script(kind, seed, samples, None, &mut bytes).expect("memory takes every byte");
    bytes
}

pub struct Script<'a, W> {
    kind: &'a Kind,
    seed: u64,
    pub random: Random,
    rates: Random,
    pub to: W,
    /// Sung and not yet sent.
    sung: Vec<i16>,
    phase: f64,
    /// The period with which the last passage began.
    period: f64,
    /// The place of the next passage; seeds begin at other ones.
    passages: usize,
    /// How often something might follow a block.
    followed: usize,
    /// The sample rate of the last start that was taken.
    hertz: u32,
    /// The takes so far.
    takes: usize,
    /// The last block that was taken.
    last: Option<(u16, Vec<i16>)>,
}

impl<'a, W: Write> Script<'a, W> {
    /// One of which nothing is sent yet.
    pub fn of(kind: &'a Kind, seed: u64, to: W) -> Script<'a, W> {
        let mut random = Random::seeded(seed);
        Script {
            kind,
            seed,
            passages: random.whole(0, 99),
            random,
            rates: rates_of(kind, seed),
            to,
            sung: Vec::new(),
            phase: 0.0,
            period: 0.0,
            followed: 0,
            hertz: CD,
            takes: 1,
            last: None,
        }
    }

    /// Writes it as it is sung, in blocks of such lengths.
    pub fn write(mut self, samples: usize, lengths: (usize, usize)) -> io::Result<()> {
        self.open()?;
        let mut sent = 0;
        while sent < samples {
            let length = self.random.whole(lengths.0, lengths.1);
            self.next_block(length)?;
            sent += length;
            self.between_blocks()?;
        }
        self.close()
    }

    /// One script in four begins with the settings that the program has,
    /// unless its kind has its own or none.
    fn open(&mut self) -> io::Result<()> {
        match self.kind.settings {
            Some(settings) => self.send(format!("start\t{settings}").as_bytes())?,
            None if self.kind.bare || self.random.chance(250) => {}
            None => self.send_settings("start")?,
        }
        match self.kind.keyboard {
            true => self.send(b"mode\t1"),
            false => Ok(()),
        }
    }

    /// One script in two lacks its last line's end.
    fn close(&mut self) -> io::Result<()> {
        let number = self.next();
        write!(self.to, "block\t{number}\t-0\t007\t-00032768")?;
        if self.random.chance(500) {
            writeln!(self.to)?;
        }
        self.to.flush()
    }

    fn between_blocks(&mut self) -> io::Result<()> {
        if self.random.chance(self.kind.changes) {
            self.send_settings("change")?;
        }
        if self.random.chance(self.kind.resets) {
            self.send(b"reset")?;
        }
        if self.random.chance(self.kind.trouble) {
            self.trouble()?;
        }
        // Of a kind without such blocks chance is left as it is.
        if self.kind.in_vain > 0 && self.random.chance(self.kind.in_vain) {
            let which = self.random.whole(0, IN_VAIN - 1);
            self.send_in_vain(which)?;
        }
        while self.random.chance(self.kind.unreadable) {
            let line = spoilt_line(&mut self.random);
            self.send(&line)?;
        }
        if let Some(following) = self.kind.following {
            let moment = Moment {
                place: self.followed,
                next: self.next(),
                period: self.period,
                hertz: self.hertz,
                takes: self.takes,
                seed: self.seed,
            };
            self.followed += 1;
            if let Some(line) = following(&mut self.random, &moment) {
                self.send(&line)?;
            }
        }
        Ok(())
    }

    /// The next samples of the sound.
    fn hear(&mut self, length: usize) -> Vec<i16> {
        while self.sung.len() < length {
            let passage = (self.kind.singing)(&mut self.random, self.passages);
            self.passages += 1;
            self.period = passage.from;
            let more = sing(&passage, &mut self.phase, &mut self.random);
            self.sung.extend(more);
        }
        self.sung.drain(..length).collect()
    }

    fn next_block(&mut self, length: usize) -> io::Result<()> {
        let samples = self.hear(length);
        self.send_block(self.next(), &samples)
    }

    /// The number that will be taken next.
    fn next(&self) -> u16 {
        match &self.last {
            Some((number, _)) => number.wrapping_add(1),
            None => 0,
        }
    }

    /// Something that is not the next block.
    fn trouble(&mut self) -> io::Result<()> {
        let Some((_, samples)) = self.last.clone() else {
            return Ok(());
        };
        match self.random.whole(0, 99) {
            which @ 0..IN_VAIN => self.send_in_vain(which),
            IN_VAIN..=74 => {
                // As long as a line may be, and its only sample is 0.
                let beginning = format!("block\t{}\t", self.next());
                let line = filled_line(beginning.as_bytes(), LONGEST_LINE);
                self.send(&line)
            }
            75..=84 => self.send_settings("change"),
            85..=89 => self.send_refused_settings("change"),
            90..=94 => self.send_refused_settings("start"),
            95..=96 => self.send_settings("start"),
            97..=98 => self.send(b"reset"),
            _ => {
                // The old samples as a first block are no repeat.
                self.send(b"reset")?;
                self.send_block(0, &samples)
            }
        }
    }

    /// A block that changes nothing: the last one again, or one to be refused.
    pub fn send_in_vain(&mut self, which: usize) -> io::Result<()> {
        let Some((number, samples)) = self.last.clone() else {
            return Ok(());
        };
        let next = self.next();
        match which {
            0..=29 => self.send_block(number, &samples),
            30..=39 => {
                let mut other = samples;
                let place = self.random.whole(0, other.len() - 1);
                other[place] ^= 1;
                self.send_block(number, &other)
            }
            40..=44 => self.send_block(number, &samples[1..]),
            45..=49 => {
                let mut longer = samples;
                longer.push(0);
                self.send_block(number, &longer)
            }
            50..=54 => {
                let any = self.random.next() as u16;
                let other = if any == next { number } else { any };
                self.send_block(other, &samples)
            }
            55..=59 => {
                let far = [number.wrapping_sub(1), number.wrapping_add(2)];
                let other = self.random.one_of(&far);
                self.send_block(other, &samples)
            }
            60..=64 => {
                let number = self.random.one_of(&[number, next, 65_535]);
                self.send_block(number, &[])
            }
            _ => {
                let length = self.random.one_of(&[513, 600, 2_000]);
                let number = self.random.one_of(&[number, next, 65_535]);
                self.send_block(number, &vec![7; length])
            }
        }
    }

    fn send_settings(&mut self, word: &str) -> io::Result<()> {
        let random = &mut self.random;
        let note = 1 << random.whole(0, 11);
        let some = random.whole(1, 4_095);
        let scale = random.one_of(&[4_095, 4_095, 0b1010_1011_0101, note, some]);
        let some = random.whole(0, 409);
        let eps = random.one_of(&[0, 50, 100, 200, 409, 409, some]);
        let some = random.whole(0, 255);
        let decay = random.one_of(&[0, 0, 128, 255, some]);
        let some = random.whole(1, 1_000_000);
        let floor = random.one_of(&[1, 1, 10, 100, 10_000, some]);
        let line = format!("{word}\t{scale}\t{eps}\t{decay}\t{floor}");
        let rate = self.rates.one_of(RATES);
        self.send_with_rate(&line, rate)
    }

    /// Sends a start with this rate behind it, and a change as it is.
    fn send_with_rate(&mut self, line: &str, rate: &str) -> io::Result<()> {
        let rate = if line.starts_with("start") { rate } else { "" };
        self.send(format!("{line}{rate}").as_bytes())
    }

    /// Settings that can be read, one or more of them out of range.
    pub fn send_refused_settings(&mut self, word: &str) -> io::Result<()> {
        let settings = self.random.one_of(&[
            "0\t100\t0\t100",
            "4096\t100\t0\t100",
            "8191\t100\t0\t100",
            "4095\t410\t0\t100",
            "4095\t100\t256\t100",
            "4095\t100\t0\t0",
            "4095\t100\t0\t1000001",
            "4294967295\t4294967295\t4294967295\t4294967295",
            "0000000000000000000000000\t0\t0\t0",
        ]);
        let rate = any_rate(&mut self.rates);
        self.send_with_rate(&format!("{word}\t{settings}"), rate)
    }

    fn send_block(&mut self, number: u16, samples: &[i16]) -> io::Result<()> {
        self.send(&block_line(number, samples))
    }

    fn begin_take(&mut self) {
        self.takes += 1;
        self.last = None;
    }

    /// Sends lines and keeps account of the takes and the last block that was taken.
    pub fn send(&mut self, lines: &[u8]) -> io::Result<()> {
        for line in lines.split(|&byte| byte == b'\n') {
            match Record::on(line) {
                Some(Record::Block(number, samples)) => {
                    let fits = (1..=LONGEST_BLOCK).contains(&samples.len());
                    if number == self.next() && fits {
                        self.last = Some((number, samples));
                    }
                }
                Some(Record::Start(hertz, settings)) => {
                    let hertz = hertz.unwrap_or(CD);
                    if Tuner::answer_to_start(hertz, &settings) == Answer::Taken {
                        self.hertz = hertz;
                        self.begin_take();
                    }
                }
                Some(Record::Reset) => self.begin_take(),
                _ => {}
            }
        }
        self.to.write_all(lines)?;
        writeln!(self.to)
    }
}
