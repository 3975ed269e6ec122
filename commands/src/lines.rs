//! The line program's input, for the list of the notes sung and for backing voices: lines are read here, by the rules of documents 01 and
//! 02, and what they ask for are proved calls. Lines that cannot be read and calls that are refused change nothing.

use daxfolin::{no_voices, Settings, Tuner, CD, LONGEST_BLOCK, MOST_ROWS, ROW, TAKEN};
use std::io::{self, BufRead};

/// The most bytes of a line before its end.
const LONGEST: usize = 8192;

/// Gives every line of an input to a call, without its end, which the last one may lack. Of a line that is too long no more is kept than
/// shows that.
pub fn each<E>(
    mut input: impl BufRead,
    failed: impl Fn(io::Error) -> E,
    mut call: impl FnMut(&[u8]) -> Result<(), E>,
) -> Result<(), E> {
    let mut line = Vec::new();
    loop {
        let come = match input.fill_buf() {
            Err(error) if error.kind() == io::ErrorKind::Interrupted => continue,
            come => come.map_err(&failed)?,
        };
        if come.is_empty() {
            break;
        }
        let end = come.iter().position(|&byte| byte == b'\n');
        let part = &come[..end.unwrap_or(come.len())];
        let room = LONGEST + 1 - line.len();
        line.extend_from_slice(&part[..part.len().min(room)]);
        let used = part.len() + usize::from(end.is_some());
        input.consume(used);
        if end.is_some() {
            call(&line)?;
            line.clear();
        }
    }
    match line.is_empty() {
        true => Ok(()),
        false => call(&line),
    }
}

/// What a line asks for.
#[derive(Debug, PartialEq)]
pub enum Asked {
    /// With these settings, at this sample rate.
    Start(Settings, u32),
    /// To these settings: a change, a mode or a channel.
    Change(Settings),
    Midi(Vec<u8>),
    Block(u16, Vec<i16>),
    Reset,
}

/// The word of a line and the fields behind it. None of a line that is too long.
fn parted(line: &[u8]) -> Option<(&[u8], Vec<&[u8]>)> {
    let mut fields = line.split(|&byte| byte == b'\t');
    let word = fields.next()?;
    (line.len() <= LONGEST).then(|| (word, fields.collect()))
}

/// What a line asks for while these settings are in force. None of one that cannot be read.
pub fn asked(line: &[u8], now: Settings) -> Option<Asked> {
    let (word, fields) = parted(line)?;
    let numbers = || fields.iter().map(|field| number(field));
    match (word, fields.len()) {
        (b"start" | b"change", 4) | (b"start", 5) => {
            let numbers = numbers().collect::<Option<Vec<u32>>>()?;
            let unless = match word {
                b"start" => Settings::default(),
                _ => now,
            };
            let settings = Settings {
                scale: numbers[0],
                eps: numbers[1],
                decay: numbers[2],
                floor: numbers[3],
                ..unless
            };
            Some(match word {
                b"start" => Asked::Start(settings, *numbers.get(4).unwrap_or(&CD)),
                _ => Asked::Change(settings),
            })
        }
        (b"mode", 1) => Some(Asked::Change(Settings {
            mode: number(fields[0])?,
            ..now
        })),
        (b"channel", 1) => Some(Asked::Change(Settings {
            channel: number(fields[0])?,
            ..now
        })),
        (b"midi", 1..) => {
            let bytes = numbers().map(|number| u8::try_from(number?).ok());
            Some(Asked::Midi(bytes.collect::<Option<_>>()?))
        }
        (b"block", 1..) => {
            let place = u16::try_from(number(fields[0])?).ok()?;
            Some(Asked::Block(place, samples(&fields[1..])?))
        }
        (b"reset", 0) => Some(Asked::Reset),
        _ => None,
    }
}

/// The intervals of voices on a line of its own word, `voices`. None of another line, and of one that cannot be read.
pub fn intervals(line: &[u8]) -> Option<Vec<i32>> {
    match parted(line)? {
        (b"voices", fields) => Some(samples(&fields)?.into_iter().map(i32::from).collect()),
        _ => None,
    }
}

/// Digits, at least one, with zeros before them or without.
fn number(field: &[u8]) -> Option<u32> {
    let text = std::str::from_utf8(field).ok()?;
    let digits = text.bytes().all(|byte| byte.is_ascii_digit());
    match digits && !text.is_empty() {
        true => format!("0{}", text.trim_start_matches('0')).parse().ok(),
        false => None,
    }
}

fn samples(fields: &[&[u8]]) -> Option<Vec<i16>> {
    fields.iter().map(|field| sample(field)).collect()
}

/// A minus may stand before the digits of a sample.
fn sample(field: &[u8]) -> Option<i16> {
    let (sign, digits) = match field {
        [b'-', digits @ ..] => (-1, digits),
        digits => (1, digits),
    };
    i16::try_from(sign * i64::from(number(digits)?)).ok()
}

/// A tuner that takes lines, and the list of its take.
pub struct Takes {
    tuner: Tuner,
    settings: Settings,
    store: Vec<u32>,
}

/// The program opens with the default settings.
impl Default for Takes {
    fn default() -> Takes {
        let (settings, store) = (Settings::default(), vec![0; ROW * MOST_ROWS]);
        let (number, tuner) = Tuner::start(CD, settings, true, &[], &store);
        assert_eq!(number, TAKEN, "the default start is taken");
        Takes {
            tuner,
            settings,
            store,
        }
    }
}

impl Takes {
    /// Takes a line. Where it begins another take, the rows of the one that ended.
    pub fn line(&mut self, line: &[u8]) -> Option<String> {
        match asked(line, self.settings)? {
            Asked::Start(settings, hertz) => self.start(settings, hertz),
            Asked::Reset => {
                let rows = self.rows();
                let number = self.tuner.reset(&self.store);
                (number == TAKEN).then_some(rows)
            }
            Asked::Block(number, samples) => {
                let (out, store) = (&mut [0; LONGEST_BLOCK], &mut self.store);
                self.tuner
                    .block_with(number, &samples, out, no_voices(), store);
                None
            }
            Asked::Midi(bytes) => {
                self.tuner.midi(&bytes);
                None
            }
            Asked::Change(settings) => {
                if self.tuner.change(settings) == TAKEN {
                    self.settings = settings;
                }
                None
            }
        }
    }

    /// A start that is refused leaves the old tuner, as the line program does.
    fn start(&mut self, settings: Settings, hertz: u32) -> Option<String> {
        let (number, tuner) = Tuner::start(hertz, settings, true, &[], &self.store);
        if number != TAKEN {
            return None;
        }
        let rows = self.rows();
        (self.tuner, self.settings) = (tuner, settings);
        Some(rows)
    }

    /// The rows of the take so far, a line each, and a line that counts them.
    pub fn rows(&self) -> String {
        let (rows, left) = self.tuner.rows();
        let mut text = String::new();
        for row in self.store.chunks_exact(ROW).take(rows as usize) {
            text += &format!("{}\t{}\t{}\n", row[0], row[1], row[2]);
        }
        text + &format!("end\t{rows}\t{left}\n")
    }
}

#[cfg(test)]
mod tests {
    use super::*;

    /// In force: scale, eps, decay, floor, mode and channel.
    const NOW: Settings = settings([5, 6, 7, 8, 1, 9]);

    const fn settings([scale, eps, decay, floor, mode, channel]: [u32; 6]) -> Settings {
        Settings {
            scale,
            eps,
            decay,
            floor,
            mode,
            channel,
        }
    }

    fn asked(line: &[u8]) -> Option<Asked> {
        super::asked(line, NOW)
    }

    #[test]
    fn lines_that_can_be_read() {
        let start = |hertz| Asked::Start(settings([1, 2, 3, 4, 0, 0]), hertz);
        let change = |to| Asked::Change(settings(to));
        for (line, right) in [
            ("start\t1\t2\t3\t4", start(CD)),
            ("start\t1\t2\t3\t4\t48000", start(48_000)),
            (
                "change\t0\t4294967295\t0003\t4",
                change([0, u32::MAX, 3, 4, 1, 9]),
            ),
            ("mode\t0", change([5, 6, 7, 8, 0, 9])),
            ("channel\t16", change([5, 6, 7, 8, 1, 16])),
            ("midi\t0\t255\t0144", Asked::Midi(vec![0, 255, 144])),
            ("block\t65535", Asked::Block(65_535, vec![])),
            (
                "block\t0\t-0\t-007\t-32768\t32767",
                Asked::Block(0, vec![0, -7, i16::MIN, i16::MAX]),
            ),
            ("reset", Asked::Reset),
        ] {
            assert_eq!(asked(line.as_bytes()), Some(right), "{line}");
        }
        let zeros = format!("mode\t{}", "0".repeat(LONGEST - 5));
        assert_eq!(asked(zeros.as_bytes()), Some(change([5, 6, 7, 8, 0, 9])));
    }

    #[test]
    fn lines_of_voices() {
        for (line, right) in [
            ("voices", Some(vec![])),
            ("voices\t12\t-012\t-0", Some(vec![12, -12, 0])),
            ("voices\t-32768\t13\t1\t2", Some(vec![-32_768, 13, 1, 2])),
            ("voices\t", None),
            ("voices\t+4", None),
            ("voices\t32768", None),
            ("voice\t4", None),
            ("block\t0\t4", None),
        ] {
            assert_eq!(intervals(line.as_bytes()), right, "{line}");
            assert!(right.is_none() || asked(line.as_bytes()).is_none());
        }
        let long = format!("voices{}", "\t1".repeat(LONGEST / 2));
        assert_eq!(intervals(long.as_bytes()), None);
    }

    #[test]
    fn lines_that_cannot() {
        for line in [
            "",
            "start",
            "start\t1\t2\t3",
            "start\t1\t2\t3\t",
            "start\t1\t2\t3\t4\t",
            "start\t1\t2\t3\t4\t5\t6",
            "change\t1\t2\t3\t4\t48000",
            "mode",
            "mode\t",
            "mode\t-1",
            "mode\t4294967296",
            "mode\t99999999999999999999999",
            "channel\t1\t2",
            "midi",
            "midi\t",
            "midi\t256",
            "midi\t-1",
            "block",
            "block\t",
            "block\t65536",
            "block\t0\t",
            "block\t0\t32768",
            "block\t0\t-32769",
            "block\t0\t-",
            "block\t0\t--1",
            "block\t0\t+1",
            "block\t0\t1\r",
            "block\t0\t1\t\t2",
            "block\t-0",
            "reset\t",
            " reset",
            "RESET",
            "block\t0\t\u{663}",
        ] {
            assert_eq!(asked(line.as_bytes()), None, "{line}");
        }
        assert_eq!(asked(b"block\t0\t\xff"), None);
        let zeros = format!("mode\t{}", "0".repeat(LONGEST - 4));
        assert_eq!(asked(zeros.as_bytes()), None);
    }

    #[test]
    fn lines_as_they_come() {
        let input = [&b"a\n\nbc\n"[..], &vec![b'x'; 20_000], b"\nlast"].concat();
        for size in [1, 7, 8_192, 1 << 16] {
            let mut lines: Vec<Vec<u8>> = Vec::new();
            let input = io::BufReader::with_capacity(size, &input[..]);
            let each = each(
                input,
                |error| error,
                |line| {
                    lines.push(line.to_vec());
                    Ok(())
                },
            );
            assert!(each.is_ok());
            let long = vec![b'x'; LONGEST + 1];
            assert_eq!(lines, [&b"a"[..], b"", b"bc", &long, b"last"]);
        }
        assert!(each(&b""[..], |error| error, |_| panic!("no line")).is_ok());
    }
}
