//! Tunes a take once more, and holds what was made of it to that, sample by
//! sample.

use independent::check::{Difference, Player};
use independent::settings::Settings;
use independent::smf::{song, Choice, Key, Wrong};
use independent::wanted::Wanted;
use independent::wave::take;
use independent::words::wrong;
use std::ffi::{OsStr, OsString};
use std::fs::{self, File};
use std::io::{self, BufReader, IsTerminal, Read, Seek, SeekFrom};
use std::os::unix::ffi::OsStrExt;
use std::path::{Path, PathBuf};
use std::process::exit;
use std::time::{Duration, Instant};

const USAGE: &str = "check IN.wav OUT.wav [scale=N] [eps=N] [decay=N] [floor=N] [voice=N].. [midi=FILE [channel=N] [track=N] [transpose=N] [offset=MS] [octave=nearest|exact]]";
/// How many samples are played between two looks at the files.
const STRETCH: usize = 1 << 16;
/// The statuses: a file or a setting is refused, a file cannot be read, and the
/// files are not what they should be.
const REFUSED: i32 = 2;
const UNREAD: i32 = 3;
const DIFFERS: i32 = 6;

fn main() {
    let words: Vec<OsString> = std::env::args_os().skip(1).collect();
    if words.first().is_some_and(|word| word == "--help") {
        println!("usage: {USAGE}");
        return;
    }
    let [from, out, options @ ..] = &words[..] else {
        wrong(USAGE)
    };
    let asked = asked(options);
    let mut sung = Wave::open(Path::new(from));
    let (hertz, count) = (sung.hertz, sung.count);
    let mut player = player(&asked, hertz);
    let names: Vec<PathBuf> = (0..=asked.intervals.len())
        .map(|voice| named(Path::new(out), voice))
        .collect();
    let mut files: Vec<Wave> = names.iter().map(|name| Wave::open(name)).collect();
    for file in &files {
        if (file.hertz, file.count) != (hertz, count) {
            differs(&format!(
                "{}: {} samples at {}, and the take has {count} at {hertz}",
                shown(&file.name),
                file.count,
                file.hertz
            ));
        }
    }
    let mut progress = Progress::begin(count);
    for from in (0..count).step_by(STRETCH) {
        let length = STRETCH.min(count - from);
        let samples = sung.samples(length);
        let outputs: Vec<Vec<i16>> = files.iter_mut().map(|file| file.samples(length)).collect();
        if let Some(found) = player.first_difference(&samples, &outputs) {
            progress.end();
            differs(&line(&names[found.file], found, hertz));
        }
        progress.show(from + length);
    }
    progress.end();
    let voices = match asked.intervals.len() {
        0 => String::new(),
        1 => ", and those of 1 voice".to_string(),
        count => format!(", and those of {count} voices"),
    };
    println!("equal: all {count} samples{voices}");
}

/// How a take was tuned.
struct Asked {
    settings: Settings,
    intervals: Vec<i32>,
    /// The MIDI file that it was tuned to, what of it, and whether its keys are
    /// meant as they are.
    midi: Option<PathBuf>,
    choice: Choice,
    exact: bool,
}

/// What words say, the default where one says nothing.
fn asked(words: &[OsString]) -> Asked {
    let mut asked = Asked {
        settings: Settings::DEFAULT,
        intervals: Vec::new(),
        midi: None,
        choice: Choice::default(),
        exact: false,
    };
    for word in words {
        let bytes = word.as_bytes();
        let Some(at) = bytes.iter().position(|&byte| byte == b'=') else {
            wrong(USAGE)
        };
        let (name, value) = (&bytes[..at], OsStr::from_bytes(&bytes[at + 1..]));
        let number = || -> i64 {
            let number = value.to_str().and_then(|text| text.parse().ok());
            number.unwrap_or_else(|| wrong(USAGE))
        };
        let whole = || u32::try_from(number()).unwrap_or(u32::MAX);
        let signed = || i32::try_from(number()).unwrap_or(i32::MAX);
        match name {
            b"scale" => asked.settings.scale = whole(),
            b"eps" => asked.settings.eps = whole(),
            b"decay" => asked.settings.decay = whole(),
            b"floor" => asked.settings.floor = whole(),
            b"voice" => asked.intervals.push(signed()),
            b"midi" => asked.midi = Some(value.into()),
            b"channel" => asked.choice.channel = Some(whole() as u8),
            b"track" => asked.choice.track = Some(whole()),
            b"transpose" => asked.choice.transpose = signed(),
            b"offset" => asked.choice.offset = number(),
            b"octave" if value == "exact" || value == "nearest" => asked.exact = value == "exact",
            _ => wrong(USAGE),
        }
    }
    asked
}

/// The player that tunes as was asked.
fn player(asked: &Asked, hertz: u32) -> Player {
    let (settings, intervals) = (asked.settings, &asked.intervals);
    let player = match &asked.midi {
        None => Player::start(hertz, settings, intervals),
        Some(name) => {
            let keys = keys(name, hertz, &asked.choice);
            let wanted = match asked.exact {
                true => Wanted::exact(keys),
                false => Wanted::nearest(keys, hertz, settings),
            };
            Player::by_keys(hertz, settings, intervals, wanted)
        }
    };
    player.unwrap_or_else(|number| refused("the settings", number))
}

/// The keys that a file plays.
fn keys(name: &Path, hertz: u32, choice: &Choice) -> Vec<Key> {
    let file = fs::read(name).unwrap_or_else(|error| unread(name, &error));
    match song(&file) {
        Ok(song) => song.line(hertz, choice).keys,
        Err(Wrong { number, at }) => {
            let why = format!("byte {at}: {number}, refused by the independent program");
            eprintln!("daxfolin check: {}: {why}", shown(name));
            exit(UNREAD)
        }
    }
}

/// OUT.wav, and its voices OUT-1.wav, OUT-2.wav and OUT-3.wav.
fn named(out: &Path, voice: usize) -> PathBuf {
    if voice == 0 {
        return out.to_path_buf();
    }
    let mut name = out.file_stem().unwrap_or_default().to_os_string();
    name.push(format!("-{voice}"));
    if let Some(ending) = out.extension() {
        name.push(".");
        name.push(ending);
    }
    out.with_file_name(name)
}

/// A file's name for people. One with control characters, or that is no text,
/// is quoted as a shell takes it.
fn shown(name: &Path) -> String {
    let quoted = |byte: &u8| match byte {
        b'\'' | b'\\' => format!("\\{}", *byte as char),
        b' '..=b'~' => (*byte as char).to_string(),
        _ => format!("\\{byte:03o}"),
    };
    match name.to_str() {
        Some(text) if !text.chars().any(char::is_control) => text.to_string(),
        _ => {
            let bytes = name.as_os_str().as_bytes();
            format!("$'{}'", bytes.iter().map(quoted).collect::<String>())
        }
    }
}

fn line(name: &Path, found: Difference, hertz: u32) -> String {
    let Difference {
        sample,
        is,
        should_be,
        ..
    } = found;
    let seconds = sample as f64 / f64::from(hertz);
    let name = shown(name);
    format!("{name}: sample {sample} ({seconds:.6} s) is {is} and should be {should_be}")
}

fn differs(what: &str) -> ! {
    println!("not equal: {what}");
    exit(DIFFERS)
}

fn refused(what: &str, number: usize) -> ! {
    println!("{number}");
    eprintln!("daxfolin check: {what}: {number}, refused by the independent program too");
    exit(REFUSED)
}

fn unread(name: &Path, error: &io::Error) -> ! {
    eprintln!("daxfolin check: {}: {error}", shown(name));
    exit(UNREAD)
}

/// The samples of a file, one after the other.
struct Wave {
    name: PathBuf,
    hertz: u32,
    count: usize,
    from: BufReader<File>,
}

impl Wave {
    fn open(name: &Path) -> Wave {
        let failed = |error: io::Error| -> ! { unread(name, &error) };
        let bytes = fs::read(name).unwrap_or_else(|error| failed(error));
        let found = take(&bytes);
        let found = found.unwrap_or_else(|number| refused(&shown(name), number as usize));
        let mut from = BufReader::new(File::open(name).unwrap_or_else(|error| failed(error)));
        if let Err(error) = from.seek(SeekFrom::Start(found.at)) {
            failed(error)
        }
        Wave {
            name: name.to_path_buf(),
            hertz: found.hertz,
            count: found.count as usize,
            from,
        }
    }

    /// The next samples.
    fn samples(&mut self, count: usize) -> Vec<i16> {
        let mut bytes = vec![0; 2 * count];
        if let Err(error) = self.from.read_exact(&mut bytes) {
            unread(&self.name, &error)
        }
        let pairs = bytes.chunks_exact(2);
        pairs
            .map(|pair| i16::from_le_bytes([pair[0], pair[1]]))
            .collect()
    }
}

/// How far it is, on a terminal, if it takes longer than two seconds.
struct Progress {
    begun: Instant,
    count: usize,
    shown: bool,
}

impl Progress {
    fn begin(count: usize) -> Progress {
        Progress {
            begun: Instant::now(),
            count,
            shown: false,
        }
    }

    fn show(&mut self, done: usize) {
        let passed = self.begun.elapsed();
        if passed < Duration::from_secs(2) || !io::stderr().is_terminal() {
            return;
        }
        let left = passed.as_secs_f64() * (self.count - done) as f64 / done as f64;
        let share = 100 * done / self.count;
        eprint!("\r\x1b[Kdaxfolin check: {share} %, {left:.0} s left");
        self.shown = true;
    }

    fn end(&mut self) {
        if self.shown {
            eprint!("\r\x1b[K");
        }
    }
}
