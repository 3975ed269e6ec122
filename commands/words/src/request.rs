//! What a command is asked to do, once its words are right.

use crate::coded;
use crate::end::shown;
use crate::parse::{whole, Given};
use crate::scales;
use crate::table::{Command, OCTAVES, OF_MIDI};
use std::collections::HashMap;
use std::ffi::{OsStr, OsString};
use std::path::{Component, Path, PathBuf};

/// Standard input, or standard output.
pub const DASH: &str = "-";
/// The longest time constant that a decay can have, at 44,100.
const LONGEST_SPEED: f64 = 29.0;
/// A tracking step comes every so many samples.
const STEP: f64 = 5.0;
/// The channels, the farthest that notes are moved, and the most milliseconds: more than a take has.
const CHANNELS: u32 = 16;
const FARTHEST: i64 = 127;
const LATEST: i64 = 100_000_000;
/// The widths of a page, in pixels.
const WIDTHS: std::ops::RangeInclusive<u32> = 700..=6000;

#[derive(Debug, PartialEq)]
pub enum Request {
    Tune(Tune),
    Notes(Notes),
    Report(Report),
    Picture(Picture),
    Mend(Mend),
    Check(Check),
    Night(Night),
    Lines,
}

/// How a take is tuned.
#[derive(Clone, Debug, PartialEq)]
pub struct Take {
    pub scale: u32,
    pub eps: u32,
    pub floor: u32,
    pub speed: Speed,
    /// The intervals of the voices.
    pub voices: Vec<i32>,
}

/// How fast a note is reached.
#[derive(Clone, Copy, Debug, PartialEq)]
pub enum Speed {
    Decay(u32),
    Milliseconds(f64),
}

impl Take {
    /// The decay at a sample rate: the one whose time constant is nearest.
    pub fn decay(&self, hertz: u32) -> u32 {
        match self.speed {
            Speed::Decay(decay) => decay,
            Speed::Milliseconds(time) => {
                let steps = time / 1000.0 * f64::from(hertz) / STEP;
                (256.0 * (-1.0 / steps).exp()).round().min(255.0) as u32
            }
        }
    }
}

/// A MIDI file that takes are tuned to, and what of it is played.
#[derive(Debug, PartialEq)]
pub struct Song {
    pub file: PathBuf,
    pub channel: Option<u8>,
    pub track: Option<u32>,
    pub transpose: i32,
    pub offset: i64,
    /// One of [`OCTAVES`].
    pub octave: &'static str,
}

#[derive(Debug, PartialEq)]
pub struct Tune {
    pub take: Take,
    pub song: Option<Song>,
    pub jobs: Vec<Job>,
    /// Lines name their IN.
    pub named: bool,
    pub force: bool,
    pub keep: bool,
    pub dry: bool,
    pub quiet: bool,
    pub tsv: bool,
}

#[derive(Debug, PartialEq)]
pub struct Job {
    pub from: PathBuf,
    pub to: PathBuf,
}

#[derive(Debug, PartialEq)]
pub struct Notes {
    pub take: Take,
    /// None: lines on standard input.
    pub from: Option<PathBuf>,
    /// In milliseconds.
    pub least: f64,
    pub form: Form,
}

#[derive(Clone, Debug, PartialEq, Eq)]
pub enum Form {
    Plain,
    Tsv,
    Labels,
    /// A file, which is written over one that exists or not.
    Midi {
        to: PathBuf,
        over: bool,
    },
}

#[derive(Debug, PartialEq)]
pub struct Report {
    pub take: Take,
    pub song: Option<Song>,
    /// None: lines on standard input.
    pub from: Vec<PathBuf>,
    pub tsv: bool,
}

#[derive(Debug, PartialEq)]
pub struct Picture {
    pub take: Take,
    pub song: Option<Song>,
    pub from: PathBuf,
    pub to: PathBuf,
    pub page: Page,
    pub png: bool,
    pub force: bool,
}

/// What of a take is drawn, and how wide.
#[derive(Clone, Copy, Debug, PartialEq)]
pub struct Page {
    /// In seconds.
    pub from: f64,
    /// None: to the end of the take.
    pub to: Option<f64>,
    /// In pixels.
    pub width: u32,
}

impl Default for Page {
    fn default() -> Page {
        Page {
            from: 0.0,
            to: None,
            width: 1280,
        }
    }
}

#[derive(Debug, PartialEq)]
pub struct Mend {
    pub file: PathBuf,
    pub dry: bool,
}

#[derive(Debug, PartialEq)]
pub struct Check {
    pub take: Take,
    pub song: Option<Song>,
    pub from: PathBuf,
    pub tuned: PathBuf,
}

#[derive(Debug, PartialEq)]
pub struct Night {
    pub take: Take,
    pub song: Option<Song>,
    /// The settings as they were given, for a command that has them too.
    pub words: Vec<String>,
    pub from: PathBuf,
    pub to: PathBuf,
    /// Takes at a time; none: as many as processors.
    pub jobs: Option<u32>,
    /// None: this one.
    pub machines: Vec<String>,
    pub program: Option<PathBuf>,
    pub transfer: bool,
    pub retries: u32,
    pub mend: bool,
    pub pictures: bool,
    pub again: bool,
    pub check: bool,
    pub list: bool,
    /// A job: these takes alone.
    pub takes: Option<Vec<PathBuf>>,
    pub dry: bool,
    pub quiet: bool,
    pub tsv: bool,
}

impl Request {
    /// The files that have to be there.
    pub fn inputs(&self) -> Vec<&Path> {
        let song = match self {
            Request::Tune(Tune { song, .. })
            | Request::Report(Report { song, .. })
            | Request::Check(Check { song, .. })
            | Request::Picture(Picture { song, .. })
            | Request::Night(Night { song, .. }) => song,
            _ => &None,
        };
        let song = song.iter().map(|song| &song.file);
        let inputs: Vec<&PathBuf> = match self {
            Request::Tune(tune) => tune.jobs.iter().map(|job| &job.from).collect(),
            Request::Notes(notes) => notes.from.iter().collect(),
            // one that is not there has its own line in the report
            Request::Report(report) if report.from.len() > 1 => Vec::new(),
            Request::Report(report) => report.from.iter().collect(),
            Request::Picture(picture) => vec![&picture.from],
            Request::Mend(mend) => vec![&mend.file],
            Request::Check(check) => vec![&check.from, &check.tuned],
            Request::Night(night) => vec![&night.from],
            Request::Lines => Vec::new(),
        };
        let inputs = song.chain(inputs);
        let files = inputs.filter(|file| **file != Path::new(DASH));
        files.map(PathBuf::as_path).collect()
    }
}

pub fn of(command: &Command, given: Given) -> Result<Request, String> {
    match command.name {
        "tune" => tune(&given).map(Request::Tune),
        "notes" => notes(&given).map(Request::Notes),
        "report" => report(&given).map(Request::Report),
        "picture" => picture(&given).map(Request::Picture),
        "mend" => mend(&given).map(Request::Mend),
        "check" => check(&given).map(Request::Check),
        "night" => night(&given).map(Request::Night),
        "lines" => given.files([]).map(|[]| Request::Lines),
        name => unreachable!("{name} is in the table"),
    }
}

// ---- how a take is tuned

fn take(given: &Given) -> Result<Take, String> {
    let scale = match given.value("scale") {
        None => 4095,
        Some(text) => scales::mask(text).ok_or_else(|| {
            format!("--scale is notes like C,D,E, a scale like A-minor or Am, chromatic, or a number, not '{text}'; --scale list prints all")
        })?,
    };
    Ok(Take {
        scale,
        eps: given.number("eps", 100)?,
        floor: given.number("floor", 100)?,
        speed: speed(given)?,
        voices: intervals(given)?,
    })
}

fn speed(given: &Given) -> Result<Speed, String> {
    let decay = given.number("decay", 230)?;
    match given.milliseconds("speed")? {
        None => Ok(Speed::Decay(decay)),
        Some(_) if given.has("decay") => {
            Err("--speed and --decay are two ways to say the same: give one".to_string())
        }
        Some(time) if time > LONGEST_SPEED => Err(format!(
            "--speed is 0 to {LONGEST_SPEED} milliseconds, not {time}"
        )),
        Some(time) => Ok(Speed::Milliseconds(time)),
    }
}

fn intervals(given: &Given) -> Result<Vec<i32>, String> {
    given.values("voice").into_iter().map(interval).collect()
}

/// What is past the farthest interval that a call takes is refused as that is.
fn interval(text: &str) -> Result<i32, String> {
    let farthest = i64::from(i32::MAX);
    match signed(text) {
        Some(number) => Ok(number.clamp(-farthest, farthest) as i32),
        None => Err(format!(
            "--voice is a whole number of semitones like +4 or -3, not '{text}'"
        )),
    }
}

/// A whole number, before whose digits a sign may stand.
fn signed(text: &str) -> Option<i64> {
    let (sign, digits) = match text.split_at_checked(1) {
        Some(("+", digits)) => (1, digits),
        Some(("-", digits)) => (-1, digits),
        _ => (1, text),
    };
    whole(digits).map(|number| sign * i64::from(number))
}

// ---- the line that is played

fn song(given: &Given) -> Result<Option<Song>, String> {
    let Some(file) = given.value("midi") else {
        return match OF_MIDI.iter().find(|name| given.has(name)) {
            Some(name) => Err(format!(
                "--{name} is about a MIDI file: it needs --midi FILE.mid"
            )),
            None => Ok(None),
        };
    };
    if given.has("scale") {
        return Err("--scale and --midi both say which notes are wanted: give one".to_string());
    }
    let file = named("midi", file)?;
    let transpose = between(given, "transpose", FARTHEST)? as i32;
    Ok(Some(Song {
        file,
        channel: counted(given, "channel", CHANNELS)?.map(|channel| channel as u8),
        track: counted(given, "track", u32::MAX)?,
        transpose,
        offset: between(given, "offset", LATEST)?,
        octave: octave(given)?,
    }))
}

/// The file that an option names, which is not standard input or output.
fn named(option: &str, file: &str) -> Result<PathBuf, String> {
    match file == DASH {
        true => Err(format!("--{option} needs a file, and '-' is none here")),
        false => Ok(file.into()),
    }
}

/// A number from 1 on.
fn counted(given: &Given, name: &str, most: u32) -> Result<Option<u32>, String> {
    let Some(text) = given.value(name) else {
        return Ok(None);
    };
    let number = whole(text).filter(|number| (1..=most).contains(number));
    let to = match most {
        u32::MAX => "a whole number from 1 on".to_string(),
        most => format!("1 to {most}"),
    };
    let wrong = || format!("--{name} is {to}, not '{text}'");
    number.map(Some).ok_or_else(wrong)
}

/// A whole number at most so far from 0, which it is without words.
fn between(given: &Given, name: &str, most: i64) -> Result<i64, String> {
    let text = given.value(name).unwrap_or("0");
    let number = signed(text).filter(|number| (-most..=most).contains(number));
    number.ok_or_else(|| format!("--{name} is a whole number from -{most} to {most}, not '{text}'"))
}

fn octave(given: &Given) -> Result<&'static str, String> {
    let Some(text) = given.value("octave") else {
        return Ok(OCTAVES[0]);
    };
    let octave = OCTAVES.iter().find(|octave| **octave == text);
    let wrong = || format!("--octave is {}, not '{text}'", OCTAVES.join(" or "));
    octave.copied().ok_or_else(wrong)
}

// ---- the commands

fn tune(given: &Given) -> Result<Tune, String> {
    let take = take(given)?;
    let song = song(given)?;
    let folder = given.value("output-dir").map(Path::new);
    let jobs = match folder {
        None => vec![one(given)?],
        Some(folder) => many(given, folder)?,
    };
    let to_output = jobs.iter().any(|job| job.to == Path::new(DASH));
    if to_output && !take.voices.is_empty() {
        return Err("--voice needs an OUT that is a file: each voice is written beside it".into());
    }
    if to_output && given.has("keep") {
        return Err("-k needs an OUT that is a file".into());
    }
    Ok(Tune {
        take,
        song,
        jobs,
        named: folder.is_some(),
        force: given.has("force"),
        keep: given.has("keep"),
        dry: given.has("dry-run"),
        quiet: given.has("quiet"),
        tsv: given.has("tsv"),
    })
}

fn one(given: &Given) -> Result<Job, String> {
    if given.files.len() > 2 {
        let word = shown(&given.files[2]);
        return Err(format!(
            "'{word}' is a word too many; several IN need -o DIR"
        ));
    }
    let [from, to] = given.files(["IN.wav", "OUT.wav"])?;
    let (from, to) = (from.into(), to.into());
    Ok(Job { from, to })
}

/// A job for each file, to the file of its name in a folder. No two have the same.
fn many(given: &Given, folder: &Path) -> Result<Vec<Job>, String> {
    if given.files.is_empty() {
        return Err("IN.wav is missing".to_string());
    }
    let mut places: HashMap<&OsStr, &OsString> = HashMap::new();
    let mut jobs = Vec::new();
    for file in &given.files {
        not_a_dash(file)?;
        let name = Path::new(file)
            .file_name()
            .ok_or_else(|| format!("'{}' names no file", shown(file)))?;
        if let Some(other) = places.insert(name, file) {
            let (other, file) = (shown(other), shown(file));
            return Err(format!("{other} and {file} would both be the same OUT"));
        }
        jobs.push(Job {
            from: file.into(),
            to: folder.join(name),
        });
    }
    Ok(jobs)
}

fn not_a_dash(file: &OsString) -> Result<(), String> {
    match file == DASH {
        true => Err(
            "'-' is no file here: standard input is taken by daxfolin tune - OUT.wav".to_string(),
        ),
        false => Ok(()),
    }
}

/// Files that are read, and none of them standard input.
fn files<const N: usize>(given: &Given, names: [&str; N]) -> Result<[PathBuf; N], String> {
    given.files.iter().try_for_each(not_a_dash)?;
    given.files(names).map(|files| files.map(PathBuf::from))
}

fn form(given: &Given) -> Result<Form, String> {
    let forms = ["tsv", "labels", "midi"];
    let mut forms = forms.into_iter().filter(|form| given.has(form));
    let form = forms.next();
    if let (Some(one), Some(other)) = (form, forms.next()) {
        return Err(format!("--{one} and --{other} are two forms: give one"));
    }
    let over = given.has("force");
    match (form, given.value("midi")) {
        (_, Some(to)) => named("midi", to).map(|to| Form::Midi { to, over }),
        _ if over => Err("-f is about OUT.mid: it needs --midi OUT.mid".to_string()),
        (Some("tsv"), _) => Ok(Form::Tsv),
        (Some(_), _) => Ok(Form::Labels),
        (None, _) => Ok(Form::Plain),
    }
}

fn notes(given: &Given) -> Result<Notes, String> {
    let form = form(given)?;
    let take = take(given)?;
    let from = match given.is_empty() {
        true => None,
        false => Some(files(given, ["IN.wav"])?),
    };
    Ok(Notes {
        take,
        from: from.map(|[file]| file),
        least: given.milliseconds("min")?.unwrap_or(0.0),
        form,
    })
}

fn report(given: &Given) -> Result<Report, String> {
    let take = take(given)?;
    let song = song(given)?;
    given.files.iter().try_for_each(not_a_dash)?;
    if given.files.is_empty() && !given.is_empty() {
        return Err("IN.wav is missing".to_string());
    }
    Ok(Report {
        take,
        song,
        from: given.files.iter().map(PathBuf::from).collect(),
        tsv: given.has("tsv"),
    })
}

fn picture(given: &Given) -> Result<Picture, String> {
    let take = take(given)?;
    let song = song(given)?;
    let page = page(given)?;
    let [from, to] = files(given, ["IN.wav", "OUT.svg"])?;
    if to.extension().is_some_and(|ending| ending == "png") {
        let name = shown(to.as_os_str());
        return Err(format!(
            "{name}: OUT is an SVG; give OUT.svg and --png, which writes OUT.png beside it"
        ));
    }
    Ok(Picture {
        take,
        song,
        from,
        to,
        page,
        png: given.has("png"),
        force: given.has("force"),
    })
}

fn page(given: &Given) -> Result<Page, String> {
    let from = time(given, "from")?.unwrap_or(0.0);
    let to = time(given, "to")?;
    if to.is_some_and(|to| to <= from) {
        return Err("--to is not behind --from".to_string());
    }
    let width = given.number("width", Page::default().width)?;
    if !WIDTHS.contains(&width) {
        let (least, most) = (WIDTHS.start(), WIDTHS.end());
        return Err(format!("--width is {least} to {most} pixels, not {width}"));
    }
    Ok(Page { from, to, width })
}

/// A time in seconds, or with minutes before a colon.
fn time(given: &Given, name: &str) -> Result<Option<f64>, String> {
    let Some(text) = given.value(name) else {
        return Ok(None);
    };
    let (minutes, seconds) = match text.split_once(':') {
        Some((minutes, seconds)) => (whole(minutes), seconds),
        None => (Some(0), text),
    };
    let plain = |byte: u8| byte.is_ascii_digit() || byte == b'.';
    let seconds: Option<f64> = seconds.parse().ok().filter(|_| seconds.bytes().all(plain));
    let time = minutes.zip(seconds);
    let wrong = || format!("--{name} is a time like 12.5 or 1:05, not '{text}'");
    let time = time.map(|(minutes, seconds)| 60.0 * f64::from(minutes) + seconds);
    time.map(Some).ok_or_else(wrong)
}

fn mend(given: &Given) -> Result<Mend, String> {
    let [file] = files(given, ["FILE.wav"])?;
    let dry = given.has("dry-run");
    Ok(Mend { file, dry })
}

fn check(given: &Given) -> Result<Check, String> {
    let take = take(given)?;
    let song = song(given)?;
    let [from, tuned] = files(given, ["IN.wav", "OUT.wav"])?;
    Ok(Check {
        take,
        song,
        from,
        tuned,
    })
}

fn night(given: &Given) -> Result<Night, String> {
    let take = take(given)?;
    let song = song(given)?;
    let [from, to] = files(given, ["IN_DIR", "OUT_DIR"])?;
    let machines = given.value("machines").map_or(Vec::new(), |text| {
        text.split(',').map(str::to_string).collect()
    });
    if machines.iter().any(String::is_empty) {
        return Err("--machines is names like mix1,mix2 or :,4/mix1, and one is empty".to_string());
    }
    for name in ["transfer", "program"] {
        if given.has(name) && machines.is_empty() {
            return Err(format!(
                "--{name} is about machines: it needs -S MACHINE,.."
            ));
        }
    }
    if given.has("pictures") && given.has("transfer") {
        return Err("--pictures draws on machines that have the folders, and --transfer is for others: tune with --transfer, and then run it with --pictures and without, which draws what is missing".to_string());
    }
    let takes = given.value("takes").map(|text| {
        coded::list(text)
            .filter(|takes| takes.iter().all(|take| is_below(take)))
            .ok_or_else(|| format!("--takes is a line of OUT_DIR/.night/list, not '{text}'"))
    });
    Ok(Night {
        take,
        song,
        words: given.words(&["scale", "eps", "decay", "speed", "floor", "voice"]),
        from,
        to,
        jobs: counted(given, "jobs", 100_000)?,
        machines,
        program: given.value("program").map(PathBuf::from),
        transfer: given.has("transfer"),
        retries: counted(given, "retries", 100)?.unwrap_or(3),
        mend: given.has("mend"),
        pictures: given.has("pictures"),
        again: given.has("again"),
        check: given.has("check"),
        list: given.has("list"),
        takes: takes.transpose()?,
        dry: given.has("dry-run"),
        quiet: given.has("quiet"),
        tsv: given.has("tsv"),
    })
}

/// A name that leads nowhere but down.
fn is_below(name: &Path) -> bool {
    let down = |part| matches!(part, Component::Normal(_));
    !name.as_os_str().is_empty() && name.components().all(down)
}

#[cfg(test)]
mod tests {
    use super::*;
    use crate::parse::{asked, Asked};

    fn request(words: &[&str]) -> Result<Request, String> {
        match asked(words.iter().map(OsString::from).collect()) {
            Ok(Asked::Run(command, given)) => of(command, given),
            other => panic!("{other:?}"),
        }
    }

    fn tuned(words: &[&str]) -> Tune {
        match request(&[&["tune"], words].concat()) {
            Ok(Request::Tune(tune)) => tune,
            other => panic!("{other:?}"),
        }
    }

    fn wrong(words: &[&str]) -> String {
        request(words).expect_err("wrong words")
    }

    #[test]
    fn a_speed_is_the_nearest_decay() {
        let decay = |time: &str, hertz| tuned(&["a", "b", "--speed", time]).take.decay(hertz);
        for (time, at_cd, at_film) in [
            ("0", 0, 0),
            ("0.001", 0, 0),
            ("1.06", 230, 232),
            ("4.8", 250, 251),
            ("29", 255, 255),
            ("26.6", 255, 255),
        ] {
            let decays = [44_100, 48_000].map(|hertz| decay(time, hertz));
            assert_eq!(decays, [at_cd, at_film], "{time}");
        }
        assert_eq!(tuned(&["a", "b", "--decay", "7"]).take.decay(48_000), 7);
        assert_eq!(tuned(&["a", "b"]).take.decay(44_100), 230);
        assert_eq!(
            wrong(&["tune", "a", "b", "--speed", "29.1"]),
            "--speed is 0 to 29 milliseconds, not 29.1"
        );
        assert!(wrong(&["tune", "a", "b", "--speed", "1", "--decay", "1"]).contains("give one"));
    }

    #[test]
    fn intervals() {
        for (text, right) in [
            ("0", Some(0)),
            ("+4", Some(4)),
            ("-3", Some(-3)),
            ("-012", Some(-12)),
            ("99999999999", Some(i32::MAX)),
            ("-99999999999", Some(-i32::MAX)),
            ("", None),
            ("+", None),
            ("-", None),
            ("+-4", None),
            ("4.5", None),
            ("♯4", None),
        ] {
            assert_eq!(interval(text).ok(), right, "{text}");
        }
    }

    #[test]
    fn the_line_that_is_played() {
        assert_eq!(tuned(&["a", "b"]).song, None);
        let song = |words: &[&str]| tuned(&[&["a", "b", "--midi", "m"], words].concat()).song;
        let plain = || Song {
            file: "m".into(),
            channel: None,
            track: None,
            transpose: 0,
            offset: 0,
            octave: "nearest",
        };
        assert_eq!(song(&[]), Some(plain()));
        let words = "--channel 16 --track 3 --transpose -12 --offset +250 --octave exact";
        let right = Song {
            channel: Some(16),
            track: Some(3),
            transpose: -12,
            offset: 250,
            octave: "exact",
            ..plain()
        };
        let words: Vec<&str> = words.split(' ').collect();
        assert_eq!(song(&words), Some(right));
    }

    #[test]
    fn what_is_wrong_with_the_line() {
        for name in OF_MIDI {
            let why = wrong(&["tune", "a", "b", &format!("--{name}"), "1"]);
            let right = format!("--{name} is about a MIDI file: it needs --midi FILE.mid");
            assert_eq!(why, right);
        }
        for (option, value, why) in [
            ("--channel", "0", "--channel is 1 to 16, not '0'"),
            ("--channel", "17", "--channel is 1 to 16, not '17'"),
            (
                "--track",
                "0",
                "--track is a whole number from 1 on, not '0'",
            ),
            (
                "--transpose",
                "128",
                "--transpose is a whole number from -127 to 127, not '128'",
            ),
            (
                "--transpose",
                "1.5",
                "--transpose is a whole number from -127 to 127, not '1.5'",
            ),
            (
                "--offset",
                "-100000001",
                "--offset is a whole number from -100000000 to 100000000, not '-100000001'",
            ),
            (
                "--octave",
                "lower",
                "--octave is nearest or exact, not 'lower'",
            ),
            (
                "--scale",
                "Am",
                "--scale and --midi both say which notes are wanted: give one",
            ),
        ] {
            assert_eq!(
                wrong(&["tune", "a", "b", "--midi", "m", option, value]),
                why
            );
        }
        let why = wrong(&["tune", "a", "b", "--midi", "-"]);
        assert_eq!(why, "--midi needs a file, and '-' is none here");
    }

    #[test]
    fn a_file_each_in_a_folder() {
        let tune = tuned(&["-o", "D", "x/a.wav", "b.wav"]);
        let to: Vec<_> = tune.jobs.iter().map(|job| job.to.clone()).collect();
        assert_eq!(to, [PathBuf::from("D/a.wav"), PathBuf::from("D/b.wav")]);
        assert!(tune.named && !tuned(&["a", "b"]).named);
        for (words, why) in [
            (
                &["tune", "a", "b", "c"][..],
                "'c' is a word too many; several IN need -o DIR",
            ),
            (&["tune", "-o", "D"], "IN.wav is missing"),
            (
                &["tune", "-o", "D", "x/a", "y/a"],
                "x/a and y/a would both be the same OUT",
            ),
            (&["tune", "-o", "D", ".."], "'..' names no file"),
        ] {
            assert_eq!(wrong(words), why);
        }
        assert!(wrong(&["tune", "-o", "D", "-"]).starts_with("'-' is no file here"));
    }

    #[test]
    fn a_dash_is_taken_by_tune_alone() {
        let job = &tuned(&["-", "-"]).jobs[0];
        assert_eq!((&job.from, &job.to), (&DASH.into(), &DASH.into()));
        for words in [["notes", "-"], ["report", "-"], ["mend", "-"]] {
            assert!(wrong(&words).starts_with("'-' is no file here"));
        }
        assert!(wrong(&["tune", "a", "-", "--voice", "4"]).starts_with("--voice needs"));
        assert!(wrong(&["tune", "a", "-", "-k"]).starts_with("-k needs"));
    }

    #[test]
    fn lines_where_notes_has_no_words() {
        let notes = |words: &[&str]| request(&[&["notes"], words].concat());
        assert!(matches!(
            notes(&[]),
            Ok(Request::Notes(Notes { from: None, .. }))
        ));
        assert_eq!(notes(&["--decay", "7"]), Err("IN.wav is missing".into()));
        let report = request(&["report", "--tsv"]);
        assert_eq!(report, Err("IN.wav is missing".into()));
        for (words, why) in [
            (
                ["--tsv", "--labels"].as_slice(),
                "--tsv and --labels are two forms: give one",
            ),
            (
                &["--midi", "m", "--tsv"],
                "--tsv and --midi are two forms: give one",
            ),
            (&["-f"], "-f is about OUT.mid: it needs --midi OUT.mid"),
            (
                &["--midi", "-"],
                "--midi needs a file, and '-' is none here",
            ),
        ] {
            assert_eq!(notes(&[&["a"], words].concat()), Err(why.to_string()));
        }
        for over in [false, true] {
            let force = if over { &["-f"][..] } else { &[] };
            let form = match notes(&[&["a", "--midi", "m"], force].concat()) {
                Ok(Request::Notes(notes)) => notes.form,
                other => panic!("{other:?}"),
            };
            let to = PathBuf::from("m");
            assert_eq!(form, Form::Midi { to, over });
        }
    }

    #[test]
    fn a_page_of_a_picture() {
        let page = |words: &[&str]| match request(&[&["picture", "a", "b"], words].concat()) {
            Ok(Request::Picture(picture)) => Ok(picture.page),
            other => other.map(|request| panic!("{request:?}")),
        };
        assert_eq!(page(&[]), Ok(Page::default()));
        let right = Page {
            from: 65.5,
            to: Some(90.0),
            width: 700,
        };
        let words = ["--from", "1:05.5", "--to", "90", "--width", "700"];
        assert_eq!(page(&words), Ok(right));
        for (words, why) in [
            (
                ["--from", "x"],
                "--from is a time like 12.5 or 1:05, not 'x'",
            ),
            (["--to", "-1"], "--to is a time like 12.5 or 1:05, not '-1'"),
            (
                ["--from", "1:2:3"],
                "--from is a time like 12.5 or 1:05, not '1:2:3'",
            ),
            (["--to", "0"], "--to is not behind --from"),
            (["--width", "699"], "--width is 700 to 6000 pixels, not 699"),
            (
                ["--width", "6001"],
                "--width is 700 to 6000 pixels, not 6001",
            ),
        ] {
            assert_eq!(page(&words), Err(why.to_string()));
        }
        let why = "b.png: OUT is an SVG; give OUT.svg and --png, which writes OUT.png beside it";
        assert_eq!(wrong(&["picture", "a", "b.png"]), why);
    }

    #[test]
    fn a_night() {
        let night = |words: &[&str]| match request(&[&["night"], words].concat()) {
            Ok(Request::Night(night)) => night,
            other => panic!("{other:?}"),
        };
        let plain = night(&["in", "out"]);
        assert_eq!((plain.retries, plain.jobs, plain.takes), (3, None, None));
        let words = "--scale Am in -j 2 --voice +4 out -S :,4/a --voice -3 --takes b%20c,d/e";
        let words: Vec<&str> = words.split(' ').collect();
        let night = night(&words);
        assert_eq!(night.words, ["--scale=Am", "--voice=+4", "--voice=-3"]);
        assert_eq!(night.machines, [":", "4/a"]);
        assert_eq!(night.jobs, Some(2));
        let takes = ["b c", "d/e"].map(PathBuf::from).to_vec();
        assert_eq!(night.takes, Some(takes));
        for (words, why) in [
            (&["in"][..], "OUT_DIR is missing"),
            (&["in", "out", "-j", "0"], "--jobs is 1 to 100000, not '0'"),
            (
                &["in", "out", "--transfer"],
                "--transfer is about machines: it needs -S MACHINE,..",
            ),
            (
                &["in", "out", "-S", "a", "--transfer", "--pictures"],
                "--pictures draws on machines that have the folders, and --transfer is for others: tune with --transfer, and then run it with --pictures and without, which draws what is missing",
            ),
            (
                &["in", "out", "-S", "a,,b"],
                "--machines is names like mix1,mix2 or :,4/mix1, and one is empty",
            ),
            (
                &["in", "out", "--takes", "../x"],
                "--takes is a line of OUT_DIR/.night/list, not '../x'",
            ),
            (
                &["in", "out", "--takes", "a b"],
                "--takes is a line of OUT_DIR/.night/list, not 'a b'",
            ),
        ] {
            assert_eq!(wrong(&[&["night"], words].concat()), why);
        }
    }

    #[test]
    fn files_that_have_to_be_there() {
        for (words, files) in [
            (&["tune", "a", "b"][..], &["a"][..]),
            (&["picture", "a", "b", "--midi", "m"], &["m", "a"]),
            (&["tune", "-", "b"], &[]),
            (&["tune", "a", "b", "--midi", "m"], &["m", "a"]),
            (&["check", "a", "b"], &["a", "b"]),
            (&["check", "a", "b", "--midi", "m"], &["m", "a", "b"]),
            (&["mend", "a"], &["a"]),
            (&["notes", "a"], &["a"]),
            (&["report", "a"], &["a"]),
            (&["report"], &[]),
            (&["report", "a", "b"], &[]),
            (&["report", "a", "b", "--midi", "m"], &["m"]),
            (&["night", "a", "b"], &["a"]),
        ] {
            let request = request(words).expect("right words");
            let files: Vec<&Path> = files.iter().map(Path::new).collect();
            assert_eq!(request.inputs(), files);
        }
    }
}
