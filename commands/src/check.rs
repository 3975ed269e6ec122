//! `daxfolin check`: the independent program over a take and what was made of
//! it. It is a program apart, so that it shares no line with what it checks;
//! here it is only found and started.

use crate::apart::{finished, found};
use crate::place::named;
use crate::settings;
use crate::song::Song;
use crate::source::Source;
use std::ffi::OsString;
use std::os::unix::process::ExitStatusExt;
use std::path::{Path, PathBuf};
use std::process::{Command, Stdio};
use words::end::{failed, no, End, FILE};
use words::request::{self, Check};
use words::signals::note_all;
use words::standard::print;

pub const PROGRAM: &str = "daxfolin check";

/// The program that checks.
const CHECKER: &str = "daxfolin-check";

pub fn run(request: &Check) -> Result<(), End> {
    note_all();
    let mut read = Vec::new();
    if let Some(song) = &request.song {
        read.push(Song::of(song)?.source);
    }
    let source = Source::of(&request.from)?;
    let (take, _) = source.take()?;
    read.push(source);
    for voice in 0..=request.take.voices.len() {
        read.push(Source::of(&named(&request.tuned, voice))?);
    }
    let checker = found(CHECKER)?;
    let mut command = Command::new(&checker);
    command.args([&request.from, &request.tuned].map(|file| plain(file)));
    command.args(options(request, take.hertz));
    command.stdin(Stdio::null()).stdout(Stdio::piped());
    let mut child = command.spawn().map_err(|error| failed(&checker, &error))?;
    let Some(from) = child.stdout.take() else {
        return Err(no(&checker, "it cannot be heard"));
    };
    let (status, printed) = finished(child, &checker, from)?;
    print(&String::from_utf8_lossy(&printed))?;
    match (status.code(), status.signal()) {
        (Some(0), _) => read.iter().try_for_each(Source::unchanged),
        (Some(code), _) => Err(End::Said(u8::try_from(code).unwrap_or(FILE))),
        (None, signal) => Err(End::Signal(signal.unwrap_or(9))),
    }
}

/// The words that the checker takes.
fn options(request: &Check, hertz: u32) -> Vec<OsString> {
    let settings = settings(&request.take, hertz);
    let mut words: Vec<OsString> = [
        ("scale", settings.scale),
        ("eps", settings.eps),
        ("decay", settings.decay),
        ("floor", settings.floor),
    ]
    .map(|(name, number)| format!("{name}={number}").into())
    .to_vec();
    let voices = request.take.voices.iter();
    words.extend(voices.map(|interval| format!("voice={interval}").into()));
    words.extend(request.song.iter().flat_map(played));
    words
}

/// Those about the MIDI file.
fn played(song: &request::Song) -> Vec<OsString> {
    let mut file = OsString::from("midi=");
    file.push(&song.file);
    let mut words = vec![
        file,
        format!("transpose={}", song.transpose).into(),
        format!("offset={}", song.offset).into(),
        format!("octave={}", song.octave).into(),
    ];
    let channel = song.channel.map(|channel| format!("channel={channel}"));
    let track = song.track.map(|track| format!("track={track}"));
    words.extend(channel.into_iter().chain(track).map(OsString::from));
    words
}

/// A name that cannot be taken for an option.
fn plain(file: &Path) -> PathBuf {
    match file.as_os_str().as_encoded_bytes().starts_with(b"-") {
        true => Path::new(".").join(file),
        false => file.to_path_buf(),
    }
}
