//! `daxfolin night`: a folder of takes, tuned by GNU parallel. The engine is
//! parallel's; here takes are found, jobs are made of those that are not done,
//! and what was said of each is put together to a report.

mod engine;
mod index;
mod record;
mod room;
mod summary;
mod takes;
mod transfer;
mod worker;

use crate::song::Song;
use crate::tune::starts;
use daxfolin::CD;
use engine::Engine;
use record::{Record, State};
use room::Room;
use std::collections::HashMap;
use std::ffi::c_int;
use std::fs;
use std::io::IsTerminal;
use std::os::unix::process::CommandExt;
use std::path::{Path, PathBuf};
use std::process::{Command, Stdio};
use std::time::Instant;
use summary::Report;
use takes::{jobs, Listed};
use words::coded::coded;
use words::end::{failed, say, shown, End, DIFFERS, FILE, REFUSED};
use words::request::Night;
use words::signals::{ended, note_all};
use words::standard::print;

pub const PROGRAM: &str = "daxfolin night";

extern "C" {
    fn prctl(option: c_int, ...) -> c_int;
}

/// prctl's: a process is sent this signal when its parent dies.
const SIGNAL_OF_PARENT: c_int = 1;
const TERM: c_int = 15;

/// The version of the commands and of the library, as --version prints it.
pub fn version() -> String {
    let calls = daxfolin::version();
    format!("daxfolin {}, calls of version {calls}", words::VERSION)
}

fn own_program() -> Result<PathBuf, End> {
    std::env::current_exe().map_err(|error| failed(Path::new("daxfolin"), &error))
}

/// From now on this process ends when what started it does.
fn with_parent() {
    // SAFETY: it takes two numbers.
    unsafe { prctl(SIGNAL_OF_PARENT, TERM) };
}

/// A process that reads nothing, and ends when this one does, even where this one is killed.
fn child(program: &Path) -> Command {
    let mut command = Command::new(program);
    command
        .stdin(Stdio::null())
        .stdout(Stdio::piped())
        .stderr(Stdio::piped());
    // SAFETY: between fork and exec one system call is made, with two numbers.
    unsafe {
        command.pre_exec(|| {
            with_parent();
            Ok(())
        })
    };
    command
}

/// The words of the line that is played, but for its file.
fn song_words(request: &Night) -> Vec<String> {
    let Some(song) = &request.song else {
        return Vec::new();
    };
    let mut words = vec![
        format!("--transpose={}", song.transpose),
        format!("--offset={}", song.offset),
        format!("--octave={}", song.octave),
    ];
    words.extend(song.channel.map(|channel| format!("--channel={channel}")));
    words.extend(song.track.map(|track| format!("--track={track}")));
    words
}

pub fn run(request: &Night) -> Result<(), End> {
    match (&request.takes, request.check) {
        (Some(takes), false) => worker::run(request, takes),
        (Some(takes), true) => worker::check(request, takes),
        (None, _) => night(request),
    }
}

fn night(request: &Night) -> Result<(), End> {
    note_all();
    let begun = Instant::now();
    let room = Room::real(request)?;
    refused_settings(request)?;
    let all = found(&room)?;
    if request.dry {
        let names = waiting(request, &room, &all);
        let names = names.iter().map(|take| shown(take.name.as_os_str()) + "\n");
        return print(&names.collect::<String>());
    }
    let lock = room::lock(&room)?;
    if request.again {
        begin_anew(&room)?;
    }
    room::settle(&room, request, &version())?;
    let waiting = waiting(request, &room, &all);
    let jobs = jobs(&waiting, request);
    takes::write(&room, &jobs)?;
    if request.list {
        return print(&format!("{}\n", jobs.len()));
    }
    let mut engine = Engine::new(request, &room, &lock);
    if !jobs.is_empty() || request.check {
        engine::is_there()?;
        engine.machines()?;
    }
    let passed = all.takes.len() - waiting.len();
    let well = jobs.is_empty() || engine.tune(&jobs, passed)?;
    let report = Report::of(&room, &all, begun.elapsed());
    let indexed = index::write(request, &room, &report);
    told(request, &room, &report)?;
    indexed.iter().for_each(|end| end.say(PROGRAM));
    let checked = match request.check {
        true => check(request, &room, &mut engine, &all)?,
        false => 0,
    };
    let failed = report.failed() || !all.unread.is_empty() || !well || indexed.is_some();
    let statuses = [
        (failed || checked == FILE, FILE),
        (checked == DIFFERS, DIFFERS),
        (report.refused(), REFUSED),
    ];
    let status = statuses.iter().find(|status| status.0);
    status.map_or(Ok(()), |status| Err(End::Said(status.1)))
}

/// The report is printed, also where the disk has no room for it.
fn told(request: &Night, room: &Room, report: &Report) -> Result<(), End> {
    let stored = room::write(room, &room.kept("report.txt"), &report.text())
        .and_then(|()| room::write(room, &room.kept("report.tsv"), &report.tsv()));
    match (request.quiet, request.tsv) {
        (true, _) => {}
        (false, true) => print(&report.tsv())?,
        (false, false) => print(&report.head(room))?,
    }
    stored
}

/// Settings and lines that no take could have are refused before the first.
fn refused_settings(request: &Night) -> Result<(), End> {
    let settings = crate::settings(&request.take, CD);
    starts(CD, settings, &request.take.voices)?;
    request
        .song
        .as_ref()
        .map_or(Ok(()), |song| Song::of(song).map(|_| ()))
}

/// Every take, and what is said of what is passed over.
fn found(room: &Room) -> Result<Listed, End> {
    let all = takes::listed(room);
    for line in &all.unread {
        say(PROGRAM, &format!("{line}: its takes are not in this night"));
    }
    for link in &all.links {
        say(
            PROGRAM,
            &format!("{link}: a link to a folder is not followed"),
        );
    }
    match all.hidden {
        0 => {}
        1 => say(PROGRAM, "1 name that begins with a dot is passed over"),
        count => say(
            PROGRAM,
            &format!("{count} names that begin with a dot are passed over"),
        ),
    }
    match all.takes.is_empty() {
        true => {
            let from = shown(room.from.as_os_str());
            Err(End::File(format!(
                "{from}: there is no take below it: no name ends in .wav"
            )))
        }
        false => Ok(all),
    }
}

/// The takes that are not done.
fn waiting(request: &Night, room: &Room, all: &Listed) -> Vec<takes::Take> {
    let done = |take: &takes::Take| {
        let said = Record::read(&room.said(&take.name));
        let file = fs::metadata(room.from.join(&take.name));
        said.zip(file.ok())
            .is_some_and(|(said, file)| said.is_done(room, &take.name, &file, request.mend))
    };
    let takes = all.takes.iter().filter(|take| !done(take));
    takes.cloned().collect()
}

/// Removes what a night made, and then its settings: where that is broken off, the old settings still stand.
fn begin_anew(room: &Room) -> Result<(), End> {
    let said = room.kept("said");
    for take in room::below(&said).files {
        let Some(record) = Record::read(&said.join(&take)) else {
            continue;
        };
        let voices = record.voices as usize;
        if record.own_picture {
            removed(&room::picture(&room.to, &take, voices))?;
        }
        if !record.own {
            continue;
        }
        let mut outs = room::outs(&room.to, &take, voices).into_iter();
        outs.try_for_each(|out| removed(&out))?;
        if voices > 0 {
            // one that has other files stays
            let _ = fs::remove_dir(room.to.join(&take));
        }
    }
    index::remove(room)?;
    for name in ["said", "mended"] {
        let folder = room.kept(name);
        match fs::remove_dir_all(&folder) {
            Err(error) if folder.exists() => return Err(failed(&folder, &error)),
            _ => {}
        }
    }
    for name in ["report.txt", "report.tsv", "song.mid", "settings"] {
        let _ = fs::remove_file(room.kept(name));
    }
    Ok(())
}

/// A file that the night made is gone.
fn removed(file: &Path) -> Result<(), End> {
    match fs::remove_file(file) {
        Err(error) if file.is_file() => Err(failed(file, &error)),
        _ => Ok(()),
    }
}

/// Every take that is tuned is checked by the independent program. The status: 6 where one differs, 3 where one was not checked.
fn check(request: &Night, room: &Room, engine: &mut Engine, all: &Listed) -> Result<u8, End> {
    let done = |take: &&takes::Take| {
        Record::read(&room.said(&take.name)).is_some_and(|said| said.state == State::Done)
    };
    let takes: Vec<takes::Take> = all.takes.iter().filter(done).cloned().collect();
    let found: HashMap<String, String> = engine.check(&jobs(&takes, request))?;
    let mut equal = 0;
    let (mut lines, mut status) = (String::new(), 0);
    for take in &takes {
        let name = shown(take.name.as_os_str());
        match found.get(&coded(&take.name)) {
            Some(found) if found == "equal" => equal += 1,
            Some(found) => {
                lines += &format!("{name}: {found}\n");
                status = DIFFERS.max(status);
            }
            None => {
                lines += &format!("{name}: it was not checked\n");
                status = FILE.max(status);
            }
        }
    }
    lines += &format!(
        "{equal} {} equal\n",
        if equal == 1 { "take" } else { "takes" }
    );
    room::write(room, &room.kept("checked.txt"), &lines)?;
    if !request.quiet {
        print(&lines)?;
    }
    ended()?;
    Ok(status)
}

/// Whether people look at what is said.
fn at_a_terminal() -> bool {
    std::io::stderr().is_terminal()
}
