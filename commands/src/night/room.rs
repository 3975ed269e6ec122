//! The folders of a night: where takes are read, where OUT stands, and what is
//! kept in OUT_DIR/.night.

use crate::place::{lock_alone, named};
use std::ffi::{OsStr, OsString};
use std::fs::{self, File, OpenOptions};
use std::io::{self, ErrorKind, Read, Write};
use std::os::unix::ffi::OsStrExt;
use std::path::{Path, PathBuf};
use words::end::{failed, no, reason, shown, End};
use words::request::{Night, Song, Speed};

/// What is kept beside the files of a night.
pub const KEPT: &str = ".night";

/// Why a file is not written over.
pub const NOT_ITS_OWN: &str =
    "it exists, and this night did not make it: move it away, or delete it";

/// What was being written when somebody was killed.
const PARTS: &str = "parts";

pub struct Room {
    pub from: PathBuf,
    pub to: PathBuf,
    pub voices: usize,
    /// Each take has a picture.
    pub pictures: bool,
}

impl Room {
    pub fn of(request: &Night) -> Room {
        Room {
            from: request.from.clone(),
            to: request.to.clone(),
            voices: request.take.voices.len(),
            pictures: request.pictures,
        }
    }

    /// The same folders by their own names. Neither lies within the other. OUT_DIR need not be there yet.
    pub fn real(request: &Night) -> Result<Room, End> {
        let from =
            fs::canonicalize(&request.from).map_err(|error| failed(&request.from, &error))?;
        if !from.is_dir() {
            return Err(no(&request.from, "it is no folder"));
        }
        let to = real_or_new(&request.to).map_err(|error| failed(&request.to, &error))?;
        for (one, other, why) in [
            (
                &to,
                &from,
                "it lies within IN_DIR, and its files would be takes",
            ),
            (&from, &to, "it lies within OUT_DIR"),
        ] {
            if one.starts_with(other) {
                return Err(End::Usage(format!("{}: {why}", shown(one.as_os_str()))));
            }
        }
        let room = Room::of(request);
        Ok(Room { from, to, ..room })
    }

    pub fn kept(&self, name: &str) -> PathBuf {
        self.to.join(KEPT).join(name)
    }

    /// The take's OUT. With voices, a folder of the take's name has all its files: no two takes can meet there, since no take's name is
    /// also that of a folder in IN_DIR.
    pub fn out(&self, take: &Path) -> PathBuf {
        out(&self.to, take, self.voices)
    }

    /// OUT and the voices.
    pub fn outs(&self, take: &Path) -> Vec<PathBuf> {
        outs(&self.to, take, self.voices)
    }

    /// The picture of a take.
    pub fn picture(&self, take: &Path) -> PathBuf {
        picture(&self.to, take, self.voices)
    }

    /// What was said of a take.
    pub fn said(&self, take: &Path) -> PathBuf {
        self.kept("said").join(take)
    }

    /// The copy of a take that is mended.
    pub fn mended(&self, take: &Path) -> PathBuf {
        self.kept("mended").join(take)
    }
}

/// The own name of a folder, of which the last parts need not be there.
fn real_or_new(name: &Path) -> io::Result<PathBuf> {
    match (fs::canonicalize(name), name.parent(), name.file_name()) {
        (Err(error), Some(above), Some(last)) if error.kind() == ErrorKind::NotFound => {
            let above = if above == Path::new("") {
                Path::new(".")
            } else {
                above
            };
            Ok(real_or_new(above)?.join(last))
        }
        (real, _, _) => real,
    }
}

fn out(to: &Path, take: &Path, voices: usize) -> PathBuf {
    match voices {
        0 => to.join(take),
        _ => to.join(take).join(take.file_name().unwrap_or_default()),
    }
}

pub fn outs(to: &Path, take: &Path, voices: usize) -> Vec<PathBuf> {
    let out = out(to, take, voices);
    (0..=voices).map(|voice| named(&out, voice)).collect()
}

/// Beside OUT, under its whole name and one ending more: x.wav and x.WAV do not meet.
pub fn picture(to: &Path, take: &Path, voices: usize) -> PathBuf {
    let mut name = out(to, take, voices).into_os_string();
    name.push(".svg");
    name.into()
}

pub fn made(folder: &Path) -> Result<(), End> {
    fs::create_dir_all(folder).map_err(|error| failed(folder, &error))
}

/// A small file, whole or not there. What is not whole stands apart, under the name of the machine and the process that write it.
pub fn write(room: &Room, name: &Path, text: &str) -> Result<(), End> {
    made(name.parent().unwrap_or(Path::new(".")))?;
    let parts = room.kept(PARTS);
    made(&parts)?;
    let part = parts.join(format!("{}-{}", machine(), std::process::id()));
    let written = fs::write(&part, text).and_then(|()| fs::rename(&part, name));
    written.map_err(|error| {
        let _ = fs::remove_file(&part);
        failed(name, &error)
    })
}

// ---- the lock

/// Held by this night, and by all that it starts: it goes with the last of them, however they end.
pub struct Lock {
    pub file: File,
}

pub fn lock(room: &Room) -> Result<Lock, End> {
    made(&room.kept(""))?;
    let name = room.kept("lock");
    let unmade = |error| failed(&name, &error);
    let mut options = OpenOptions::new();
    options.read(true).write(true).create(true).truncate(false);
    let mut file = options.open(&name).map_err(unmade)?;
    if !lock_alone(&file) {
        let mut by = String::new();
        let _ = file.read_to_string(&mut by);
        let to = shown(room.to.as_os_str());
        let why = format!("{to}: another night is at work there: {}", by.trim_end());
        return Err(End::File(why));
    }
    // nobody writes there now
    let _ = fs::remove_dir_all(room.kept(PARTS));
    let text = format!("process {} on {}\n", std::process::id(), machine());
    file.set_len(0).map_err(unmade)?;
    file.write_all(text.as_bytes()).map_err(unmade)?;
    Ok(Lock { file })
}

/// The name of this machine.
pub fn machine() -> String {
    let name = fs::read_to_string("/proc/sys/kernel/hostname");
    name.map_or("this machine".into(), |name| name.trim_end().to_string())
}

// ---- the settings

/// A line for each, equal for equal settings however they were given.
pub fn settings(request: &Night, version: &str) -> String {
    let take = &request.take;
    let speed = match take.speed {
        Speed::Decay(decay) => format!("decay {decay}"),
        Speed::Milliseconds(time) => format!("speed {time} ms"),
    };
    let voices: Vec<String> = take
        .voices
        .iter()
        .map(|voice| format!("{voice:+}"))
        .collect();
    let voices = match voices.is_empty() {
        true => "no voices".to_string(),
        false => format!("voices {}", voices.join(" ")),
    };
    let notes = match &request.song {
        None => format!("scale {}", take.scale),
        Some(song) => played(song),
    };
    let (eps, floor) = (take.eps, take.floor);
    format!("{version}\n{notes}\neps {eps}\n{speed}\nfloor {floor}\n{voices}\n")
}

fn played(song: &Song) -> String {
    let all = |number: Option<u32>| number.map_or("all".into(), |number| number.to_string());
    format!(
        "the keys of a MIDI file, channel {}, track {}, transpose {}, offset {}, octave {}",
        all(song.channel.map(u32::from)),
        all(song.track),
        song.transpose,
        song.offset,
        song.octave
    )
}

/// The settings of this OUT_DIR are these, or become these where it has none. Of a MIDI file all bytes count.
pub fn settle(room: &Room, request: &Night, version: &str) -> Result<(), End> {
    let now = settings(request, version);
    let read = |name: &Path| fs::read(name).map_err(|error| failed(name, &error));
    let song = request.song.as_ref().map(|song| read(&song.file));
    let song = song.transpose()?;
    let (name, kept_song) = (room.kept("settings"), room.kept("song.mid"));
    match fs::read_to_string(&name) {
        Ok(was) if was != now => return Err(other(room, &was, &now)),
        Ok(_) => {
            return match song == fs::read(&kept_song).ok() {
                true => Ok(()),
                false => Err(other(room, "another MIDI file", "")),
            }
        }
        Err(error) if error.kind() == ErrorKind::NotFound => {}
        Err(error) => return Err(failed(&name, &error)),
    }
    if let Some(bytes) = song {
        fs::write(&kept_song, bytes).map_err(|error| failed(&kept_song, &error))?;
    }
    write(room, &name, &now)
}

/// Only what differs is said.
fn other(room: &Room, was: &str, now: &str) -> End {
    let apart = |one: &str, other: &str| {
        let lines = one
            .lines()
            .filter(|line| !other.lines().any(|other| other == *line));
        lines.collect::<Vec<_>>().join(", ")
    };
    let (was, now) = (apart(was, now), apart(now, was));
    let now = match now.is_empty() {
        true => now,
        false => format!(", and not with {now}"),
    };
    End::Usage(format!(
        "{} was begun with {was}{now}: give the same settings, take another OUT_DIR, or begin anew with --again",
        shown(room.to.as_os_str())
    ))
}

// ---- every file of a folder

/// What is found below a folder.
#[derive(Default)]
pub struct Found {
    /// Each file's name from the folder on.
    pub files: Vec<PathBuf>,
    /// Names that were passed over, since they begin with a dot.
    pub hidden: usize,
    /// Folders that could not be read, and links to folders: what is said of them.
    pub unread: Vec<String>,
    pub links: Vec<String>,
}

pub fn below(top: &Path) -> Found {
    let mut found = Found::default();
    let mut folders = vec![PathBuf::new()];
    while let Some(folder) = folders.pop() {
        let path = top.join(&folder);
        let entries =
            fs::read_dir(&path).and_then(|entries| entries.collect::<Result<Vec<_>, _>>());
        match entries {
            Err(error) => {
                let (path, why) = (shown(path.as_os_str()), reason(&error));
                found.unread.push(format!("{path}: {why}"));
            }
            Ok(entries) => {
                let names = entries.iter().map(|entry| entry.file_name());
                names.for_each(|name| sorted(&mut found, &mut folders, top, folder.join(name)));
            }
        }
    }
    found.files.sort();
    found
}

fn sorted(found: &mut Found, folders: &mut Vec<PathBuf>, top: &Path, name: PathBuf) {
    let path = top.join(&name);
    let link = fs::symlink_metadata(&path).is_ok_and(|is| is.is_symlink());
    if last(&name).as_bytes().starts_with(b".") {
        found.hidden += 1;
    } else if !path.is_dir() {
        found.files.push(name);
    } else if link {
        found.links.push(shown(path.as_os_str()));
    } else {
        folders.push(name);
    }
}

fn last(name: &Path) -> OsString {
    name.file_name().unwrap_or(OsStr::new("")).to_os_string()
}

#[cfg(test)]
mod tests {
    use super::*;

    #[test]
    fn files_of_takes_do_not_meet() {
        let outs = |take: &str, voices| {
            let outs = outs(Path::new("o"), Path::new(take), voices);
            let outs = outs.iter().map(|out| out.to_str().unwrap().to_string());
            outs.collect::<Vec<_>>().join(" ")
        };
        assert_eq!(outs("s/x.wav", 0), "o/s/x.wav");
        assert_eq!(
            outs("s/x.wav", 2),
            "o/s/x.wav/x.wav o/s/x.wav/x-1.wav o/s/x.wav/x-2.wav"
        );
        assert_eq!(
            outs("s/x-1.wav", 1),
            "o/s/x-1.wav/x-1.wav o/s/x-1.wav/x-1-1.wav"
        );
        for (take, voices, right) in [
            ("s/x.wav", 0, "o/s/x.wav.svg"),
            ("s/x.WAV", 0, "o/s/x.WAV.svg"),
            ("s/x.wav", 1, "o/s/x.wav/x.wav.svg"),
        ] {
            let picture = picture(Path::new("o"), Path::new(take), voices);
            assert_eq!(picture, Path::new(right));
        }
    }
}
