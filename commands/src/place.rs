//! OUT, and beside it the voices: each is written under another name, and they
//! take their places when all are whole.

use crate::source::{Source, WINDOW};
use std::ffi::{c_char, c_int, c_uint, CString};
use std::fs::{self, File, Metadata, OpenOptions, Permissions};
use std::io::{self, BufWriter, ErrorKind, Write};
use std::os::fd::AsRawFd;
use std::os::unix::ffi::OsStrExt;
use std::os::unix::fs::{fchown, MetadataExt, OpenOptionsExt, PermissionsExt};
use std::path::{Path, PathBuf};
use words::end::{failed, no, reason, say, shown, End};
use words::signals::ended;

extern "C" {
    fn flock(file: c_int, how: c_int) -> c_int;
    fn renameat2(
        from_folder: c_int,
        from: *const c_char,
        to_folder: c_int,
        to: *const c_char,
        flags: c_uint,
    ) -> c_int;
}

/// A lock that no other process has, and one that is not waited for.
const ALONE: c_int = 2;
const AT_ONCE: c_int = 4;
/// Names are looked for from the working directory on.
const HERE: c_int = -100;
/// A name that is there is not written over; and two names that change their files.
const NO_REPLACE: c_uint = 1;
const EXCHANGE: c_uint = 2;
/// The error of a disk that fails, and those of a system that has not what is asked for.
const DISK_FAILS: i32 = 5;
const NOT_HAD: [i32; 3] = [22, 38, 95];

/// A file by whatever name: its device, and its number there.
type Identity = (u64, u64);

fn identity(of: &Metadata) -> Identity {
    (of.dev(), of.ino())
}

/// Whether a name is that file's.
fn is(path: &Path, file: Identity) -> bool {
    fs::symlink_metadata(path).is_ok_and(|is| identity(&is) == file)
}

fn not_had(error: &io::Error) -> bool {
    error
        .raw_os_error()
        .is_some_and(|number| NOT_HAD.contains(&number))
}

fn renamed(from: &Path, to: &Path, flags: c_uint) -> io::Result<()> {
    let name = |path: &Path| CString::new(path.as_os_str().as_bytes()).map_err(io::Error::from);
    let (from, to) = (name(from)?, name(to)?);
    // SAFETY: both are strings that end with 0, and lent for the call alone.
    match unsafe { renameat2(HERE, from.as_ptr(), HERE, to.as_ptr(), flags) } {
        0 => Ok(()),
        _ => Err(io::Error::last_os_error()),
    }
}

// ---- where an output is to stand

pub struct Place {
    /// As it is called.
    pub name: PathBuf,
    /// A new name, or with -f a regular file that is written over, by its own name where it is called by a link to it.
    path: PathBuf,
    /// That file.
    over: Option<Metadata>,
}

impl Place {
    /// Whether it is written over a file.
    pub fn is_over(&self) -> bool {
        self.over.is_some()
    }
}

/// The places of OUT and of so many voices; none of them is a file that is read, or another of them.
pub fn places(out: &Path, voices: usize, read: &[&Source], over: bool) -> Result<Vec<Place>, End> {
    places_of((0..=voices).map(|voice| named(out, voice)), read, over)
}

/// The places of outputs with these names, likewise.
pub fn places_of(
    names: impl IntoIterator<Item = PathBuf>,
    read: &[&Source],
    over: bool,
) -> Result<Vec<Place>, End> {
    let read = read.iter();
    let mut taken: Vec<(PathBuf, Identity)> = read
        .map(|source| (source.name.clone(), identity(&source.was)))
        .collect();
    let place = |name| {
        let place = place(name, &taken, over)?;
        let file = place.over.as_ref().map(identity);
        taken.extend(file.map(|file| (place.name.clone(), file)));
        Ok(place)
    };
    names.into_iter().map(place).collect()
}

/// The name of a voice's output: OUT's, with a dash and the voice's number before its ending. OUT itself is number 0.
pub fn named(out: &Path, voice: usize) -> PathBuf {
    if voice == 0 {
        return out.to_path_buf();
    }
    let mut name = out.file_stem().unwrap_or_default().to_os_string();
    name.push(format!("-{voice}"));
    if let Some(ending) = out.extension() {
        name.push(".");
        name.push(ending);
    }
    out.with_file_name(name)
}

/// The place of an output that is none of the files that are taken already.
fn place(name: PathBuf, taken: &[(PathBuf, Identity)], over: bool) -> Result<Place, End> {
    let (path, over) = match fs::metadata(&name) {
        Ok(is) => {
            if let Some((other, _)) = taken.iter().find(|other| other.1 == identity(&is)) {
                let other = shown(other.as_os_str());
                return Err(no(&name, &format!("it is {other} itself")));
            }
            (written_over(&name, &is, over)?, Some(is))
        }
        Err(error) => (made_new(&name, &error)?, None),
    };
    Ok(Place { name, path, over })
}

/// The path of a file that is there, and is written over with -f alone.
fn written_over(name: &Path, is: &Metadata, over: bool) -> Result<PathBuf, End> {
    if is.is_dir() {
        return Err(no(name, "it is a directory"));
    }
    if !is.is_file() {
        return Err(no(name, "it is no regular file"));
    }
    match over {
        false => Err(exists(name)),
        true => fs::canonicalize(name).map_err(|error| failed(name, &error)),
    }
}

fn exists(name: &Path) -> End {
    let name = shown(name.as_os_str());
    End::Exists(format!("{name}: it exists; -f writes over it"))
}

/// The path of a file that is not there.
fn made_new(name: &Path, error: &io::Error) -> Result<PathBuf, End> {
    match error.kind() {
        ErrorKind::NotFound if fs::symlink_metadata(name).is_ok() => {
            Err(no(name, "it is a link that leads nowhere"))
        }
        ErrorKind::NotFound if name.as_os_str().as_bytes().ends_with(b"/") => {
            Err(no(name, "it names a directory"))
        }
        ErrorKind::NotFound => Ok(name.to_path_buf()),
        _ => Err(failed(name, error)),
    }
}

// ---- an output that is written

pub struct Output {
    place: Place,
    part: Part,
}

impl Output {
    /// Begun with a header.
    pub fn at(place: Place, header: &[u8]) -> Result<Output, End> {
        let unmade = |error| failed(&place.name, &error);
        let part = Part::beside(&place.path, place.over.as_ref()).map_err(unmade)?;
        let mut output = Output { place, part };
        output.write(header)?;
        Ok(output)
    }

    pub fn write(&mut self, bytes: &[u8]) -> Result<(), End> {
        let written = self.part.to.write_all(bytes);
        written.map_err(|error| failed(&self.place.name, &error))
    }

    /// All that was written is on the disk.
    fn flush(&mut self) -> Result<(), End> {
        let flushed = self.part.flush();
        flushed.map_err(|error| failed(&self.place.name, &error))
    }

    /// Where the file that is written over was somebody else's, and the new one cannot be.
    fn owner_lost(&self) -> Option<String> {
        let owner = self.place.over.as_ref()?.uid();
        let name = shown(self.place.name.as_os_str());
        let lost = || format!("{name}: it was user {owner}'s, and is yours now");
        (!self.part.owner_kept).then(lost)
    }

    /// Takes its place. One of a set that is written over leaves the old file under the part's name, so that it can be put back.
    fn put(&mut self, one_of_a_set: bool) -> io::Result<()> {
        let (part, path) = (&mut self.part, &self.place.path);
        match (&self.place.over, one_of_a_set) {
            (None, _) => part.becomes_new(path),
            (Some(_), true) => part.exchanges(path),
            (Some(_), false) => part.renames(path),
        }
    }

    /// Leaves its place again: only what is its own.
    fn take_back(&mut self) {
        let own = self.part.identity;
        if self.place.over.is_some() {
            if is(&self.place.path, own) && self.part.holds_old {
                // what does not go back stays as it is, under both names
                self.part.gone = renamed(&self.part.name, &self.place.path, EXCHANGE).is_err();
            }
        } else if is(&self.place.path, own) {
            let _ = fs::remove_file(&self.place.path);
        }
    }
}

/// All outputs are made whole, and take their places. Whose owner could not be kept is said.
pub fn finish(program: &str, mut outputs: Vec<Output>) -> Result<(), End> {
    outputs.iter_mut().try_for_each(Output::flush)?;
    ended()?;
    let lost: Vec<String> = outputs.iter().filter_map(Output::owner_lost).collect();
    put(outputs)?;
    lost.iter().for_each(|lost| say(program, lost));
    Ok(())
}

/// All outputs take their places, now that each is whole: the voices, and then OUT. Where one cannot, the others leave theirs again.
fn put(mut outputs: Vec<Output>) -> Result<(), End> {
    let set = outputs.len() > 1;
    for at in (0..outputs.len()).rev() {
        if let Err(error) = outputs[at].put(set) {
            outputs[at + 1..].iter_mut().for_each(Output::take_back);
            let name = &outputs[at].place.name;
            return Err(match error.kind() {
                ErrorKind::AlreadyExists => exists(name),
                _ => failed(name, &error),
            });
        }
    }
    outputs.iter().try_for_each(|output| {
        let synced = output.part.sync_folder();
        synced.map_err(|error| {
            let why = reason(&error);
            no(
                &output.place.name,
                &format!(
                    "it is whole, but its name may not outlast a power cut: the folder: {why}"
                ),
            )
        })
    })
}

/// An output while it is not whole: a file beside it, with a name of its own, which goes when this does.
///
/// A name, and not a file without one (O_TMPFILE), since that is not to be had on the sticks and shares that takes come on. So every signal
/// that can be is noted, and looked for at each block, and the file goes as on every other failure. What ends a command without asking
/// (SIGKILL, a power cut) leaves a file whose name says what it is; it is locked as long as its process lives, so that the next command
/// that writes there can tell, and removes it.
pub struct Part {
    name: PathBuf,
    folder: PathBuf,
    identity: Identity,
    to: BufWriter<File>,
    owner_kept: bool,
    /// Its name is the old file's now.
    holds_old: bool,
    /// Its name is gone already.
    gone: bool,
}

fn folder_of(place: &Path) -> PathBuf {
    match place.parent() {
        Some(folder) if !folder.as_os_str().is_empty() => folder.to_path_buf(),
        _ => PathBuf::from("."),
    }
}

impl Part {
    /// For a new file; or for one over a file, of which it has mode and owner from the beginning.
    fn beside(place: &Path, over: Option<&Metadata>) -> io::Result<Part> {
        let folder = folder_of(place);
        remove_dead(&folder);
        let mode = if over.is_some() { 0o600 } else { 0o666 };
        let (name, file) = made(&folder, mode)?;
        let identity = identity(&file.metadata()?);
        let mut part = Part {
            name,
            folder,
            identity,
            to: BufWriter::with_capacity(WINDOW, file),
            owner_kept: true,
            holds_old: false,
            gone: false,
        };
        if let Some(over) = over {
            part.owner_kept = keep(part.to.get_ref(), over)?;
        }
        Ok(part)
    }

    fn flush(&mut self) -> io::Result<()> {
        self.to.flush()?;
        self.to.get_ref().sync_all()
    }

    fn renames(&mut self, place: &Path) -> io::Result<()> {
        fs::rename(&self.name, place)?;
        self.gone = true;
        Ok(())
    }

    /// A second name of a file is made only where there is no such name yet. A file system without second names may have a renaming that
    /// does not replace; one without that too is asked once more whether there is such a name.
    fn becomes_new(&mut self, place: &Path) -> io::Result<()> {
        match fs::hard_link(&self.name, place) {
            Ok(()) => {
                self.gone = fs::remove_file(&self.name).is_ok();
                return Ok(());
            }
            Err(error) if error.kind() == ErrorKind::AlreadyExists => return Err(error),
            Err(_) => {}
        }
        match renamed(&self.name, place, NO_REPLACE) {
            Err(error) if !not_had(&error) => Err(error),
            Err(_) if fs::symlink_metadata(place).is_ok() => Err(ErrorKind::AlreadyExists.into()),
            Err(_) => self.renames(place),
            Ok(()) => {
                self.gone = true;
                Ok(())
            }
        }
    }

    /// The old file is then the part's. Where files cannot change their names, it is lost.
    fn exchanges(&mut self, place: &Path) -> io::Result<()> {
        match renamed(&self.name, place, EXCHANGE) {
            Ok(()) => {
                self.holds_old = true;
                Ok(())
            }
            Err(error) if not_had(&error) => self.renames(place),
            Err(error) => Err(error),
        }
    }

    /// The name outlasts a power cut once the folder is on the disk. Not every folder can be opened, nor every file system asked for that;
    /// but a disk that fails is told.
    fn sync_folder(&self) -> io::Result<()> {
        match File::open(&self.folder).and_then(|folder| folder.sync_all()) {
            Err(error) if error.raw_os_error() == Some(DISK_FAILS) => Err(error),
            _ => Ok(()),
        }
    }
}

impl Drop for Part {
    fn drop(&mut self) {
        if !self.gone {
            let _ = fs::remove_file(&self.name);
        }
    }
}

/// A new file in a folder, locked, and its name.
fn made(folder: &Path, mode: u32) -> io::Result<(PathBuf, File)> {
    let mut options = OpenOptions::new();
    options.read(true).write(true).create_new(true).mode(mode);
    let mut tried = 0;
    loop {
        let name = folder.join(format!(".tune-{}-{tried}.part", std::process::id()));
        match options.open(&name) {
            // another process of this number left it, or has it: in another container, or on another machine
            Err(error) if error.kind() == ErrorKind::AlreadyExists => tried += 1,
            made => {
                let file = made?;
                // a share may have no locks, and then none is taken for dead there
                lock(&file, ALONE);
                if is(&name, identity(&file.metadata()?)) {
                    return Ok((name, file));
                }
            }
        }
    }
}

fn lock(file: &File, how: c_int) -> bool {
    // SAFETY: it takes two numbers, of which one is an open file's.
    unsafe { flock(file.as_raw_fd(), how) == 0 }
}

/// Whether no other process has this file, which is then locked as long as it is open.
pub fn lock_alone(file: &File) -> bool {
    lock(file, ALONE | AT_ONCE)
}

/// Parts that no living process has are removed.
fn remove_dead(folder: &Path) {
    let Ok(entries) = fs::read_dir(folder) else {
        return;
    };
    for entry in entries
        .flatten()
        .filter(|entry| is_part(entry.file_name().as_bytes()))
    {
        let path = entry.path();
        let Ok(file) = File::open(&path) else {
            continue;
        };
        if lock_alone(&file) && file.metadata().is_ok_and(|of| is(&path, identity(&of))) {
            let _ = fs::remove_file(path);
        }
    }
}

/// .tune-PROCESS-N.part
fn is_part(name: &[u8]) -> bool {
    let inner = name
        .strip_prefix(b".tune-")
        .and_then(|name| name.strip_suffix(b".part"));
    let numbers = |inner: &[u8]| {
        inner
            .iter()
            .all(|byte| byte.is_ascii_digit() || *byte == b'-')
    };
    inner.is_some_and(numbers)
}

/// Gives a file the mode and the owner of another; says whether the owner could be had. A group that could not gets no rights.
fn keep(file: &File, other: &Metadata) -> io::Result<bool> {
    let of = |is: &Metadata| (is.uid(), is.gid());
    let both = of(&file.metadata()?) == of(other)
        || fchown(file, Some(other.uid()), Some(other.gid())).is_ok();
    let group = both || fchown(file, None, Some(other.gid())).is_ok();
    let mode = match (both, group) {
        (true, _) => other.mode() & 0o7777,
        (false, true) => other.mode() & 0o777,
        (false, false) => other.mode() & 0o707,
    };
    file.set_permissions(Permissions::from_mode(mode))?;
    Ok(both)
}

// ---- a file without a name

/// For what is stored for a while: beside OUT, or in TMPDIR. Nothing is left of it, however the command ends.
pub fn unnamed(out: Option<&Path>) -> Result<File, End> {
    let folder = match out {
        Some(out) => folder_of(out),
        None => std::env::temp_dir(),
    };
    let unmade = |error| failed(&folder, &error);
    let (name, file) = made(&folder, 0o600).map_err(unmade)?;
    fs::remove_file(name).map_err(unmade)?;
    Ok(file)
}

#[cfg(test)]
mod tests {
    use super::*;

    #[test]
    fn names_of_parts() {
        for name in [".tune-1-0.part", ".tune-4194304-12.part"] {
            assert!(is_part(name.as_bytes()), "{name}");
        }
        for name in [
            "tune-1-0.part",
            ".tune-x.part",
            ".tune-1-0.wav",
            ".tune.part",
            ".tune-1-0.part~",
        ] {
            assert!(!is_part(name.as_bytes()), "{name}");
        }
    }

    #[test]
    fn names_of_voices() {
        for (out, voice) in [
            ("take.wav", "take-1.wav"),
            ("take", "take-1"),
            ("a.b.wav", "a.b-1.wav"),
            (".wav", ".wav-1"),
            ("x/take.wav", "x/take-1.wav"),
        ] {
            assert_eq!(named(Path::new(out), 1), Path::new(voice));
            assert_eq!(named(Path::new(out), 0), Path::new(out));
        }
    }
}
