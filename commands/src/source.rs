//! A take that is read: a file, or standard input by way of one.

use crate::progress::Progress;
use crate::refusal;
use daxfolin::wave::{self, Seek, Size, Take};
use daxfolin::LONGEST_BLOCK;
use std::fs::{self, File, Metadata};
use std::io::{self, BufReader, ErrorKind, Read};
use std::os::unix::fs::{FileExt, MetadataExt};
use std::path::{Path, PathBuf};
use words::end::{failed, no, shown, End};
use words::request::DASH;
use words::standard;

/// How much of a file is read at once.
pub const WINDOW: usize = 1 << 16;

/// A regular file that is read, and what it was when it was opened.
pub struct Source {
    pub name: PathBuf,
    pub file: File,
    pub was: Metadata,
}

/// Only a regular file has a length and places.
fn regular(name: &Path, was: Metadata) -> Result<Metadata, End> {
    if was.is_dir() {
        return Err(no(name, "it is a directory"));
    }
    match was.is_file() {
        true => Ok(was),
        false => Err(no(
            name,
            "it is no regular file, and a pipe, terminal or device cannot be read at any place",
        )),
    }
}

impl Source {
    /// Asked before it is opened, since a pipe would keep the command waiting there.
    pub fn open(name: &Path, open: impl FnOnce(&Path) -> io::Result<File>) -> Result<Source, End> {
        let unopened = |error| failed(name, &error);
        regular(name, fs::metadata(name).map_err(unopened)?)?;
        let file = open(name).map_err(unopened)?;
        let was = regular(name, file.metadata().map_err(unopened)?)?;
        let name = name.to_path_buf();
        Ok(Source { name, file, was })
    }

    /// A file to be read.
    pub fn of(name: &Path) -> Result<Source, End> {
        Source::open(name, |name| File::open(name))
    }

    /// Standard input, stored in a file without a name first: only then its length is known. What could not know its sizes, as a program
    /// that writes to a pipe, has them mended in that copy, by the proved call.
    pub fn of_input(store: File) -> Result<Source, End> {
        let name = PathBuf::from(DASH);
        let unstored = |error: io::Error| {
            no(
                Path::new("the copy of standard input"),
                &words::end::reason(&error),
            )
        };
        let mut input = standard::input().map_err(|error| standard::unread(&error))?;
        let (mut bytes, mut length) = (vec![0; WINDOW], 0);
        loop {
            let count = input
                .read(&mut bytes)
                .map_err(|error| standard::unread(&error))?;
            if count == 0 {
                break;
            }
            store
                .write_all_at(&bytes[..count], length)
                .map_err(unstored)?;
            length += count as u64;
        }
        let was = store.metadata().map_err(unstored)?;
        let source = Source {
            name,
            file: store,
            was,
        };
        if let Ok((riff, data)) = source.mending() {
            for size in [riff, data] {
                source
                    .file
                    .write_all_at(&size.new.to_le_bytes(), size.at)
                    .map_err(unstored)?;
            }
        }
        let was = source.file.metadata().map_err(unstored)?;
        Ok(Source { was, ..source })
    }

    /// Its name for people.
    pub fn shown(&self) -> String {
        match self.name == Path::new(DASH) {
            true => "standard input".to_string(),
            false => shown(self.name.as_os_str()),
        }
    }

    /// Gives a seek the bytes that it asks for, until it asks no more. Chunks may be as small as 8 bytes, so they are read through a window.
    pub fn walk(&self, mut seek: Seek) -> Result<Seek, End> {
        let mut window = BufReader::with_capacity(WINDOW, &self.file);
        io::Seek::rewind(&mut window).map_err(|error| self.unread(&error))?;
        let mut progress = Progress::of(self.shown(), self.was.len());
        let (mut at, mut bytes, mut pieces) = (0, [0; 16], 0);
        while let Some((place, count)) = seek.wanted() {
            // a clock is slower than a piece
            if pieces % 4096 == 0 {
                progress.show(place);
            }
            pieces += 1;
            let part = &mut bytes[..count];
            let moved = window.seek_relative(place as i64 - at);
            moved
                .and_then(|()| window.read_exact(part))
                .map_err(|error| self.unread(&error))?;
            at = (place + count as u64) as i64;
            seek.give(part);
        }
        Ok(seek)
    }

    /// The take in it, and the header of one as long; no take is too long to be tuned.
    pub fn take(&self) -> Result<(Take, [u8; 44]), End> {
        let refused = |number| self.refused(number);
        let seek = self.walk(Seek::take(self.was.len()))?;
        let take = seek.found().map_err(refused)?;
        let header = wave::header(take.hertz, take.count).map_err(refused)?;
        Ok((take, header))
    }

    /// What mending would do to its two sizes.
    pub fn mending(&self) -> Result<(Size, Size), Option<u32>> {
        let seek = self.walk(Seek::mending(self.was.len())).map_err(|_| None)?;
        seek.found_mending().map_err(Some)
    }

    /// A proved call refused it.
    pub fn refused(&self, number: u32) -> End {
        refusal::of(self, number)
    }

    /// Gives every block of the take to a call, one after the other, each with its number, in the same few kilobytes.
    pub fn blocks(
        &self,
        program: &str,
        take: &Take,
        mut call: impl FnMut(u16, &[i16]) -> Result<(), End>,
    ) -> Result<(), End> {
        let mut number = 0u16;
        self.stretches(program, take, LONGEST_BLOCK, |sung| {
            call(number, sung)?;
            // numbers of blocks begin again after 65535
            number = number.wrapping_add(1);
            Ok(())
        })
    }

    /// Gives all samples of the take to a call, so many at once.
    pub fn stretches(
        &self,
        program: &str,
        take: &Take,
        most: usize,
        mut call: impl FnMut(&[i16]) -> Result<(), End>,
    ) -> Result<(), End> {
        let mut from = BufReader::with_capacity(WINDOW, &self.file);
        io::Seek::seek(&mut from, io::SeekFrom::Start(take.at))
            .map_err(|error| self.unread(&error))?;
        let mut progress = Progress::of(format!("{program}: {}", self.shown()), take.count);
        let (mut sung, mut bytes) = (vec![0; most], vec![0; 2 * most]);
        let mut left = take.count;
        while left > 0 {
            let count = left.min(most as u64) as usize;
            let bytes = &mut bytes[..2 * count];
            from.read_exact(bytes)
                .map_err(|error| self.unread(&error))?;
            wave::samples(bytes, &mut sung);
            call(&sung[..count])?;
            left -= count as u64;
            progress.show(take.count - left);
        }
        Ok(())
    }

    /// Why it was not read. Nothing past the length that it had is asked for, so where it ends early it became shorter.
    pub fn unread(&self, error: &io::Error) -> End {
        match error.kind() {
            ErrorKind::UnexpectedEof => no(&self.name, "it became shorter while it was read"),
            _ => failed(&self.name, error),
        }
    }

    /// What was read is of one file only if nobody wrote to it meanwhile. Who sets back the time of a change (mtime) is seen by the time
    /// of that (ctime).
    pub fn unchanged(&self) -> Result<(), End> {
        let is = self
            .file
            .metadata()
            .map_err(|error| failed(&self.name, &error))?;
        match state(&is) == state(&self.was) {
            true => Ok(()),
            false => Err(no(
                &self.name,
                "it was changed while it was read; run it again",
            )),
        }
    }
}

fn state(of: &Metadata) -> (u64, [i64; 4]) {
    let times = [of.mtime(), of.mtime_nsec(), of.ctime(), of.ctime_nsec()];
    (of.len(), times)
}
