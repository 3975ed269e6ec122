//! The MIDI file that takes are tuned to. It is read once and whole, before the
//! first take.

use crate::midi::{self, Choice, Key, Line};
use crate::octave::Octave;
use crate::source::Source;
use daxfolin::wave::Take;
use daxfolin::{Settings, CD};
use std::io::Read;
use std::path::Path;
use words::end::{no, say, shown, End};
use words::request;

/// The longest file that is read.
const LONGEST: u64 = 1 << 28;

pub struct Song {
    pub source: Source,
    bytes: Vec<u8>,
    choice: Choice,
    octave: Octave,
}

impl Song {
    /// What is wrong with the file is said before the first take is looked at.
    pub fn of(asked: &request::Song) -> Result<Song, End> {
        let source = Source::of(&asked.file)?;
        let bytes = bytes(&source)?;
        let choice = Choice {
            channel: asked.channel,
            track: asked.track,
            transpose: asked.transpose,
            offset: asked.offset,
        };
        midi::line(&asked.file, &bytes, CD, &choice)?;
        Ok(Song {
            source,
            bytes,
            choice,
            octave: Octave::of(asked.octave).unwrap_or_default(),
        })
    }

    /// What it plays to a take that has these settings otherwise.
    pub fn played(
        &self,
        program: &'static str,
        source: &Source,
        take: &Take,
        settings: Settings,
    ) -> Result<Played<'_>, End> {
        let name = &self.source.name;
        let line = midi::line(name, &self.bytes, take.hertz, &self.choice)?;
        let keys = self.octave.keys(program, source, take, settings, &line)?;
        let past = |key: &&Key| key.down && key.sample >= take.count;
        Ok(Played {
            name,
            choice: &self.choice,
            past: line.keys.iter().filter(past).count(),
            line,
            keys,
        })
    }
}

/// All of a file. One that nobody plays, since it is far too long, is not read.
fn bytes(source: &Source) -> Result<Vec<u8>, End> {
    let length = source.was.len();
    if length > LONGEST {
        let why = format!("it has {length} bytes, and MIDI files are read up to {LONGEST}");
        return Err(no(&source.name, &why));
    }
    let mut bytes = vec![0; length as usize];
    let read = (&source.file).read_exact(&mut bytes);
    read.map_err(|error| source.unread(&error))?;
    source.unchanged().map(|()| bytes)
}

/// What is played to a take.
pub struct Played<'a> {
    name: &'a Path,
    choice: &'a Choice,
    line: Line,
    /// Keys of the line that go down behind the take's end.
    past: usize,
    /// As they are delivered.
    pub keys: Vec<Key>,
}

impl Played<'_> {
    /// The keys that went down, where so many moves of keys are left over.
    pub fn delivered(&self, left: usize) -> usize {
        let moves = &self.keys[..self.keys.len() - left];
        moves.iter().filter(|key| key.down).count()
    }

    /// Says what may not be what was meant.
    pub fn remark(&self, program: &str, source: &Source) {
        let (take, name) = (source.shown(), shown(self.name.as_os_str()));
        for remark in self.line.remarks(self.choice, self.past) {
            say(program, &format!("{take}: {name}: {remark}"));
        }
    }
}
