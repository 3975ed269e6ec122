//! Standard MIDI Files as cases and their answers as lines, so that any two
//! readers can be held to one another.
//!
//! A case is the letter f and then its fields, every number low byte first:
//! samples a second, u32; channel, u32, 0 for all; track, u32, 0 for all;
//! semitones, i32; milliseconds, i64; n, u32; n bytes of the file.
//!
//! The answer to a case is a line of tab-separated fields. Of a file that is
//! refused they are the number and the place. Else they are 0, the format, the
//! division and the number of tracks; every event as track:tick:what, where what
//! is the bytes of a message, two letters each, t and a tempo, end, or other;
//! the word keys; every key as sample:key and + or -; and the notes left out.

use crate::smf::{self, Choice, Event, Key, Line, Wrong};
use crate::waves::{array, bytes, hex, number};
use std::io::{self, BufRead, Write};

/// What a reader says of a file.
#[derive(Clone, Debug, PartialEq, Eq)]
pub struct Said {
    pub format: u32,
    pub division: u32,
    pub tracks: u32,
    /// Track, tick, what.
    pub events: Vec<(u32, u64, Event)>,
    pub line: Line,
}

/// A reader of files.
pub trait Songs {
    fn read(&self, file: &[u8], hertz: u32, choice: &Choice) -> Result<Said, Wrong>;
}

/// This program's own.
pub struct Independent;

impl Songs for Independent {
    fn read(&self, file: &[u8], hertz: u32, choice: &Choice) -> Result<Said, Wrong> {
        let song = smf::song(file)?;
        let line = song.line(hertz, choice);
        let tracks = song.tracks.len() as u32;
        let placed = |(number, track): (u32, smf::Track)| {
            let events = track.into_iter();
            events.map(move |(tick, event)| (number, tick, event))
        };
        Ok(Said {
            format: song.format,
            division: song.division,
            tracks,
            events: (1..).zip(song.tracks).flat_map(placed).collect(),
            line,
        })
    }
}

#[derive(Clone, Debug, PartialEq, Eq)]
pub struct Case {
    pub hertz: u32,
    pub choice: Choice,
    pub file: Vec<u8>,
}

impl Case {
    /// The next case; none at the input's end.
    pub fn read(from: &mut impl BufRead) -> io::Result<Option<Case>> {
        if from.fill_buf()?.is_empty() {
            return Ok(None);
        }
        let [what] = array(from)?;
        if what != b'f' {
            return Err(io::Error::other(format!("there is no case {what}")));
        }
        let hertz = number(from)?;
        let (channel, track) = (number(from)?, number(from)?);
        let choice = Choice {
            channel: (channel > 0).then_some(channel as u8),
            track: (track > 0).then_some(track),
            transpose: i32::from_le_bytes(array(from)?),
            offset: i64::from_le_bytes(array(from)?),
        };
        let file = bytes(from, 1)?;
        Ok(Some(Case {
            hertz,
            choice,
            file,
        }))
    }

    pub fn bytes(&self) -> Vec<u8> {
        let Choice {
            channel,
            track,
            transpose,
            offset,
        } = self.choice;
        let channel = u32::from(channel.unwrap_or(0));
        let track = track.unwrap_or(0);
        let parts: [&[u8]; 8] = [
            b"f",
            &self.hertz.to_le_bytes(),
            &channel.to_le_bytes(),
            &track.to_le_bytes(),
            &transpose.to_le_bytes(),
            &offset.to_le_bytes(),
            &(self.file.len() as u32).to_le_bytes(),
            &self.file,
        ];
        parts.concat()
    }

    pub fn said(&self, by: &impl Songs) -> Result<Said, Wrong> {
        by.read(&self.file, self.hertz, &self.choice)
    }

    /// The line that a reader answers, without its end.
    pub fn answer(&self, by: &impl Songs) -> String {
        match self.said(by) {
            Err(Wrong { number, at }) => format!("{number}\t{at}"),
            Ok(said) => line(&said),
        }
    }
}

fn line(said: &Said) -> String {
    let mut text = format!("0\t{}\t{}\t{}", said.format, said.division, said.tracks);
    for (track, tick, event) in &said.events {
        let what = match event {
            Event::Message(bytes) => hex(bytes),
            Event::Tempo(tempo) => format!("t{tempo}"),
            Event::End => "end".to_string(),
            Event::Other => "other".to_string(),
        };
        text += &format!("\t{track}:{tick}:{what}");
    }
    text += "\tkeys";
    for Key { sample, key, down } in &said.line.keys {
        let sign = if *down { '+' } else { '-' };
        text += &format!("\t{sample}:{key}{sign}");
    }
    text + &format!("\t{}", said.line.dropped)
}

/// Answers cases until the input ends.
pub fn answer_all(by: &impl Songs, from: &mut impl BufRead, to: &mut impl Write) -> io::Result<()> {
    while let Some(case) = Case::read(from)? {
        writeln!(to, "{}", case.answer(by))?;
    }
    to.flush()
}
