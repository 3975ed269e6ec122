//! What was said of a take: a line for each figure, `name value`.

use super::room::{self, Room};
use super::version;
use std::fs::{self, Metadata};
use std::os::unix::fs::MetadataExt;
use std::path::Path;
use words::end::End;

/// How a take stands.
#[derive(Clone, Copy, Debug, Default, PartialEq, Eq)]
pub enum State {
    /// Its OUT may be there: whoever began it has not ended.
    #[default]
    Begun,
    Done,
    Refused,
    Failed,
}

const STATES: [(State, &str); 4] = [
    (State::Begun, "begun"),
    (State::Done, "done"),
    (State::Refused, "refused"),
    (State::Failed, "failed"),
];

impl State {
    pub fn name(self) -> &'static str {
        let named = STATES.iter().find(|named| named.0 == self);
        named.map_or("", |named| named.1)
    }
}

#[derive(Clone, Debug, Default, PartialEq)]
pub struct Record {
    pub state: State,
    /// The night made its OUT, and may write over it.
    pub own: bool,
    /// The night made its picture too, and may write over it.
    pub own_picture: bool,
    /// The number of its refusal.
    pub number: u64,
    pub version: String,
    pub machine: String,
    /// The take as it was read: its length, and when it was last changed.
    pub length: u64,
    pub changed: String,
    /// Milliseconds.
    pub spent: u64,
    pub voices: u64,
    pub hertz: u64,
    /// The figures of a report: samples, pitched samples, cycles repeated, cycles dropped, and the sum of the rate's distance from 65536.
    pub samples: u64,
    pub pitched: u64,
    pub repeated: u64,
    pub dropped: u64,
    pub sum: u64,
    /// In samples.
    pub latency_mean: u64,
    pub latency_most: u64,
    /// Samples of the notes sung, with all twelve notes; and of those on notes outside of the scale.
    pub sung: u64,
    pub outside: u64,
    /// Samples of the input that are clipped.
    pub clipped: u64,
    /// The bytes of its picture; 0 where none was drawn.
    pub drawn: u64,
    /// What was mended in the copy that was tuned.
    pub mended: String,
    /// What an earlier try said that failed.
    pub before: String,
    /// Why its picture failed.
    pub undrawn: String,
    /// Lines for people.
    pub said: Vec<String>,
}

impl Record {
    pub fn text(&self) -> String {
        let mut text = format!("state {}\n", self.state.name());
        let mut copy = self.clone();
        for (name, number) in copy.numbers() {
            text += &format!("{name} {number}\n");
        }
        for (name, words) in copy.words() {
            text += &format!("{name} {words}\n");
        }
        text += &format!("own {}\n", u8::from(self.own));
        text += &format!("own_picture {}\n", u8::from(self.own_picture));
        for line in &self.said {
            text += &format!("said {line}\n");
        }
        text + "end\n"
    }

    /// None where it is no whole record, as after a power cut.
    pub fn of(text: &str) -> Option<Record> {
        let mut record = Record::default();
        let lines = text.strip_suffix("end\n")?.lines();
        for line in lines {
            let (name, value) = line.split_once(' ')?;
            match name {
                "state" => record.state = STATES.iter().find(|state| state.1 == value)?.0,
                "own" => record.own = value == "1",
                "own_picture" => record.own_picture = value == "1",
                "said" => record.said.push(value.to_string()),
                _ => record.set(name, value)?,
            }
        }
        Some(record)
    }

    fn set(&mut self, name: &str, value: &str) -> Option<()> {
        for (own, number) in self.numbers() {
            if own == name {
                *number = value.parse().ok()?;
            }
        }
        let words = self.words().into_iter().filter(|words| words.0 == name);
        words.for_each(|(_, words)| *words = value.to_string());
        Some(())
    }

    fn numbers(&mut self) -> [(&'static str, &mut u64); 16] {
        [
            ("number", &mut self.number),
            ("length", &mut self.length),
            ("spent", &mut self.spent),
            ("voices", &mut self.voices),
            ("hertz", &mut self.hertz),
            ("samples", &mut self.samples),
            ("pitched", &mut self.pitched),
            ("repeated", &mut self.repeated),
            ("dropped", &mut self.dropped),
            ("sum", &mut self.sum),
            ("latency_mean", &mut self.latency_mean),
            ("latency_most", &mut self.latency_most),
            ("sung", &mut self.sung),
            ("outside", &mut self.outside),
            ("clipped", &mut self.clipped),
            ("drawn", &mut self.drawn),
        ]
    }

    fn words(&mut self) -> [(&'static str, &mut String); 6] {
        [
            ("version", &mut self.version),
            ("machine", &mut self.machine),
            ("changed", &mut self.changed),
            ("mended", &mut self.mended),
            ("before", &mut self.before),
            ("undrawn", &mut self.undrawn),
        ]
    }

    /// All that was said, in a line.
    pub fn words_of_it(&self) -> String {
        let more = [("no picture", &self.undrawn), ("before", &self.before)];
        let more = more.iter().filter(|more| !more.1.is_empty());
        let more = more.map(|(what, words)| format!("{what}: {words}"));
        let said: Vec<String> = self.said.iter().cloned().chain(more).collect();
        said.join("; ").replace('\t', " ")
    }

    pub fn read(name: &Path) -> Option<Record> {
        Record::of(&fs::read_to_string(name).ok()?)
    }

    pub fn write(&self, room: &Room, take: &Path) -> Result<(), End> {
        room::write(room, &room.said(take), &self.text())
    }

    /// Whether it is of the take as it is now.
    pub fn is_of(&self, take: &Metadata) -> bool {
        (self.length, &self.changed) == (take.len(), &changed(take))
    }

    /// Whether the take is done: it is tuned, and its picture is there where the night has pictures.
    pub fn is_done(&self, room: &Room, take: &Path, file: &Metadata, mend: bool) -> bool {
        let drawn = !room.pictures || self.is_drawn(&room.picture(take));
        drawn && self.is_tuned(file, &room.outs(take), mend)
    }

    /// Whether it is tuned: by this version, as the take is now, and what was made is there. What was taken for empty may want mending.
    pub fn is_tuned(&self, take: &Metadata, outs: &[impl AsRef<Path>], mend: bool) -> bool {
        let unmended = mend && self.samples == 0 && self.mended.is_empty();
        self.version == version() && self.is_of(take) && self.is_made(outs) && !unmended
    }

    /// Whether its picture is there, as long as it was drawn.
    pub fn is_drawn(&self, picture: &Path) -> bool {
        let there = fs::metadata(picture).is_ok_and(|is| is.is_file() && is.len() == self.drawn);
        self.state == State::Done && self.drawn > 0 && there
    }

    /// Whether what was made is there: a header of 44 bytes, and two for each sample.
    pub fn is_made(&self, outs: &[impl AsRef<Path>]) -> bool {
        let length = 44 + 2 * self.samples;
        let there =
            |out: &Path| fs::metadata(out).is_ok_and(|is| is.is_file() && is.len() == length);
        self.state == State::Done && outs.iter().all(|out| there(out.as_ref()))
    }
}

/// When a file was last written to.
pub fn changed(file: &Metadata) -> String {
    format!("{}.{:09}", file.mtime(), file.mtime_nsec())
}

#[cfg(test)]
mod tests {
    use super::*;

    #[test]
    fn there_and_back() {
        let record = Record {
            state: State::Refused,
            own: true,
            own_picture: true,
            number: 22,
            version: "daxfolin 1, calls of version 2".to_string(),
            sum: u64::MAX,
            mended: "4 0 87036".to_string(),
            said: vec!["a: 22, b".to_string(), String::new()],
            ..Record::default()
        };
        let text = record.text();
        assert_eq!(Record::of(&text), Some(record));
        for cut in [0, 5, text.len() / 2, text.len() - 1] {
            assert_eq!(Record::of(&text[..cut]), None, "{cut}");
        }
        assert_eq!(Record::of(&text.replace("sum 1", "sum x1")), None);
    }
}
