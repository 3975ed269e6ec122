//! The commands' reader of Standard MIDI Files, in the independent program's
//! words: events by the proved calls, and the line as `midi.rs` makes it.

use commands::midi::{played, Choice};
use daxfolin::smf::{self, What};
use independent::smf as theirs;
use independent::songs::{Said, Songs};

pub struct Played;

impl Songs for Played {
    fn read(
        &self,
        file: &[u8],
        hertz: u32,
        choice: &theirs::Choice,
    ) -> Result<Said, theirs::Wrong> {
        let wrong = |smf::Refused { number, at }| theirs::Wrong { number, at };
        let read = smf::read(file).map_err(wrong)?;
        let line = played(&read, hertz, &ours(choice));
        let key = |key: &commands::midi::Key| theirs::Key {
            sample: key.sample,
            key: key.key,
            down: key.down,
        };
        Ok(Said {
            format: read.head.format,
            division: read.head.division,
            tracks: read.head.tracks,
            events: read.events.iter().map(event).collect(),
            line: theirs::Line {
                keys: line.keys.iter().map(key).collect(),
                dropped: line.dropped,
            },
        })
    }
}

fn ours(choice: &theirs::Choice) -> Choice {
    Choice {
        channel: choice.channel,
        track: choice.track,
        transpose: choice.transpose,
        offset: choice.offset,
    }
}

fn event(event: &smf::Event) -> (u32, u64, theirs::Event) {
    let what = match event.what {
        What::Message {
            status: status @ 0xC0..=0xDF,
            first,
            ..
        } => theirs::Event::Message(vec![status, first]),
        What::Message {
            status,
            first,
            second,
        } => theirs::Event::Message(vec![status, first, second]),
        What::Tempo(tempo) => theirs::Event::Tempo(tempo),
        What::End => theirs::Event::End,
        What::Other => theirs::Event::Other,
    };
    (event.track, event.tick, what)
}
