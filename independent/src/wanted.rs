//! The key that is wanted at each sample of a take that is tuned to a MIDI
//! file: the one that the file holds there, in the octave that was sung or as
//! the file says.

use crate::list::Note;
use crate::rules::LONGEST_BLOCK;
use crate::settings::{Settings, SCALE};
use crate::smf::Key;
use crate::statistics::Statistics;
use crate::tuner::{Answer, Tuner};

/// The semitones of an octave.
const OCTAVE: i32 = 12;
/// The scale of all twelve notes.
const TWELVE: u32 = 4095;
/// The highest key.
const HIGHEST: i32 = 127;

/// The keys of a file, sample after sample.
pub struct Wanted {
    keys: Vec<Key>,
    /// How many of them have come.
    come: usize,
    /// The key that they hold.
    held: Option<u8>,
    /// Samples so far.
    count: u64,
    /// Says what was sung at each sample; none where keys are meant as they are.
    singer: Option<Singer>,
}

impl Wanted {
    /// As the file says.
    pub fn exact(keys: Vec<Key>) -> Wanted {
        Wanted {
            keys,
            come: 0,
            held: None,
            count: 0,
            singer: None,
        }
    }

    /// Each key in the octave nearest to what was sung there.
    pub fn nearest(keys: Vec<Key>, hertz: u32, settings: Settings) -> Wanted {
        Wanted {
            singer: Some(Singer::start(hertz, settings)),
            ..Wanted::exact(keys)
        }
    }

    /// The key that is wanted at each of the next samples.
    pub fn at(&mut self, sung: &[i16]) -> Vec<Note> {
        let held: Vec<Note> = sung.iter().map(|_| self.next()).collect();
        let Some(singer) = &mut self.singer else {
            return held;
        };
        let notes = singer.notes(sung);
        let both = held.into_iter().zip(notes);
        both.map(|(key, note)| in_octave(key?, note)).collect()
    }

    /// The key that the file holds at the next sample: that of the latest note
    /// on, until that key is released.
    fn next(&mut self) -> Note {
        while let Some(key) = self.keys.get(self.come) {
            if key.sample > self.count {
                break;
            }
            if key.down {
                self.held = Some(key.key);
            } else if self.held == Some(key.key) {
                self.held = None;
            }
            self.come += 1;
        }
        self.count += 1;
        self.held
    }
}

/// A tuner to all twelve notes, whose wanted note is the one sung.
struct Singer {
    tuner: Tuner,
    number: u16,
}

impl Singer {
    fn start(hertz: u32, settings: Settings) -> Singer {
        let settings = Settings {
            scale: TWELVE,
            mode: SCALE,
            ..settings
        };
        Singer {
            tuner: Tuner::start(hertz, settings).1,
            number: 0,
        }
    }

    /// The note sung at each of the next samples.
    fn notes(&mut self, sung: &[i16]) -> Vec<Note> {
        let mut notes = Vec::new();
        for block in sung.chunks(LONGEST_BLOCK) {
            let seen = &mut Statistics::default();
            let out = &mut [0; LONGEST_BLOCK];
            let (answer, _) = self.tuner.block(self.number, block, out, seen);
            assert_eq!(answer, Answer::Taken, "blocks of a take are taken");
            self.number = self.number.wrapping_add(1);
            notes.extend_from_slice(self.tuner.notes());
            self.tuner.forget();
        }
        notes
    }
}

/// A key in the octave nearest to the note sung; as it is where none was sung.
/// Of two octaves as near, the one on the side of the key itself.
fn in_octave(key: u8, note: Note) -> Note {
    let Some(note) = note.map(i32::from) else {
        return Some(key);
    };
    let key = i32::from(key);
    let below = note - (note - key).rem_euclid(OCTAVE);
    let above = below + OCTAVE;
    let up = match (note - below, above - note) {
        (less, more) if less == more => key > note,
        (less, more) => more < less,
    };
    let key = match up && above <= HIGHEST || below < 0 {
        true => above,
        false => below,
    };
    Some(key as u8)
}

#[cfg(test)]
mod tests {
    use super::*;
    use crate::generator::cases::sung;
    use crate::settings::KEYBOARD;
    use crate::table::CD;

    fn key(sample: u64, key: u8, down: bool) -> Key {
        Key { sample, key, down }
    }

    /// The latest key counts until it is released, and another's release does
    /// not.
    #[test]
    fn the_key_held() {
        let keys = vec![
            key(1, 60, true),
            key(2, 62, true),
            key(3, 60, false),
            key(4, 62, false),
            key(5, 64, true),
            key(5, 64, false),
            key(6, 65, true),
            key(6, 65, true),
            key(8, 65, false),
        ];
        let right = [0, 60, 62, 62, 0, 0, 65, 65, 0, 0].map(|key| (key > 0).then_some(key));
        for cut in 0..10 {
            let mut wanted = Wanted::exact(keys.clone());
            let parts = [wanted.at(&vec![0; cut]), wanted.at(&vec![0; 10 - cut])];
            assert_eq!(parts.concat(), right, "cut at {cut}");
        }
    }

    /// Every key and every note: the same note of the scale, at most six
    /// semitones away unless there is no key there, and the nearer one.
    #[test]
    fn the_octave() {
        for key in 0..128u8 {
            assert_eq!(in_octave(key, None), Some(key));
            for note in 0..128u8 {
                let sent = in_octave(key, Some(note)).unwrap();
                assert!(sent < 128 && sent % 12 == key % 12);
                let far = sent.abs_diff(note);
                for other in (key % 12..128).step_by(12) {
                    let nearer = (other.abs_diff(note), other.abs_diff(key));
                    assert!((far, sent.abs_diff(key)) <= nearer, "{key} {note}");
                }
            }
        }
    }

    #[test]
    fn the_octave_that_was_sung() {
        let sung = sung();
        let mut singer = Singer::start(CD, Settings::DEFAULT);
        let notes = singer.notes(&sung);
        assert_eq!(notes.len(), sung.len());
        let keys = vec![key(0, 9, true)];
        // whatever scale and mode the take itself is tuned by
        let settings = Settings {
            scale: 1,
            mode: KEYBOARD,
            ..Settings::DEFAULT
        };
        let sent = Wanted::nearest(keys, CD, settings).at(&sung);
        let right = notes.iter().map(|note| in_octave(9, *note));
        assert!(sent.into_iter().eq(right));
        assert!(notes.contains(&Some(57)) && notes.contains(&None));
    }
}
