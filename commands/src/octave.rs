//! Keys in the octave that was found.
//!
//! The tuner often finds two cycles as one, and so a sung E3 as E2. By scale that
//! does not matter. A key in the sung octave then asks for twice the rate, and
//! the note leaps, or is not tuned. So each key is sent in the octave that lies
//! nearest to the period found at its place.
//!
//! The rule. A first pass over the take, with a scale of all twelve notes, gives
//! the rows: where a period was found, and the note nearest to it. Periods do not
//! depend on keys, so the second pass finds the same ones at the same samples.
//! While a key is held (the latest that went down, until it goes up), it is sent
//! anew at the first sample of each row: the same note of the scale in the octave
//! that lies nearest to the row's note, and where two are equally near, six
//! semitones below and above, in the one nearer to the key of the file. A key
//! that goes down within a row is sent so at once. Where there is no row there is
//! no period, and the key changes nothing: it is sent as the file says.

use crate::midi::{Key, Line};
use crate::rows::{rows, Row};
use crate::source::Source;
use daxfolin::wave::Take;
use daxfolin::{Settings, SCALE_MODE};
use words::end::End;

/// Semitones of an octave.
const OCTAVE: i32 = 12;

/// The scale of all twelve notes.
pub const ALL: u32 = 4095;

/// In which octave keys are sent.
#[derive(Clone, Copy, Debug, Default, PartialEq, Eq)]
pub enum Octave {
    /// In the one found.
    #[default]
    Nearest,
    /// As the file says.
    Exact,
}

impl Octave {
    /// By its word.
    pub fn of(word: &str) -> Option<Octave> {
        match word {
            "nearest" => Some(Octave::Nearest),
            "exact" => Some(Octave::Exact),
            _ => None,
        }
    }

    /// The keys of a line for the take in a file. The nearest octave takes a first pass over it, with these settings but for scale and mode.
    pub fn keys(
        self,
        program: &'static str,
        source: &Source,
        take: &Take,
        settings: Settings,
        line: &Line,
    ) -> Result<Vec<Key>, End> {
        if self == Octave::Exact {
            return Ok(line.keys.clone());
        }
        let first = Settings {
            scale: ALL,
            mode: SCALE_MODE,
            ..settings
        };
        Ok(nearest(&line.keys, &rows(program, source, take, first)?))
    }
}

/// A stretch of samples in which a key is wanted.
#[derive(Clone, Copy, Debug, PartialEq, Eq)]
pub struct Held {
    pub key: u8,
    pub from: u64,
    pub to: u64,
}

/// The keys of a line, each in the octave that was found. Rows are those of a first pass with all twelve notes.
pub fn nearest(keys: &[Key], rows: &[Row]) -> Vec<Key> {
    let held = held(keys);
    let sent = held.iter().flat_map(|held| by_rows(held, rows));
    let moves = |Held { key, from, to }| {
        let on = |sample, down| Key { sample, key, down };
        [on(from, true), on(to, false)]
    };
    sent.flat_map(moves).collect()
}

/// The stretches in which a key is wanted: from the sample at which it goes down, until it goes up or another goes down.
pub fn held(keys: &[Key]) -> Vec<Held> {
    let mut all = Vec::new();
    let mut now: Option<(u8, u64)> = None;
    let mut end = |now: Option<(u8, u64)>, to: u64| {
        if let Some((key, from)) = now.filter(|&(_, from)| from < to) {
            all.push(Held { key, from, to });
        }
    };
    for &Key { sample, key, down } in keys {
        if down {
            end(now, sample);
            now = Some((key, sample));
        } else if now.is_some_and(|(held, _)| held == key) {
            end(now, sample);
            now = None;
        }
    }
    end(now, u64::MAX);
    all
}

/// A stretch parted where rows begin and end, each part with its own octave.
fn by_rows(held: &Held, rows: &[Row]) -> Vec<Held> {
    let first = rows.partition_point(|row| row.end() <= held.from);
    let within = rows[first..].iter().take_while(|row| row.first < held.to);
    let (mut parts, mut at) = (Vec::new(), held.from);
    let mut part = |key: u8, from: u64, to: u64| {
        if from < to {
            parts.push(Held { key, from, to });
        }
    };
    for row in within {
        part(held.key, at, row.first.max(at));
        let to = row.end().min(held.to);
        part(found(held.key, row.note), row.first.max(at), to);
        at = to;
    }
    part(held.key, at, held.to);
    joined(parts)
}

/// Neighbours with the same key are one.
fn joined(parts: Vec<Held>) -> Vec<Held> {
    let mut all: Vec<Held> = Vec::new();
    for part in parts {
        match all.last_mut() {
            Some(last) if last.key == part.key && last.to == part.from => last.to = part.to,
            _ => all.push(part),
        }
    }
    all
}

/// The key in the octave nearest to a note: of two that are equally near, the one nearer to the key itself.
fn found(key: u8, note: u8) -> u8 {
    let octaves = (0..128u8).filter(|other| i32::from(*other) % OCTAVE == i32::from(key) % OCTAVE);
    let far = |other: &u8| (other.abs_diff(note), other.abs_diff(key));
    octaves.min_by_key(far).unwrap_or(key)
}

#[cfg(test)]
mod tests {
    use super::*;
    use words::table::OCTAVES;

    #[test]
    fn each_word_of_the_table_is_one() {
        let octaves: Vec<_> = OCTAVES.iter().map(|word| Octave::of(word)).collect();
        assert_eq!(octaves, [Some(Octave::Nearest), Some(Octave::Exact)]);
        assert_eq!(Octave::of(OCTAVES[0]), Some(Octave::default()));
    }

    fn keys(keys: &[(u64, u8, bool)]) -> Vec<Key> {
        let key = |&(sample, key, down): &(u64, u8, bool)| Key { sample, key, down };
        keys.iter().map(key).collect()
    }

    fn row(note: u8, first: u64, length: u64) -> Row {
        Row {
            note,
            first,
            length,
        }
    }

    #[test]
    fn the_nearest_octave() {
        for (key, note, right) in [
            (52, 52, 52),
            (52, 40, 40),
            (52, 41, 40),
            (52, 45, 40),
            (52, 47, 52),
            (52, 64, 64),
            // six semitones either way: the one nearer to the key
            (52, 46, 52),
            (40, 46, 40),
            (64, 46, 52),
            (52, 58, 52),
            (0, 127, 120),
            (127, 0, 7),
            (11, 5, 11),
        ] {
            assert_eq!(found(key, note), right, "key {key}, note {note}");
        }
    }

    #[test]
    fn a_key_that_was_found_an_octave_lower_is_sent_there() {
        let played = keys(&[(100, 52, true), (900, 52, false)]);
        let sent = nearest(&played, &[row(40, 150, 500)]);
        let right = [
            (100, 52, true),
            (150, 52, false),
            (150, 40, true),
            (650, 40, false),
            (650, 52, true),
            (900, 52, false),
        ];
        assert_eq!(sent, keys(&right));
    }

    #[test]
    fn each_row_decides_for_itself() {
        let played = keys(&[(0, 52, true)]);
        let rows = [
            row(51, 10, 10),
            row(40, 20, 10),
            row(41, 30, 10),
            row(52, 40, 10),
        ];
        let sent = nearest(&played, &rows);
        let right = [
            (0, 52, true),
            (20, 52, false),
            (20, 40, true),
            (40, 40, false),
            (40, 52, true),
            (u64::MAX, 52, false),
        ];
        assert_eq!(sent, keys(&right));
    }

    #[test]
    fn a_key_within_a_row_is_sent_so_at_once() {
        let played = keys(&[
            (15, 60, true),
            (17, 62, true),
            (18, 60, false),
            (19, 62, false),
        ]);
        let sent = nearest(&played, &[row(50, 10, 100)]);
        let right = [
            (15, 48, true),
            (17, 48, false),
            (17, 50, true),
            (19, 50, false),
        ];
        assert_eq!(sent, keys(&right));
    }

    #[test]
    fn an_older_key_is_not_wanted_again() {
        let played = keys(&[
            (0, 60, true),
            (5, 64, true),
            (9, 64, false),
            (20, 60, false),
        ]);
        let right = [(0, 60, true), (5, 60, false), (5, 64, true), (9, 64, false)];
        assert_eq!(nearest(&played, &[]), keys(&right));
    }

    #[test]
    fn keys_of_no_length_are_left_out() {
        let played = keys(&[
            (5, 60, true),
            (5, 60, false),
            (6, 62, true),
            (6, 64, true),
            (7, 64, false),
        ]);
        assert_eq!(
            nearest(&played, &[]),
            keys(&[(6, 64, true), (7, 64, false)])
        );
    }
}
