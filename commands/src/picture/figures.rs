//! Figures for the eye, over what the proved calls said. Samples with a pitch,
//! cycles and the samples of each note are counts of theirs; shares, the median
//! and the percentile are taken of these here.

use super::heard::{Heard, Point};
use crate::octave::ALL;
use std::cmp::Reverse;
use words::scales::{sets, Set};

/// Sung farther from the wanted note than this, in cents, is drawn as far.
pub const FAR: f64 = 60.0;
/// Louder than this, 40 dB below full scale, singing should have a pitch.
const LOUD: f32 = 0.01;
/// More than one part of so many outside of the scale, and the scale is called wrong.
const WRONG: u64 = 5;
/// A scale holds what was sung from so many percent on.
const HOLDS: u64 = 95;
/// The most scales that are named.
const NAMED: usize = 5;

#[derive(Debug, PartialEq)]
pub struct Figures {
    /// Samples with a pitch.
    pub pitched: u64,
    pub repeated: u64,
    pub dropped: u64,
    /// Samples sung nearest to each of the twelve notes, C first.
    pub twelve: [u64; 12],
    /// How far from the wanted note, in cents: the median, and what 95 % are not over. None where no note was wanted.
    pub off: Option<[f64; 2]>,
    /// Samples of stretches that are loud and without a pitch.
    pub lost: u64,
}

impl Figures {
    pub fn of(heard: &Heard) -> Figures {
        let mut twelve = [0; 12];
        for row in &heard.sung {
            twelve[usize::from(row.note % 12)] += row.length;
        }
        let points = heard.points.iter();
        let mut off: Vec<f64> = points
            .clone()
            .filter_map(|point| point.cents().map(f64::abs))
            .collect();
        off.sort_by(f64::total_cmp);
        Figures {
            pitched: twelve.iter().sum(),
            repeated: points.clone().map(|point| u64::from(point.repeated)).sum(),
            dropped: points.clone().map(|point| u64::from(point.dropped)).sum(),
            twelve,
            off: (!off.is_empty()).then(|| [50, 95].map(|percent| rank(&off, percent))),
            lost: heard
                .stretches()
                .filter(|(_, point)| lost(point))
                .map(|(samples, _)| samples)
                .sum(),
        }
    }

    /// What was sung outside of the scale, or of the keys of the line, in samples.
    pub fn outside(&self, heard: &Heard) -> u64 {
        let twelve = (0..).zip(self.twelve);
        twelve
            .filter(|(note, _)| !heard.wants(*note))
            .map(|(_, sung)| sung)
            .sum()
    }

    pub fn verdict(&self, heard: &Heard) -> Verdict {
        let outside = self.outside(heard);
        if self.pitched == 0 {
            Verdict::Silent
        } else if heard.keys.is_some() {
            Verdict::Keys
        } else if heard.settings.scale == ALL {
            Verdict::All(self.best())
        } else if WRONG * outside > self.pitched {
            Verdict::Wrong(percent(outside, self.pitched), self.best())
        } else {
            Verdict::Right(percent(self.pitched - outside, self.pitched))
        }
    }

    /// The scales that hold what was sung, common kinds first; or the one that comes nearest.
    fn best(&self) -> Best {
        let inside = |set: &Set| -> u64 {
            let twelve = (0..).zip(self.twelve);
            let of_set = twelve.filter(|(note, _): &(u32, u64)| set.mask >> note & 1 == 1);
            of_set.map(|(_, sung)| sung).sum()
        };
        let mut scales: Vec<(u64, Set)> =
            sets().into_iter().map(|set| (inside(&set), set)).collect();
        // those that hold most first, by the whole percent, and of these the one whose tonic was sung longest
        scales.sort_by_key(|(inside, set)| {
            let tonic = self.twelve[set.tonic as usize];
            Reverse((100 * inside / self.pitched.max(1), tonic))
        });
        let holds = |(inside, _): &&(u64, Set)| 100 * inside >= HOLDS * self.pitched;
        let holding = scales.iter().filter(holds).count();
        scales.truncate(holding.max(1));
        scales.sort_by_key(|(_, set)| set.kind);
        let say = |(inside, set): &(u64, Set)| {
            format!("{} ({} %)", set.name, percent(*inside, self.pitched))
        };
        Best {
            names: scales.iter().take(NAMED).map(say).collect(),
            holding,
        }
    }
}

/// Scales for what was sung.
#[derive(Debug, PartialEq)]
pub struct Best {
    /// Each with its share.
    names: Vec<String>,
    /// How many hold it.
    holding: usize,
}

impl Best {
    fn words(&self) -> String {
        let (names, least) = (self.names.join(", "), format!("At least {HOLDS} %"));
        match self.holding.checked_sub(self.names.len()) {
            None => format!("No scale holds {HOLDS} % of what was sung; {names} comes nearest."),
            Some(0) => format!("{least} of what was sung is in {names}."),
            Some(more) => {
                format!("{least} of what was sung is in {names}, and in {more} scales more.")
            }
        }
    }
}

/// Whether the scale fits what was sung.
#[derive(Debug, PartialEq)]
pub enum Verdict {
    Silent,
    Keys,
    All(Best),
    /// Percent inside.
    Right(String),
    /// Percent outside.
    Wrong(String, Best),
}

impl Verdict {
    pub fn words(&self) -> String {
        match self {
            Verdict::Silent => "No pitch was found.".to_string(),
            Verdict::Keys => "The keys of the line are wanted, and no scale.".to_string(),
            Verdict::All(best) => format!("All twelve notes are wanted. {}", best.words()),
            Verdict::Right(percent) => {
                format!("{percent} % was sung nearest to notes of the scale.")
            }
            Verdict::Wrong(percent, best) => format!(
                "{percent} % was sung outside of the scale. {}",
                best.words()
            ),
        }
    }
}

/// Loud, and without a pitch.
pub fn lost(point: &Point) -> bool {
    point.level > LOUD && point.period == 0.0
}

/// The least of sorted values that so many percent of them are not over.
pub fn rank(sorted: &[f64], percent: usize) -> f64 {
    let at = (percent * sorted.len()).div_ceil(100);
    sorted[at.saturating_sub(1)]
}

/// A share in percent, to a tenth.
pub fn percent(part: u64, all: u64) -> String {
    let tenths = (1000 * part + all / 2) / all.max(1);
    format!("{}.{}", tenths / 10, tenths % 10)
}

#[cfg(test)]
mod tests {
    use super::*;

    fn sung(twelve: [u64; 12]) -> Figures {
        Figures {
            pitched: twelve.iter().sum(),
            repeated: 0,
            dropped: 0,
            twelve,
            off: None,
            lost: 0,
        }
    }

    #[test]
    fn the_rank_of_a_percentile() {
        let values: Vec<f64> = (1..=20).map(f64::from).collect();
        assert_eq!(
            [50, 95, 100].map(|percent| rank(&values, percent)),
            [10.0, 19.0, 20.0]
        );
        assert_eq!([50, 95].map(|percent| rank(&[7.0], percent)), [7.0, 7.0]);
        assert_eq!(
            [50, 95].map(|percent| rank(&[1.0, 2.0, 3.0], percent)),
            [2.0, 3.0]
        );
    }

    #[test]
    fn shares() {
        for (part, all, text) in [
            (0, 0, "0.0"),
            (1, 3, "33.3"),
            (2, 3, "66.7"),
            (5, 5, "100.0"),
            (1, 2000, "0.1"),
        ] {
            assert_eq!(percent(part, all), text);
        }
    }

    /// C D E F G A B and a little F#; then all twelve alike, which no scale holds.
    #[test]
    fn scales_that_hold_what_was_sung() {
        let best = sung([10, 0, 10, 0, 10, 10, 3, 10, 0, 10, 0, 10]).best();
        assert_eq!(
            (best.names, best.holding),
            (vec!["C-major / A-minor (95.9 %)".to_string()], 1)
        );
        let best = sung([10, 0, 10, 0, 10, 10, 4, 10, 0, 10, 0, 10]).best();
        assert_eq!(
            best.words(),
            "No scale holds 95 % of what was sung; C-major / A-minor (94.6 %) comes nearest."
        );
        let best = sung([10, 0, 10, 0, 10, 0, 0, 10, 0, 10, 0, 0]).best();
        let majors = [
            "C-major / A-minor",
            "G-major / E-minor",
            "F-major / D-minor",
        ];
        assert_eq!(
            best.names[..3],
            majors.map(|name| format!("{name} (100.0 %)"))
        );
        assert_eq!(best.names.len(), NAMED);
        let more = format!("and in {} scales more.", best.holding - NAMED);
        assert!(best.words().ends_with(&more));
        // of those that hold as much, the one whose tonic was sung longest
        let best = sung([0, 7, 0, 0, 13, 0, 0, 0, 0, 15, 0, 0]).best();
        assert_eq!(best.names[0], "A-major / F#-minor (100.0 %)");
        // a common scale that holds enough stands before one that holds more
        let best = sung([0, 5, 20, 0, 20, 20, 0, 20, 0, 20, 19, 0]).best();
        let both = ["F-major / D-minor (96.0 %)", "D-harmonic-minor (100.0 %)"];
        assert_eq!(best.names, both);
    }
}
