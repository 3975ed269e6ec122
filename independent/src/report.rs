//! The report, as document 02 asks for it (K14): figures counted over all
//! samples of each take, and their sum.

use crate::rules::{Cycle, LEVEL_RATE};
use std::fmt;

/// The most takes of a report.
pub const MOST_TAKES: usize = 1_000;
/// What is printed of more.
pub const TOO_MANY_TAKES: usize = 28;

/// What a report counts of a sample.
#[derive(Clone, Copy, Debug, PartialEq, Eq)]
pub struct Sounded {
    /// There is a period after it.
    pub pitched: bool,
    /// By which the read position grew at it.
    pub rate: i64,
    pub cycle: Cycle,
}

impl Sounded {
    /// How far the rate is from 65536.
    pub fn distance(&self) -> u64 {
        self.rate.abs_diff(LEVEL_RATE)
    }
}

/// The figures of a take, or of several.
#[derive(Clone, Copy, Debug, Default, PartialEq, Eq)]
pub struct Figures {
    pub samples: u64,
    pub pitched: u64,
    pub repeated: u64,
    pub dropped: u64,
    /// Of the distances of the samples' rates from 65536.
    pub sum: u64,
}

impl Figures {
    /// Those of a take, counted over all its samples.
    pub fn of(take: &[Sounded]) -> Figures {
        let count = |is: fn(&Sounded) -> bool| take.iter().filter(|sample| is(sample)).count();
        Figures {
            samples: take.len() as u64,
            pitched: count(|sample| sample.pitched) as u64,
            repeated: count(|sample| sample.cycle == Cycle::Repeated) as u64,
            dropped: count(|sample| sample.cycle == Cycle::Dropped) as u64,
            sum: take.iter().map(Sounded::distance).sum(),
        }
    }

    /// The sum of the takes.
    pub fn total(takes: &[Figures]) -> Figures {
        let sum = |of: fn(&Figures) -> u64| takes.iter().map(of).sum();
        Figures {
            samples: sum(|take| take.samples),
            pitched: sum(|take| take.pitched),
            repeated: sum(|take| take.repeated),
            dropped: sum(|take| take.dropped),
            sum: sum(|take| take.sum),
        }
    }

    /// The mean of the distances: its whole part, and the remainder over the
    /// sample count; both 0 without samples.
    pub fn mean(&self) -> (u64, u64) {
        match self.samples {
            0 => (0, 0),
            samples => (self.sum / samples, self.sum % samples),
        }
    }
}

/// Seven fields, parted by tabs: the figures, and the mean's two parts.
impl fmt::Display for Figures {
    fn fmt(&self, to: &mut fmt::Formatter) -> fmt::Result {
        let Figures {
            samples,
            pitched,
            repeated,
            dropped,
            sum,
        } = self;
        let (mean, remainder) = self.mean();
        write!(
            to,
            "{samples}\t{pitched}\t{repeated}\t{dropped}\t{sum}\t{mean}\t{remainder}"
        )
    }
}

/// A line for each take and one for the total; of more takes than a report has,
/// the refusal alone.
pub fn report(takes: &[Figures]) -> String {
    if takes.len() > MOST_TAKES {
        return format!("{TOO_MANY_TAKES}\n");
    }
    let total = Figures::total(takes);
    let lines = takes.iter().chain([&total]);
    lines.map(|figures| format!("{figures}\n")).collect()
}
