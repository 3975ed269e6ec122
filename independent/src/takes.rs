//! The takes of a script: what happened in each, whatever the blocks and lines
//! that brought it, and what came out.

use crate::lines::Record;
use std::fmt;

/// Things of one sort that happen one after the other. Stretches of samples, and
/// of bytes, are as long as they can be.
#[derive(Clone, Debug, PartialEq, Eq)]
pub enum Stretch {
    Samples(Vec<i16>),
    /// Bytes of the keyboard.
    Bytes(Vec<u8>),
    /// The line that changes settings, mode or channel.
    Change(Vec<u8>),
}

/// All that happened from a start on, in its order.
#[derive(Clone, Debug, Default, PartialEq, Eq)]
pub struct Take {
    /// The line that starts it.
    pub start: Vec<u8>,
    pub stretches: Vec<Stretch>,
}

impl Take {
    /// What was taken from a line goes on where the last one ended.
    fn add(&mut self, line: &[u8], record: Record) {
        match (record, self.stretches.last_mut()) {
            (Record::Block(_, more), Some(Stretch::Samples(samples))) => samples.extend(more),
            (Record::Block(_, samples), _) => self.stretches.push(Stretch::Samples(samples)),
            (Record::Midi(more), Some(Stretch::Bytes(bytes))) => bytes.extend(more),
            (Record::Midi(bytes), _) => self.stretches.push(Stretch::Bytes(bytes)),
            _ => self.stretches.push(Stretch::Change(line.to_vec())),
        }
    }
}

/// A take, and what the answers gave of it in total.
#[derive(Clone, Debug, Default, PartialEq, Eq)]
pub struct Played {
    pub take: Take,
    /// Written, repeated and dropped, each summed.
    pub counts: [i64; 3],
    pub output: Vec<i64>,
}

impl Played {
    fn begun(start: &[u8]) -> Played {
        let mut played = Played::default();
        played.take.start = start.to_vec();
        played
    }

    /// A line that was taken, and the numbers that its answer has behind the 0:
    /// a block's, and else none.
    fn add(&mut self, line: &[u8], record: Record, numbers: &[i64]) {
        self.take.add(line, record);
        let (counts, samples) = numbers.split_at(numbers.len().min(self.counts.len()));
        for (sum, count) in self.counts.iter_mut().zip(counts) {
            *sum += count;
        }
        self.output.extend(samples);
    }
}

/// The takes of a script, by the answers to it: each goes from a start that was
/// taken to the next one, and there are no resets. What was not answered 0 changed
/// nothing: a block given again is not there a second time.
pub fn takes_of(script: &[u8], answers: &[u8]) -> Vec<Played> {
    let mut takes: Vec<Played> = Vec::new();
    for (line, answer) in lines_of(script).zip(lines_of(answers)) {
        let numbers = numbers_of(answer);
        let (Some(record), Some([0, numbers @ ..])) = (Record::on(line), numbers.as_deref()) else {
            continue;
        };
        match (record, takes.last_mut()) {
            (Record::Start(..), _) => takes.push(Played::begun(line)),
            (record, Some(played)) => played.add(line, record, numbers),
            (_, None) => {}
        }
    }
    takes
}

fn lines_of(bytes: &[u8]) -> impl Iterator<Item = &[u8]> {
    bytes.split(|&byte| byte == b'\n')
}

/// The numbers on an answer; None where it has something else.
fn numbers_of(answer: &[u8]) -> Option<Vec<i64>> {
    let text = std::str::from_utf8(answer).ok()?;
    text.split('\t').map(|field| field.parse().ok()).collect()
}

/// Why the cuttings of a take do not agree: the take and its cutting, both
/// counted from 1, and what is other than in its first cutting.
#[derive(Debug, PartialEq, Eq)]
pub struct Disagreement {
    pub take: usize,
    pub cutting: usize,
    pub what: String,
}

impl fmt::Display for Disagreement {
    fn fmt(&self, to: &mut fmt::Formatter) -> fmt::Result {
        let (take, cutting, what) = (self.take, self.cutting, &self.what);
        write!(
            to,
            "take {take}, cutting {cutting} against cutting 1: {what}"
        )
    }
}

/// Holds the cuttings of each take of a script to one another, by the answers to
/// it: the same happened, and the same came out. Each take comes in so many
/// cuttings, one after the other. Says how many takes there are, at least one.
pub fn hold_cuttings(script: &[u8], answers: &[u8], ways: usize) -> Result<usize, Disagreement> {
    let played = takes_of(script, answers);
    let takes = played.len().div_ceil(ways).max(1);
    for place in 0..takes * ways {
        let (take, cutting) = (place / ways, place % ways);
        let what = match played.get(place) {
            Some(other) => difference(&played[take * ways], other),
            None => Some("it is missing".to_string()),
        };
        if let Some(what) = what {
            return Err(Disagreement {
                take: take + 1,
                cutting: cutting + 1,
                what,
            });
        }
    }
    Ok(takes)
}

/// What is other in the second, if anything is.
fn difference(first: &Played, second: &Played) -> Option<String> {
    if first.take != second.take {
        return Some("not the same was taken".to_string());
    }
    let (counts, others) = (first.counts, second.counts);
    if counts != others {
        return Some(format!(
            "written, repeated and dropped sum to {others:?}, not {counts:?}"
        ));
    }
    let pairs = first.output.iter().zip(&second.output);
    let same = pairs.take_while(|(sample, other)| sample == other).count();
    let out = |played: &Played| match played.output.get(same) {
        Some(sample) => sample.to_string(),
        None => "missing".to_string(),
    };
    (first.output != second.output).then(|| {
        let (sample, other) = (out(first), out(second));
        format!("sample {} out is {other}, not {sample}", same + 1)
    })
}
