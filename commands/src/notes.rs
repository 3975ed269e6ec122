//! `daxfolin notes`: the notes sung in a take, a row for each; or those of the
//! takes of the line program's input.

use crate::apart::lines_only;
use crate::lines::{each, Takes};
use crate::place::{finish, places, Output};
use crate::rows::rows;
use crate::score::score;
use crate::source::Source;
use crate::{seconds, settings, started};
use daxfolin::wave::Take;
use daxfolin::{no_voices, Meter, Settings, Tuner, LONGEST_BLOCK, MOST_ROWS, ROW, TAKEN};
use std::io::BufReader;
use std::path::Path;
use words::end::{say, End};
use words::request::{Form, Notes};
use words::scales::name;
use words::signals::note_all;
use words::standard::{self, print, unread};

pub const PROGRAM: &str = "daxfolin notes";

const HEADING: &str = "note\tfirst\tlength\tname\tstart\tend\tcents\n";

pub fn run(request: &Notes) -> Result<(), End> {
    match &request.from {
        None => lines(),
        Some(file) => notes(file, request),
    }
}

/// The rows of the take in a file, once it is known that nobody wrote to it meanwhile.
fn notes(file: &Path, request: &Notes) -> Result<(), End> {
    if let Form::Midi { to, over } = &request.form {
        return midi(file, request, to, *over);
    }
    let source = Source::of(file)?;
    let (take, _) = source.take()?;
    let mut list = List::start(take.hertz, settings(&request.take, take.hertz))?;
    let steps = request.form == Form::Tsv;
    source.blocks(PROGRAM, &take, |_, sung| {
        let listed = if steps {
            list.by_steps(sung)
        } else {
            list.block(sung)
        };
        listed.map_err(|number| source.refused(number))
    })?;
    source.unchanged()?;
    let heading = if steps { HEADING } else { "" };
    let least = request.least * f64::from(take.hertz) / 1000.0;
    let rows = list.rows().filter(|row| f64::from(row.length) >= least);
    let lines: String = rows.map(|row| row.line(&take, &request.form)).collect();
    print(&format!("{heading}{lines}"))?;
    let (_, left) = list.tuner.rows();
    if left > 0 {
        let most = format!("{left} rows more are left out: a list has {MOST_ROWS} at most");
        say(PROGRAM, &most);
    }
    Ok(())
}

/// The rows of the take in a file as a MIDI file, which is whole or not there.
fn midi(file: &Path, request: &Notes, to: &Path, over: bool) -> Result<(), End> {
    note_all();
    let source = Source::of(file)?;
    let (take, _) = source.take()?;
    let settings = settings(&request.take, take.hertz);
    let mut places = places(to, 0, &[&source], over)?;
    let least = request.least * f64::from(take.hertz) / 1000.0;
    let mut rows = rows(PROGRAM, &source, &take, settings)?;
    rows.retain(|row| row.length as f64 >= least);
    source.unchanged()?;
    let score = score(&rows, take.count, take.hertz);
    let outputs = places.drain(..).map(|place| Output::at(place, &score));
    finish(PROGRAM, outputs.collect::<Result<_, _>>()?)?;
    print(&format!("{} notes\n", rows.len()))
}

/// A row of the list.
struct Row {
    note: u32,
    first: u32,
    length: u32,
    /// How far above the note it was sung, on average.
    cents: f64,
}

impl Row {
    fn line(&self, take: &Take, form: &Form) -> String {
        let Row {
            note,
            first,
            length,
            cents,
        } = self;
        let (name, end) = (name(*note), first + length);
        let at = |sample: u32| seconds(u64::from(sample), take.hertz);
        let exact = |sample: u32| f64::from(sample) / f64::from(take.hertz);
        match form {
            Form::Plain | Form::Midi { .. } => {
                format!("{note}\t{first}\t{length}\t{name}\t{}\n", at(*first))
            }
            Form::Tsv => format!(
                "{note}\t{first}\t{length}\t{name}\t{}\t{}\t{cents:.1}\n",
                at(*first),
                at(end)
            ),
            Form::Labels => format!("{:.6}\t{:.6}\t{name}\n", exact(*first), exact(end)),
        }
    }
}

/// A tuner that keeps a list.
struct List {
    tuner: Tuner,
    store: Vec<u32>,
    /// Of each row, the sum over its samples of how far above the note they were.
    cents: Vec<f64>,
    number: u16,
    samples: u64,
}

impl List {
    fn start(hertz: u32, settings: Settings) -> Result<List, End> {
        let store = vec![0; ROW * MOST_ROWS];
        let (number, tuner) = Tuner::start(hertz, settings, true, &[], &store);
        started(number)?;
        Ok(List {
            tuner,
            store,
            cents: vec![0.0; MOST_ROWS],
            number: 0,
            samples: 0,
        })
    }

    fn block(&mut self, sung: &[i16]) -> Result<(), u32> {
        let (tuned, store) = (&mut [0; LONGEST_BLOCK], &mut self.store);
        let answer = self
            .tuner
            .block_with(self.number, sung, tuned, no_voices(), store);
        // numbers of blocks begin again after 65535
        self.number = self.number.wrapping_add(1);
        self.samples += sung.len() as u64;
        match answer.number {
            TAKEN => Ok(()),
            number => Err(number),
        }
    }

    /// In blocks within which period and note stay, so that each sample's own are known.
    fn by_steps(&mut self, sung: &[i16]) -> Result<(), u32> {
        steps(self.samples, sung).try_for_each(|block| {
            self.block(block)?;
            if let (Meter::Pitched { period, wanted, .. }, Some(row)) =
                (self.tuner.meter(), self.last_row())
            {
                let cents = 1200.0 * (f64::from(wanted) / f64::from(period)).log2();
                self.cents[row] += cents * block.len() as f64;
            }
            Ok(())
        })
    }

    /// The row of the run that began last; none where it was left out.
    fn last_row(&self) -> Option<usize> {
        match self.tuner.rows() {
            (rows, 0) => (rows as usize).checked_sub(1),
            _ => None,
        }
    }

    fn rows(&self) -> impl Iterator<Item = Row> + '_ {
        let (rows, _) = self.tuner.rows();
        let rows = self.store.chunks_exact(ROW).take(rows as usize);
        rows.zip(&self.cents).map(|(row, cents)| Row {
            note: row[0],
            first: row[1],
            length: row[2],
            cents: cents / f64::from(row[2]),
        })
    }
}

/// Cuts samples behind so many others into blocks within which period, wanted note and rate stay as they are at the block's end.
///
/// The library tells them where a block ends, and not at each sample. They change at tracking steps alone, the one at which tracking is
/// lost among them, and these come where the count of samples is a multiple of 5: a lag that is found leaves the rate level and no period
/// until the first step. So no such count lies within a block, but for its first sample's. How a take is cut alters nothing else.
fn steps(mut before: u64, mut sung: &[i16]) -> impl Iterator<Item = &[i16]> {
    std::iter::from_fn(move || {
        let until = 5 - (before + 1) % 5;
        let (block, rest) = sung.split_at(sung.len().min(until as usize));
        before += block.len() as u64;
        sung = rest;
        (!block.is_empty()).then_some(block)
    })
}

/// The rows of each take of the line program's input, as soon as it has ended.
fn lines() -> Result<(), End> {
    lines_only()?;
    let input = standard::input().map_err(|error| unread(&error))?;
    let mut takes = Takes::default();
    each(
        BufReader::new(input),
        |error| unread(&error),
        |line| takes.line(line).map_or(Ok(()), |rows| print(&rows)),
    )?;
    print(&takes.rows())
}

#[cfg(test)]
mod tests {
    use super::*;

    #[test]
    fn blocks_end_before_each_fifth_sample() {
        let sung = [0; 13];
        for (before, lengths) in [
            (0, &[4, 5, 4][..]),
            (4, &[5, 5, 3]),
            (3, &[1, 5, 5, 2]),
            (7, &[2, 5, 5, 1]),
        ] {
            let blocks: Vec<usize> = steps(before, &sung).map(<[i16]>::len).collect();
            assert_eq!(blocks, lengths, "{before}");
        }
    }
}
