//! `daxfolin report`: figures of the takes in files, each of them a take, and
//! of them all.

use crate::delivery::{Delivery, Part};
use crate::midi::by_keys;
use crate::song::Song;
use crate::source::Source;
use crate::{apart, settings, started};
use daxfolin::{Tuner, LONGEST_BLOCK, TAKEN};
use std::fmt;
use std::path::{Path, PathBuf};
use words::end::{shown, End, FILE, REFUSED};
use words::request::{Report, Take};
use words::standard::print;

pub const PROGRAM: &str = "daxfolin report";

/// The most takes of a report, and what more are answered.
const MOST_TAKES: usize = 1000;
const TOO_MANY_TAKES: u32 = 28;
/// So many samples are taken by one call, in blocks of 512.
const STRETCH: usize = 64 * LONGEST_BLOCK;
const HEADING: &str = "file\tsamples\tpitched\trepeated\tdropped\tsum\tmean\tremainder\trefusal\n";

pub fn run(request: &Report) -> Result<(), End> {
    if request.from.is_empty() {
        return apart::REPORT.run(PROGRAM);
    }
    let count = request.from.len();
    if count > MOST_TAKES {
        let why = format!("{count} files: 28, {}", daxfolin::words(TOO_MANY_TAKES));
        return Err(End::Refused(TOO_MANY_TAKES, why));
    }
    // settings that no take could have are refused before the first is read
    started(Tuner::start_plain(daxfolin::CD, settings(&request.take, daxfolin::CD)).0)?;
    let song = request.song.as_ref().map(Song::of).transpose()?;
    let mut takes = Vec::new();
    for file in &request.from {
        match figures(file, &request.take, song.as_ref()) {
            Err(end) if count == 1 => return Err(end),
            Err(end) => {
                end.say(PROGRAM);
                takes.push(Err(end));
            }
            taken => takes.push(taken),
        }
    }
    print(&report(request, &takes))?;
    let worst = |status| {
        takes
            .iter()
            .any(|take| take.as_ref().is_err_and(|end| end.status() == status))
    };
    match [FILE, REFUSED].into_iter().find(|status| worst(*status)) {
        None => Ok(()),
        Some(status) => Err(End::Said(status)),
    }
}

/// A line for each take, and one for the total.
fn report(request: &Report, takes: &[Result<Figures, End>]) -> String {
    let taken = takes.iter().filter_map(|take| take.as_ref().ok());
    let total = taken.fold(Figures::default(), Figures::and);
    let named = request.from.iter().zip(takes);
    let line = |(file, take): (&PathBuf, &Result<Figures, End>)| match take {
        Ok(figures) => line(request, file, &figures.to_string(), "0"),
        Err(End::Refused(number, _)) => unread(request, file, &number.to_string()),
        Err(_) => unread(request, file, "-"),
    };
    let heading = if request.tsv { HEADING } else { "" };
    let summed = self::line(request, Path::new("total"), &total.to_string(), "");
    let lines: String = named.map(line).collect();
    heading.to_string() + &lines + &summed
}

fn line(request: &Report, file: &Path, figures: &str, refusal: &str) -> String {
    match request.tsv {
        true => format!("{}\t{figures}\t{refusal}\n", shown(file.as_os_str())),
        false => format!("{figures}\n"),
    }
}

/// The line of a file without figures.
fn unread(request: &Report, file: &Path, why: &str) -> String {
    match request.tsv {
        true => line(request, file, &"\t".repeat(6), why),
        false => format!("{why}\n"),
    }
}

/// The figures of a take, or of several: the last is the sum over all samples of the rate's distance from 65536.
#[derive(Clone, Copy, Debug, Default, PartialEq)]
struct Figures {
    samples: u64,
    pitched: u64,
    repeated: u64,
    dropped: u64,
    sum: u64,
}

impl Figures {
    fn and(self, other: &Figures) -> Figures {
        Figures {
            samples: self.samples + other.samples,
            pitched: self.pitched + other.pitched,
            repeated: self.repeated + other.repeated,
            dropped: self.dropped + other.dropped,
            sum: self.sum + other.sum,
        }
    }

    /// The mean's whole part, and its remainder over the samples.
    fn mean(&self) -> (u64, u64) {
        match self.samples {
            0 => (0, 0),
            samples => (self.sum / samples, self.sum % samples),
        }
    }
}

impl fmt::Display for Figures {
    fn fmt(&self, to: &mut fmt::Formatter) -> fmt::Result {
        let (mean, remainder) = self.mean();
        write!(
            to,
            "{}\t{}\t{}\t{}\t{}\t{mean}\t{remainder}",
            self.samples, self.pitched, self.repeated, self.dropped, self.sum
        )
    }
}

/// Those of the take in a file, once it is known that nobody wrote to it meanwhile.
fn figures(name: &Path, how: &Take, song: Option<&Song>) -> Result<Figures, End> {
    let source = Source::of(name)?;
    let (take, _) = source.take()?;
    let settings = settings(how, take.hertz);
    let wanted = match song {
        Some(_) => by_keys(settings),
        None => settings,
    };
    let (number, tuner) = Tuner::start_plain(take.hertz, wanted);
    started(number)?;
    let played = song.map(|song| song.played(PROGRAM, &source, &take, settings));
    let played = played.transpose()?;
    let mut delivery = Delivery::of(played.as_ref().map_or(&[], |played| &played.keys));
    let mut counting = Counting {
        tuner,
        number: 0,
        figures: Figures::default(),
        out: vec![0; STRETCH],
    };
    source.stretches(PROGRAM, &take, STRETCH, |sung| {
        let counted = delivery.give(sung, |part| counting.part(part));
        counted.map_err(|number| source.refused(number))
    })?;
    source.unchanged()?;
    if let Some(played) = &played {
        played.remark(PROGRAM, &source);
    }
    Ok(counting.figures)
}

/// A take whose figures are added up: each is counted by the proved calls.
struct Counting {
    tuner: Tuner,
    /// The next block's number.
    number: u16,
    figures: Figures,
    /// What the tuner writes, which a report has no need of.
    out: Vec<i16>,
}

impl Counting {
    fn part(&mut self, part: Part) -> Result<(), u32> {
        match part {
            Part::Keys(bytes) => match self.tuner.midi(bytes) {
                TAKEN => Ok(()),
                number => Err(number),
            },
            Part::Block(_, sung) => self.night(sung),
        }
    }

    fn night(&mut self, sung: &[i16]) -> Result<(), u32> {
        let tuner = &mut self.tuner;
        let answer = tuner.night(self.number, LONGEST_BLOCK, sung, &mut self.out);
        if answer.number != TAKEN {
            return Err(answer.number);
        }
        // numbers of blocks begin again after 65535
        self.number = self.number.wrapping_add(answer.taken as u16);
        self.figures = self.figures.and(&Figures {
            samples: answer.written,
            pitched: answer.pitched,
            repeated: answer.repeated,
            dropped: answer.dropped,
            sum: answer.strayed,
        });
        Ok(())
    }
}

#[cfg(test)]
mod tests {
    use super::*;
    use words::request::Speed;

    fn request(files: &[&str], tsv: bool) -> Report {
        let take = Take {
            scale: 4095,
            eps: 100,
            floor: 100,
            speed: Speed::Decay(230),
            voices: Vec::new(),
        };
        let from = files.iter().map(PathBuf::from).collect();
        Report {
            take,
            song: None,
            from,
            tsv,
        }
    }

    fn figures([samples, pitched, repeated, dropped, sum]: [u64; 5]) -> Figures {
        Figures {
            samples,
            pitched,
            repeated,
            dropped,
            sum,
        }
    }

    /// The total's mean is of the total, and no mean of means.
    #[test]
    fn the_total_is_the_sum_of_the_takes() {
        let takes = [[1, 1, 0, 0, 9], [0; 5], [3, 2, 1, 4, 1]].map(|take| Ok(figures(take)));
        let lines = "1\t1\t0\t0\t9\t9\t0\n0\t0\t0\t0\t0\t0\t0\n3\t2\t1\t4\t1\t0\t1\n";
        let right = format!("{lines}4\t3\t1\t4\t10\t2\t2\n");
        assert_eq!(report(&request(&["a", "b", "c"], false), &takes), right);
    }

    /// A file without figures has its line, and the total is the others'.
    #[test]
    fn a_line_for_each_file() {
        let takes = [
            Err(End::Refused(24, String::new())),
            Ok(figures([1, 1, 0, 0, 9])),
            Err(End::File(String::new())),
        ];
        let files = ["a", "b", "c\n"];
        let plain = "24\n1\t1\t0\t0\t9\t9\t0\n-\n1\t1\t0\t0\t9\t9\t0\n";
        assert_eq!(report(&request(&files, false), &takes), plain);
        let tsv = format!(
            "{HEADING}a\t\t\t\t\t\t\t\t24\nb\t1\t1\t0\t0\t9\t9\t0\t0\n$'c\\n'\t\t\t\t\t\t\t\t-\ntotal\t1\t1\t0\t0\t9\t9\t0\t\n"
        );
        assert_eq!(report(&request(&files, true), &takes), tsv);
    }

    /// A thousand takes as long as takes can be: sums, and the total's remainder, need more than 32 bits.
    #[test]
    fn figures_of_more_than_32_bits() {
        let takes: Vec<Result<Figures, End>> = (0..1000)
            .map(|k| {
                let samples = 1_000_000_000 - k;
                let sum = samples * 65_536 - 11 * k * k;
                Ok(figures([samples, samples - 6 * k, 3 * k, 5 * k, sum]))
            })
            .collect();
        let report = report(&request(&vec!["a"; 1000], false), &takes);
        assert!(report.starts_with("1000000000\t1000000000\t0\t0\t65536000000000\t65536\t0\n"));
        let total =
            "999999500500\t999996503500\t1498500\t2497500\t65535963603599500\t65535\t996338332000";
        assert_eq!(report.lines().last(), Some(total));
    }
}
