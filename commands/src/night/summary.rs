//! The report over all takes of a night: figures of each take are read from what
//! proved calls answered, and here only added up, exactly.

use super::record::{Record, State};
use super::room::Room;
use super::takes::Listed;
use crate::{grouped, seconds};
use std::path::PathBuf;
use std::time::{Duration, SystemTime, UNIX_EPOCH};
use words::end::shown;

/// More than so many percent sung outside of the scale is looked at first.
const MOST_OUTSIDE: u64 = 20;

/// Parts of the report.
pub const SUSPICIOUS: &str = "Look at these first";
pub const UNDRAWN: &str = "Without a picture";
pub const MENDED: &str = "A mended copy was tuned, and the take is as it was";

const HEADING: &str = "take\tstate\trefusal\thertz\tsamples\tpitched\trepeated\tdropped\tsum\tmean\tremainder\tseconds\tspent_seconds\tlatency_mean\tlatency_most\tsung\toutside\tclipped\tmachine\tversion\tlook_at\tsaid\n";

pub struct Report {
    takes: Vec<Entry>,
    /// Each take should have a picture.
    pictures: bool,
    spent: Duration,
}

/// A take, and what was said of it.
pub struct Entry {
    /// Its place in the report, from 0.
    pub at: usize,
    /// For people.
    pub name: String,
    /// From IN_DIR on.
    pub take: PathBuf,
    pub record: Record,
    /// Its picture is there.
    pub drawn: bool,
}

/// The figures of all takes. A sum of 64-bit numbers over any number of takes has room in 128 bits.
#[derive(Default)]
struct Total {
    takes: usize,
    samples: u128,
    pitched: u128,
    repeated: u128,
    dropped: u128,
    sum: u128,
    /// Thousandths of a second, of sound and of work.
    sound: u128,
    work: u128,
}

impl Total {
    fn add(&mut self, record: &Record) {
        self.takes += 1;
        for (sum, number) in [
            (&mut self.samples, record.samples),
            (&mut self.pitched, record.pitched),
            (&mut self.repeated, record.repeated),
            (&mut self.dropped, record.dropped),
            (&mut self.sum, record.sum),
            (&mut self.sound, 1000 * record.samples / record.hertz.max(1)),
            (&mut self.work, record.spent),
        ] {
            *sum += u128::from(number);
        }
    }
}

impl Total {
    /// Cycles repeated, and dropped.
    fn cycles(&self) -> [String; 2] {
        [self.repeated, self.dropped].map(|count| grouped(count as u64))
    }
}

/// The mean's whole part, and its remainder over the samples.
fn mean(sum: u128, samples: u128) -> (u128, u128) {
    match samples {
        0 => (0, 0),
        samples => (sum / samples, sum % samples),
    }
}

impl Report {
    pub fn of(room: &Room, all: &Listed, spent: Duration) -> Report {
        let entry = |take: PathBuf| {
            let record = Record::read(&room.said(&take)).unwrap_or_default();
            Entry {
                at: 0,
                name: shown(take.as_os_str()),
                drawn: record.is_drawn(&room.picture(&take)),
                take,
                record,
            }
        };
        let names = all.takes.iter().map(|take| take.name.clone());
        let mut takes: Vec<Entry> = names.map(entry).collect();
        takes.sort_by(|one, other| one.name.cmp(&other.name));
        let places = takes.iter_mut().enumerate();
        places.for_each(|(at, take)| take.at = at);
        Report {
            takes,
            pictures: room.pictures,
            spent,
        }
    }

    pub fn takes(&self) -> &[Entry] {
        &self.takes
    }

    pub fn with(&self, state: State) -> impl Iterator<Item = &Entry> {
        self.takes
            .iter()
            .filter(move |take| take.record.state == state)
    }

    /// The takes that are tuned and should have a picture, and have none.
    pub fn undrawn(&self) -> impl Iterator<Item = &Entry> {
        self.with(State::Done)
            .filter(|take| self.pictures && !take.drawn)
    }

    pub fn refused(&self) -> bool {
        self.with(State::Refused).next().is_some()
    }

    /// Or not even ended, or without a picture.
    pub fn failed(&self) -> bool {
        self.with(State::Failed)
            .chain(self.with(State::Begun))
            .chain(self.undrawn())
            .next()
            .is_some()
    }

    fn total(&self) -> Total {
        let mut total = Total::default();
        self.with(State::Done)
            .for_each(|take| total.add(&take.record));
        total
    }

    /// What a producer looks at first: the takes that look wrong, those without an OUT, and the total.
    pub fn head(&self, room: &Room) -> String {
        let full = shown(room.kept("report.txt").as_os_str());
        format!("{}\nThe report of every take: {full}\n", self.top())
    }

    fn top(&self) -> String {
        let mut text = String::new();
        let named = |take: &Entry, what: &str| format!("  {}: {what}\n", take.name);
        let suspicious = self.suspicious().map(|(take, why)| named(take, &why));
        text += &part(SUSPICIOUS, suspicious);
        text += &part("Refused", self.with(State::Refused).map(said));
        text += &part("Failed", self.with(State::Failed).map(said));
        let undrawn = self.undrawn();
        let undrawn = undrawn.map(|take| named(take, why_undrawn(&take.record)));
        text += &part(UNDRAWN, undrawn);
        let mended = self.mended();
        text += &part(MENDED, mended.map(|take| named(take, &take.record.mended)));
        text + &self.totals()
    }

    /// What looks wrong, and why.
    pub fn suspicious(&self) -> impl Iterator<Item = (&Entry, String)> {
        let done = self.with(State::Done);
        let done = done.map(|take| (take, look_at(&take.record)));
        done.filter(|(_, why)| !why.is_empty())
    }

    pub fn mended(&self) -> impl Iterator<Item = &Entry> {
        self.with(State::Done)
            .filter(|take| !take.record.mended.is_empty())
    }

    fn totals(&self) -> String {
        let total = self.total();
        let [refused, failed, waiting] =
            [State::Refused, State::Failed, State::Begun].map(|state| self.with(state).count());
        let counts = [
            (refused, "refused"),
            (failed, "failed"),
            (self.undrawn().count(), "without a picture"),
            (waiting, "not done yet"),
        ];
        let counts = counts.iter().filter(|count| count.0 > 0);
        let counts: String = counts
            .map(|(count, what)| format!(", {count} {what}"))
            .collect();
        let (all, [repeated, dropped]) = (self.takes.len(), total.cycles());
        let mut text = format!("{} of {all} takes tuned{counts}\n", total.takes);
        text += &format!(
            "{} of sound, each take at {} times real time; this run took {}\n",
            clock((total.sound / 1000) as u64),
            tenths(total.sound, total.work),
            clock(self.spent.as_secs())
        );
        text += &format!(
            "{} % of the samples pitched, {repeated} cycles repeated, {dropped} dropped{}\n",
            tenths(100 * total.pitched, total.samples),
            self.latest().map_or(String::new(), |latest| format!(
                ", the greatest delay {latest}"
            ))
        );
        text
    }

    /// The greatest delay, and the take that has it.
    fn latest(&self) -> Option<String> {
        let latest = self
            .with(State::Done)
            .max_by_key(|take| take.record.latency_most)?;
        let samples = latest.record.latency_most;
        let time = tenths(1000 * u128::from(samples), latest.record.hertz.into());
        Some(format!("{samples} samples ({time} ms) in {}", latest.name))
    }

    /// The totals of a page: words and figures, none of which depends on how fast it was.
    pub fn figures(&self) -> Vec<(&'static str, String)> {
        let total = self.total();
        let [repeated, dropped] = total.cycles();
        let count = |state| self.with(state).count().to_string();
        let mut figures = vec![
            (
                "takes tuned",
                format!("{} of {}", total.takes, self.takes.len()),
            ),
            ("refused", count(State::Refused)),
            ("failed", count(State::Failed)),
            ("without a picture", self.undrawn().count().to_string()),
            ("not done yet", count(State::Begun)),
            (
                "sound",
                format!(
                    "{} ({} s)",
                    clock((total.sound / 1000) as u64),
                    thousandths(total.sound)
                ),
            ),
            (
                "pitched",
                format!("{} %", tenths(100 * total.pitched, total.samples)),
            ),
            ("cycles", format!("{repeated} repeated, {dropped} dropped")),
            ("greatest delay", self.latest().unwrap_or_default()),
        ];
        // what every night has is refused and failed, if only 0
        let seldom = ["without a picture", "not done yet"];
        figures.retain(|(what, figure)| {
            !figure.is_empty() && !(seldom.contains(what) && figure == "0")
        });
        figures
    }

    pub fn text(&self) -> String {
        let mut text = format!("Report of {}\n\n{}\n", date(), self.top());
        text += "Samples, pitched samples, cycles repeated, cycles dropped, the sum of the rate's distance from 65536, its mean and remainder:\n";
        for take in self.with(State::Done) {
            let figures = figures(&take.record).replace('\t', " ");
            text += &format!("  {figures}\t{}\n", take.name);
        }
        text + &format!(
            "  {}\ttotal\n",
            total_figures(&self.total()).replace('\t', " ")
        )
    }

    pub fn tsv(&self) -> String {
        let mut text = HEADING.to_string();
        for take in &self.takes {
            text += &row(&take.name, &take.record);
        }
        let total = self.total();
        text += &format!(
            "total\t\t\t\t{}\t{}\t{}\t\t\t\t\t\t\t\t\t\n",
            total_figures(&total),
            thousandths(total.sound),
            thousandths(total.work)
        );
        text
    }
}

fn row(name: &str, record: &Record) -> String {
    let state = match record.state {
        State::Begun => "waiting",
        state => state.name(),
    };
    let begin = format!("{name}\t{state}\t{}", record.number);
    let remarks = format!("{}\t{}", look_at(record), record.words_of_it());
    if record.state != State::Done {
        let empty = "\t".repeat(15);
        return format!(
            "{begin}{empty}\t{}\t{}\t{remarks}\n",
            record.machine, record.version
        );
    }
    format!(
        "{begin}\t{}\t{}\t{}\t{}.{:03}\t{}\t{}\t{}\t{}\t{}\t{}\t{}\t{remarks}\n",
        record.hertz,
        figures(record),
        seconds(record.samples, record.hertz.max(1) as u32),
        record.spent / 1000,
        record.spent % 1000,
        record.latency_mean,
        record.latency_most,
        record.sung,
        record.outside,
        record.clipped,
        record.machine,
        record.version
    )
}

/// The seven figures of a report's line.
fn figures(record: &Record) -> String {
    let (samples, sum) = (record.samples, record.sum);
    let (mean, remainder) = mean(sum.into(), samples.into());
    let [pitched, repeated, dropped] = [record.pitched, record.repeated, record.dropped];
    format!("{samples}\t{pitched}\t{repeated}\t{dropped}\t{sum}\t{mean}\t{remainder}")
}

fn total_figures(total: &Total) -> String {
    let (samples, sum) = (total.samples, total.sum);
    let (mean, remainder) = mean(sum, samples);
    let [pitched, repeated, dropped] = [total.pitched, total.repeated, total.dropped];
    format!("{samples}\t{pitched}\t{repeated}\t{dropped}\t{sum}\t{mean}\t{remainder}")
}

fn part(title: &str, lines: impl Iterator<Item = String>) -> String {
    let lines: String = lines.collect();
    match lines.is_empty() {
        true => lines,
        false => format!("{title}:\n{lines}\n"),
    }
}

/// The words of a take that is not tuned: the file is named in them.
fn said(take: &Entry) -> String {
    let said = &take.record.said;
    match said.is_empty() {
        true => format!("  {}: nothing was said\n", take.name),
        false => said.iter().map(|line| format!("  {line}\n")).collect(),
    }
}

/// Why a take has no picture.
pub fn why_undrawn(record: &Record) -> &str {
    match record.undrawn.is_empty() {
        true => "it is not drawn yet",
        false => &record.undrawn,
    }
}

/// Why a take looks wrong.
pub fn look_at(record: &Record) -> String {
    let mut why = Vec::new();
    if record.state != State::Done {
        return String::new();
    }
    if record.samples == 0 {
        why.push("it has no samples".to_string());
    } else if record.pitched == 0 {
        why.push("nothing is pitched".to_string());
    }
    if 100 * u128::from(record.outside) > u128::from(MOST_OUTSIDE * record.sung) {
        let share = tenths(100 * u128::from(record.outside), record.sung.into());
        why.push(format!("{share} % is sung on notes outside of the scale"));
    }
    if record.clipped > 0 {
        why.push(format!(
            "the input is clipped: {} samples",
            grouped(record.clipped)
        ));
    }
    why.join(", ")
}

/// How long a take is, and how much of it is pitched.
pub fn size(record: &Record) -> String {
    let long = seconds(record.samples, record.hertz.max(1) as u32);
    let pitched = tenths(100 * u128::from(record.pitched), record.samples.into());
    format!("{long} s, {pitched} % pitched")
}

fn thousandths(number: u128) -> String {
    format!("{}.{:03}", number / 1000, number % 1000)
}

/// How fast a take was made.
pub fn speed(record: &Record) -> String {
    let sound = 1000 * u128::from(record.samples) / u128::from(record.hertz.max(1));
    format!("{} times real time", tenths(sound, record.spent.into()))
}

/// A quotient with a digit behind the point.
fn tenths(one: u128, other: u128) -> String {
    let other = other.max(1);
    let tenths = (10 * one + other / 2) / other;
    format!("{}.{}", tenths / 10, tenths % 10)
}

/// Seconds as on a clock: 0:07, 12:30, 1:00:00.
pub fn clock(seconds: u64) -> String {
    let (hours, minutes, seconds) = (seconds / 3600, seconds / 60 % 60, seconds % 60);
    match hours {
        0 => format!("{minutes}:{seconds:02}"),
        hours => format!("{hours}:{minutes:02}:{seconds:02}"),
    }
}

/// The date and time, UTC.
pub fn date() -> String {
    let now = SystemTime::now()
        .duration_since(UNIX_EPOCH)
        .unwrap_or_default();
    written(now.as_secs())
}

fn written(seconds: u64) -> String {
    let (days, time) = (seconds / 86_400, seconds % 86_400);
    // from 1 March 2000, 11,017 days after the first of 1970, every 146,097 days have the same calendar
    let day = days - 11_017;
    let (eras, day) = (day / 146_097, day % 146_097);
    let years = (day - day / 1_460 + day / 36_524 - day / 146_096) / 365;
    let day = day - (365 * years + years / 4 - years / 100);
    let month = (5 * day + 2) / 153;
    let date = day - (153 * month + 2) / 5 + 1;
    let (year, month) = match month {
        0..=9 => (years, month + 3),
        _ => (years + 1, month - 9),
    };
    let year = 2000 + 400 * eras + year;
    let [hour, minute, second] = [time / 3600, time / 60 % 60, time % 60];
    format!("{year}-{month:02}-{date:02} {hour:02}:{minute:02}:{second:02} UTC")
}

#[cfg(test)]
mod tests {
    use super::*;

    fn done(samples: u64, sum: u64) -> Record {
        Record {
            state: State::Done,
            hertz: 44_100,
            samples,
            pitched: samples / 2,
            sum,
            ..Record::default()
        }
    }

    fn report(takes: Vec<Record>) -> Report {
        let takes = takes.into_iter().enumerate();
        let takes = takes.map(|(at, record)| Entry {
            at,
            name: at.to_string(),
            take: at.to_string().into(),
            record,
            drawn: false,
        });
        Report {
            takes: takes.collect(),
            pictures: false,
            spent: Duration::from_secs(1),
        }
    }

    /// Five thousand takes as long as takes can be: the sum is far past 2^53, and past 2^64.
    #[test]
    fn sums_are_exact() {
        let takes = (0..5000)
            .map(|_| done(1_000_000_000, u64::MAX / 3))
            .collect();
        let tsv = report(takes).tsv();
        let last = tsv.lines().last().unwrap();
        let sum = 5000 * (u128::from(u64::MAX) / 3);
        let samples = 5_000_000_000_000u128;
        let right = format!(
            "total\t\t\t\t{samples}\t2500000000000\t0\t0\t{sum}\t{}\t{}\t",
            sum / samples,
            sum % samples
        );
        assert!(last.starts_with(&right), "{last}");
    }

    #[test]
    fn rows_have_the_columns_of_the_heading() {
        let refused = Record {
            state: State::Refused,
            number: 22,
            said: vec!["x.wav: 22, a\tb".to_string()],
            ..Record::default()
        };
        let tsv = report(vec![done(9, 3), refused, Record::default()]).tsv();
        let columns = |line: &str| line.split('\t').count();
        for line in tsv.lines() {
            assert_eq!(columns(line), columns(HEADING), "{line}");
        }
    }

    #[test]
    fn takes_that_look_wrong() {
        let sung = |sung, outside| Record {
            sung,
            outside,
            ..done(1000, 0)
        };
        assert_eq!(look_at(&sung(1000, 200)), "");
        let right = "20.1 % is sung on notes outside of the scale";
        assert_eq!(look_at(&sung(1000, 201)), right);
        let silent = Record {
            pitched: 0,
            clipped: 1234,
            ..done(1000, 0)
        };
        let right = "nothing is pitched, the input is clipped: 1,234 samples";
        assert_eq!(look_at(&silent), right);
        assert_eq!(look_at(&done(0, 0)), "it has no samples");
        assert_eq!(look_at(&done(1000, 0)), "");
    }

    #[test]
    fn times() {
        for (seconds, right) in [(7, "0:07"), (750, "12:30"), (3600, "1:00:00")] {
            assert_eq!(clock(seconds), right);
        }
        for (seconds, right) in [
            (951_868_800, "2000-03-01 00:00:00 UTC"),
            (1_709_164_800, "2024-02-29 00:00:00 UTC"),
            (1_767_225_599, "2025-12-31 23:59:59 UTC"),
            (1_794_850_245, "2026-11-16 17:30:45 UTC"),
            (4_107_542_400, "2100-03-01 00:00:00 UTC"),
        ] {
            assert_eq!(written(seconds), right);
        }
    }
}
