//! A job of a night: takes one after the other, each tuned by `daxfolin tune`,
//! which is started as it would be by hand and prints a report's figures too.

use super::record::{changed, Record, State};
use super::room::{machine, made, outs, Room, NOT_ITS_OWN};
use super::{child, own_program, removed, version, PROGRAM};
use crate::rows::rows;
use crate::settings;
use crate::source::Source;
use daxfolin::wave::Take;
use std::collections::HashMap;
use std::fs::{self, File, Metadata};
use std::io::{self, BufRead, BufReader};
use std::os::unix::process::ExitStatusExt;
use std::path::{Path, PathBuf};
use std::time::Instant;
use words::coded::coded;
use words::end::{failed, no, shown, End, FILE, REFUSED};
use words::request::{Night, Take as Settings};
use words::standard::print;

/// The scale of all twelve notes.
const ALL: u32 = 4095;
/// So many equal samples in a row at an end of 16 bits are clipped.
const CLIPPED: usize = 3;

/// Tunes these takes, and prints a line when one has ended: its name, coded, and how it stands. One that fails makes the status 3, so that
/// the engine tries the job once more; what is done by then is passed over. A signal ends it at once, and the command that it has started
/// with it.
pub fn run(request: &Night, takes: &[PathBuf]) -> Result<(), End> {
    super::with_parent();
    let room = Room::of(request);
    let mut worst = None;
    for take in takes {
        let record = match one(request, &room, take) {
            Ok(record) => record,
            Err(end) => failure(&room, take, &end),
        };
        let undrawn = request.pictures && !record.undrawn.is_empty();
        if record.state == State::Failed || undrawn {
            worst = Some(FILE);
        }
        // what cannot be stored was not said: the next run begins the take anew
        if let Err(end) = record.write(&room, take) {
            end.say(PROGRAM);
            worst = Some(FILE);
        }
        print(&format!("{}\t{}\n", coded(take), record.state.name()))?;
    }
    worst.map_or(Ok(()), |status| Err(End::Said(status)))
}

fn failure(room: &Room, take: &Path, end: &End) -> Record {
    let was = Record::read(&room.said(take)).unwrap_or_default();
    Record {
        state: State::Failed,
        said: lines(words_of(end)),
        ..was
    }
}

fn words_of(end: &End) -> &str {
    match end {
        End::File(why) | End::Exists(why) | End::Usage(why) | End::Refused(_, why) => why,
        End::Signal(_) | End::Said(_) => "it failed",
    }
}

fn lines(text: &str) -> Vec<String> {
    text.lines().map(str::to_string).collect()
}

/// One take, and what was said of it. What is done already is left as it is.
fn one(request: &Night, room: &Room, take: &Path) -> Result<Record, End> {
    let from = room.from.join(take);
    let file = fs::metadata(&from).map_err(|error| failed(&from, &error))?;
    let was = Record::read(&room.said(take));
    let is_tuned = |was: &Record| was.is_tuned(&file, &room.outs(take), request.mend);
    let mut record = match was {
        Some(was) if was.is_done(room, take, &file, request.mend) => return Ok(was),
        Some(was) if is_tuned(&was) => was,
        was => tuned(request, room, take, &file, was)?,
    };
    if room.pictures && record.state == State::Done {
        drawn(request, room, take, &mut record)?;
    }
    match fs::metadata(&from) {
        Ok(is) if record.is_of(&is) => Ok(record),
        _ => Err(no(&from, "it was changed while it was read; run it again")),
    }
}

/// A take that is tuned, or refused, or failed. The picture of what it was before goes.
fn tuned(
    request: &Night,
    room: &Room,
    take: &Path,
    file: &Metadata,
    was: Option<Record>,
) -> Result<Record, End> {
    let from = room.from.join(take);
    let (out, outs) = (room.out(take), room.outs(take));
    let there = outs.iter().any(|out| fs::symlink_metadata(out).is_ok());
    let mut record = Record {
        own: !there || was.as_ref().is_some_and(|was| was.own),
        own_picture: was.as_ref().is_some_and(|was| was.own_picture),
        before: was.map_or(String::new(), |was| before(&was)),
        version: version(),
        machine: machine(),
        length: file.len(),
        changed: changed(file),
        voices: room.voices as u64,
        ..Record::default()
    };
    made(out.parent().unwrap_or(Path::new(".")))?;
    // from here on OUT is this night's, whatever ends it before it has said so
    record.write(room, take)?;
    if record.own_picture {
        removed(&room.picture(take))?;
    }
    let begun = Instant::now();
    let mut tuned = match (there, record.own) {
        (true, false) => passed_over(request, room, take)?,
        (true, true) => tune(request, &from, &out, &["-f"])?,
        (false, _) => tune(request, &from, &out, &[])?,
    };
    if request.mend && record.own && tuned.may_be_mended() {
        if let Some(mended) = mended(&from, &room.mended(take))? {
            tuned = tune(request, &room.mended(take), &out, &["-f"])?;
            record.mended = mended;
        }
    }
    record.said = tuned.said.clone();
    record.state = match tuned.status {
        0 => State::Done,
        REFUSED => State::Refused,
        _ => State::Failed,
    };
    record.number = tuned.number;
    if record.state == State::Done {
        tuned.into_record(&mut record)?;
        look_at(request, &read(room, take, &record), &mut record)?;
    }
    record.spent = begun.elapsed().as_millis() as u64;
    Ok(record)
}

/// The file that is tuned: the take, or its mended copy.
fn read(room: &Room, take: &Path, record: &Record) -> PathBuf {
    match record.mended.is_empty() {
        true => room.from.join(take),
        false => room.mended(take),
    }
}

/// The picture of a take that is tuned. One that fails is said, and leaves the take as it is.
fn drawn(request: &Night, room: &Room, take: &Path, record: &mut Record) -> Result<(), End> {
    let picture = room.picture(take);
    record.own_picture |= fs::symlink_metadata(&picture).is_err();
    // from here on the picture is this night's, whatever ends it before it has said so
    record.drawn = 0;
    record.write(room, take)?;
    let drawn = match record.own_picture {
        true => draw(request, room, take, record, &picture),
        false => drawn_already(request, room, take, record),
    };
    let length = drawn.and_then(|()| {
        let file = fs::metadata(&picture).map_err(|error| failed(&picture, &error))?;
        Ok(file.len())
    });
    match length {
        Ok(length) => (record.drawn, record.undrawn) = (length, String::new()),
        Err(end) => record.undrawn = lines(words_of(&end)).join("; "),
    }
    Ok(())
}

/// By the command that one would use by hand.
fn draw(request: &Night, room: &Room, take: &Path, record: &Record, to: &Path) -> Result<(), End> {
    let read = read(room, take, record);
    let said = run_command(&["picture", "-f"], &options(request), &[&read, to])?;
    match said.status {
        0 => Ok(()),
        _ => Err(End::File(said.said.join("\n"))),
    }
}

/// A picture that the night did not make is one if it is what the night would draw, byte for byte.
fn drawn_already(request: &Night, room: &Room, take: &Path, record: &Record) -> Result<(), End> {
    let tried = super::room::picture(&room.kept("tried"), take, room.voices);
    made(tried.parent().unwrap_or(&tried))?;
    draw(request, room, take, record, &tried)?;
    let picture = room.picture(take);
    let equal = equal(&tried, &picture).unwrap_or(false);
    let _ = fs::remove_file(&tried);
    match equal {
        true => Ok(()),
        false => Err(no(&picture, NOT_ITS_OWN)),
    }
}

/// What is kept of a try that came to nothing.
fn before(was: &Record) -> String {
    match was.state {
        State::Begun => "it was broken off".to_string(),
        State::Failed => was.said.join("; "),
        State::Done | State::Refused => String::new(),
    }
}

// ---- the commands

/// What a command did: its status, the columns of its row, the number of a refusal, and what it said.
struct Said {
    status: u8,
    columns: HashMap<String, String>,
    number: u64,
    said: Vec<String>,
}

impl Said {
    /// Only what is refused, or taken for empty, may want mending.
    fn may_be_mended(&self) -> bool {
        self.status == REFUSED
            || self
                .columns
                .get("samples")
                .is_some_and(|count| count == "0")
    }

    fn column(&self, name: &str) -> Result<u64, End> {
        let value = self.columns.get(name).and_then(|text| text.parse().ok());
        value.ok_or_else(|| End::File(format!("the column {name} was not printed")))
    }

    fn into_record(self, record: &mut Record) -> Result<(), End> {
        record.hertz = self.column("hertz")?;
        record.samples = self.column("samples")?;
        record.latency_mean = self.column("latency_mean")?;
        record.latency_most = self.column("latency_most")?;
        record.repeated = self.column("repeated")?;
        record.dropped = self.column("dropped")?;
        record.pitched = self.column("pitched")?;
        record.sum = self.column("sum")?;
        Ok(())
    }
}

/// Runs a command of this program, and reads the columns that it prints.
fn run_command(words: &[&str], options: &[String], files: &[&Path]) -> Result<Said, End> {
    let program = own_program()?;
    let mut command = child(&program);
    command.args(words).args(options).arg("--").args(files);
    let done = command.output().map_err(|error| failed(&program, &error))?;
    let [printed, said] =
        [&done.stdout, &done.stderr].map(|text| String::from_utf8_lossy(text).into_owned());
    let (rows, said) = (lines(&printed), lines(&said));
    let prefix = format!("daxfolin {}: ", words[0]);
    let mut said: Vec<String> = said
        .iter()
        .map(|line| line.replacen(&prefix, "", 1))
        .collect();
    let status = match (done.status.code(), done.status.signal()) {
        (Some(code), _) => code as u8,
        (None, signal) => {
            let file = shown(files[0].as_os_str());
            said.push(format!(
                "{file}: its process was killed by signal {}",
                signal.unwrap_or(0)
            ));
            FILE
        }
    };
    Ok(Said {
        status,
        columns: columns(&rows),
        number: rows.last().and_then(|last| last.parse().ok()).unwrap_or(0),
        said,
    })
}

/// The first row, by the heading above it.
fn columns(rows: &[String]) -> HashMap<String, String> {
    let [heading, row, ..] = rows else {
        return HashMap::new();
    };
    let pairs = heading.split('\t').zip(row.split('\t'));
    pairs
        .map(|(name, value)| (name.to_string(), value.to_string()))
        .collect()
}

/// The settings, and the line that is played.
fn options(request: &Night) -> Vec<String> {
    let file = request
        .song
        .iter()
        .map(|song| format!("--midi={}", song.file.display()));
    let song = file.chain(super::song_words(request));
    request.words.iter().cloned().chain(song).collect()
}

fn tune(request: &Night, from: &Path, out: &Path, flags: &[&str]) -> Result<Said, End> {
    let words: Vec<&str> = ["tune", "--tsv"].iter().chain(flags).copied().collect();
    run_command(&words, &options(request), &[from, out])
}

/// A file that the night did not make is OUT if it is what the night would make, byte for byte. Any other is never written over.
fn passed_over(request: &Night, room: &Room, take: &Path) -> Result<Said, End> {
    let scratch = room.kept("tried");
    let tried = outs(&scratch, take, room.voices);
    made(tried[0].parent().unwrap_or(&scratch))?;
    let mut said = tune(request, &room.from.join(take), &tried[0], &["-f"])?;
    let are = room.outs(take);
    let mut pairs = tried.iter().zip(&are);
    let equal = said.status == 0 && pairs.all(|(one, other)| equal(one, other).unwrap_or(false));
    tried.iter().for_each(|file| {
        let _ = fs::remove_file(file);
    });
    match (said.status, equal) {
        (0, false) => return Err(no(&are[0], NOT_ITS_OWN)),
        (0, true) => {
            let out = shown(are[0].as_os_str());
            said.said
                .push(format!("{out}: it was there already, and is as it was"));
        }
        _ => {}
    }
    Ok(said)
}

fn equal(one: &Path, other: &Path) -> io::Result<bool> {
    let open = |name| File::open(name).map(BufReader::new);
    let (mut one, mut other) = (open(one)?, open(other)?);
    loop {
        let (here, there) = (one.fill_buf()?, other.fill_buf()?);
        let count = here.len().min(there.len());
        if here[..count] != there[..count] || here.is_empty() != there.is_empty() {
            return Ok(false);
        }
        if count == 0 {
            return Ok(true);
        }
        one.consume(count);
        other.consume(count);
    }
}

/// Copies a take and mends the copy. What was mended, or nothing where there was nothing to mend.
fn mended(from: &Path, copy: &Path) -> Result<Option<String>, End> {
    made(copy.parent().unwrap_or(Path::new(".")))?;
    fs::copy(from, copy).map_err(|error| failed(copy, &error))?;
    let program = own_program()?;
    let done = child(&program).args(["mend", "--"]).arg(copy).output();
    let done = done.map_err(|error| failed(&program, &error))?;
    let sizes = String::from_utf8_lossy(&done.stdout);
    let sizes = sizes.lines().filter_map(|line| {
        let mut fields = line.split('\t');
        let (at, old, new) = (fields.next()?, fields.next()?, fields.next()?);
        Some(format!("the size at byte {at} from {old} to {new}"))
    });
    let sizes = sizes.collect::<Vec<_>>().join(", ");
    if sizes.is_empty() {
        let _ = fs::remove_file(copy);
        return Ok(None);
    }
    Ok(Some(sizes))
}

// ---- what a producer looks at first

/// How much was sung outside of the scale, by the list of notes with all twelve; and what of the input is clipped.
fn look_at(request: &Night, read: &Path, record: &mut Record) -> Result<(), End> {
    let source = Source::of(read)?;
    let (take, _) = source.take()?;
    if request.song.is_none() && request.take.scale != ALL {
        (record.sung, record.outside) = outside(&request.take, &source, &take)?;
    }
    let mut clipping = Clipping::default();
    source.blocks(PROGRAM, &take, |_, sung| {
        sung.iter().for_each(|sample| clipping.sample(*sample));
        Ok(())
    })?;
    record.clipped = clipping.clipped;
    source.unchanged()
}

fn outside(how: &Settings, source: &Source, take: &Take) -> Result<(u64, u64), End> {
    let all = Settings {
        scale: ALL,
        voices: Vec::new(),
        ..how.clone()
    };
    let rows = rows(PROGRAM, source, take, settings(&all, take.hertz))?;
    let outside = |note: u8| how.scale >> (note % 12) & 1 == 0;
    let length = |wanted: &dyn Fn(u8) -> bool| {
        let rows = rows.iter().filter(|row| wanted(row.note));
        rows.map(|row| row.length).sum()
    };
    Ok((length(&|_| true), length(&outside)))
}

/// Samples in runs at an end of 16 bits.
#[derive(Default)]
struct Clipping {
    last: i16,
    run: usize,
    clipped: u64,
}

impl Clipping {
    fn sample(&mut self, sample: i16) {
        let end = [i16::MIN, i16::MAX].contains(&sample);
        self.run = match (end, self.run > 0 && sample == self.last) {
            (false, _) => 0,
            (true, false) => 1,
            (true, true) => self.run + 1,
        };
        self.last = sample;
        self.clipped += match self.run {
            CLIPPED => CLIPPED as u64,
            run if run > CLIPPED => 1,
            _ => 0,
        };
    }
}

// ---- checking

/// Checks these takes, and prints a line for each: its name, coded, and equal or what differs.
pub fn check(request: &Night, takes: &[PathBuf]) -> Result<(), End> {
    super::with_parent();
    let room = Room::of(request);
    for take in takes {
        let found = check_one(request, &room, take)?;
        print(&format!("{}\t{found}\n", coded(take)))?;
    }
    Ok(())
}

fn check_one(request: &Night, room: &Room, take: &Path) -> Result<String, End> {
    let said = Record::read(&room.said(take)).unwrap_or_default();
    let read = read(room, take, &said);
    let program = own_program()?;
    let mut command = child(&program);
    command
        .arg("check")
        .args(options(request))
        .arg("--")
        .arg(read)
        .arg(room.out(take));
    let done = command.output().map_err(|error| failed(&program, &error))?;
    let [printed, said] =
        [&done.stdout, &done.stderr].map(|text| String::from_utf8_lossy(text).into_owned());
    Ok(match done.status.success() {
        true => "equal".to_string(),
        false => [printed, said]
            .join(" ")
            .split_whitespace()
            .collect::<Vec<_>>()
            .join(" "),
    })
}

#[cfg(test)]
mod tests {
    use super::*;

    #[test]
    fn runs_at_an_end_are_clipped() {
        for (samples, right) in [
            (&[0, 32767, 32767, 0, 32767][..], 0),
            (&[32767, 32767, 32767], 3),
            (&[-32768, -32768, -32768, -32768, 5], 4),
            (&[32767, 32767, -32768, -32768], 0),
            (&[32766, 32766, 32766], 0),
        ] {
            let mut clipping = Clipping::default();
            samples.iter().for_each(|sample| clipping.sample(*sample));
            assert_eq!(clipping.clipped, right, "{samples:?}");
        }
    }

    #[test]
    fn a_row_by_its_heading() {
        let rows = ["a\tb", "1\t2", "3\t4"].map(str::to_string);
        let columns = columns(&rows);
        assert_eq!((&columns["a"][..], &columns["b"][..]), ("1", "2"));
    }
}
