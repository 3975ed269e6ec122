//! `daxfolin tune`: takes through the tuner, block after block; with voices,
//! each to a file of its own beside OUT.

use crate::delivery::{Delivery, Part};
use crate::midi::by_keys;
use crate::place::{finish, named, places, unnamed, Output, Place};
use crate::song::Song;
use crate::source::{Source, WINDOW};
use crate::{chunks, grouped, seconds, settings, started};
use daxfolin::wave::{self, Take};
use daxfolin::{Answer, Meter, Settings, Tuner, LONGEST_BLOCK, MOST_VOICES, TAKEN};
use std::fs;
use std::io::{stdout, BufWriter, IsTerminal, Write};
use std::path::Path;
use words::end::{say, shown, End, EXISTS, FILE, REFUSED};
use words::request::{Job, Tune, DASH};
use words::signals::{ended, note_all};
use words::standard::{self, print, unwritten, Standard};

pub const PROGRAM: &str = "daxfolin tune";

const HEADING: &str = "file\tout\trefusal\thertz\tsamples\tseconds\trepeated\tdropped\tblocks\tpitched_blocks\tlatency_mean\tlatency_most\tpitched\tsum";

pub fn run(request: &Tune) -> Result<(), End> {
    note_all();
    let song = request.song.as_ref().map(Song::of).transpose()?;
    let song = song.as_ref();
    if request.tsv {
        let keys = if song.is_some() { "\tkeys" } else { "" };
        tell(request, &format!("{HEADING}{keys}\n"))?;
    }
    if !request.named {
        let done = job(request, song, &request.jobs[0])?;
        return tell(request, &done);
    }
    let mut worst = 0;
    for one in &request.jobs {
        match job(request, song, one) {
            Ok(done) => tell(request, &done)?,
            Err(end @ End::Signal(_)) => return Err(end),
            Err(end) => {
                end.say(PROGRAM);
                refusal(request, one, &end)?;
                worst = worse(worst, end.status());
            }
        }
    }
    match worst {
        0 => Ok(()),
        status => Err(End::Said(status)),
    }
}

/// The status of several files: the first of these that one of them has.
fn worse(one: u8, other: u8) -> u8 {
    let order = [FILE, REFUSED, EXISTS];
    let worst = order
        .into_iter()
        .find(|status| [one, other].contains(status));
    worst.unwrap_or(one.max(other))
}

/// Lines about what was done: on standard output, unless that has the take.
fn tell(request: &Tune, text: &str) -> Result<(), End> {
    if request.quiet {
        return Ok(());
    }
    match request.jobs[0].to == Path::new(DASH) {
        true => {
            standard::error(text);
            Ok(())
        }
        false => print(text),
    }
}

/// A file of several that was refused has its number on its line.
fn refusal(request: &Tune, job: &Job, end: &End) -> Result<(), End> {
    let End::Refused(number, _) = end else {
        return Ok(());
    };
    let (from, to) = (shown(job.from.as_os_str()), shown(job.to.as_os_str()));
    match request.tsv {
        true => {
            let empty = "\t".repeat(11 + usize::from(request.song.is_some()));
            print(&format!("{from}\t{to}\t{number}{empty}\n"))
        }
        false => print(&format!("{from}: {number}\n")),
    }
}

/// One take, and what is told of it.
fn job(request: &Tune, song: Option<&Song>, job: &Job) -> Result<String, End> {
    ended()?;
    let source = source(job)?;
    let (take, header) = source.take()?;
    let settings = settings(&request.take, take.hertz);
    let voices = &request.take.voices;
    let wanted = if song.is_some() {
        by_keys(settings)
    } else {
        settings
    };
    let (number, tuner) = Tuner::start(take.hertz, wanted, false, voices, &[]);
    started(number)?;
    let read: Vec<&Source> = song
        .iter()
        .map(|song| &song.source)
        .chain([&source])
        .collect();
    if request.keep && is_done(&read, &take, &header, job, voices.len()) {
        let (from, to) = (source.shown(), shown(job.to.as_os_str()));
        return Ok(format!("{from}: passed over, {to} is done\n"));
    }
    let mut outputs = match job.to == Path::new(DASH) {
        true => Outputs::standard()?,
        false => Outputs::Places(places(&job.to, voices.len(), &read, request.force)?),
    };
    left_out(&source, &take, job);
    if request.dry {
        return Ok(outputs.would(&source, &take));
    }
    let said = voices_said(voices, &outputs);
    let played = song.map(|song| song.played(PROGRAM, &source, &take, settings));
    let played = played.transpose()?;
    outputs = outputs.begun(&header)?;
    let mut delivery = Delivery::of(played.as_ref().map_or(&[], |played| &played.keys));
    let mut tuned = tune(&source, &take, tuner, &mut delivery, &mut outputs)?;
    source.unchanged()?;
    outputs.finish()?;
    if let Some(played) = &played {
        played.remark(PROGRAM, &source);
        tuned.keys = Some(played.delivered(delivery.left()));
    }
    Ok(match (request.tsv, request.named) {
        (true, _) => tuned.row(&source, job, &take),
        (false, true) => format!("{}: {}", source.shown(), tuned.line(&take)),
        (false, false) => said + &tuned.line(&take),
    })
}

fn source(job: &Job) -> Result<Source, End> {
    if job.from != Path::new(DASH) {
        return Source::of(&job.from);
    }
    let out = (job.to != Path::new(DASH)).then_some(job.to.as_path());
    Source::of_input(unnamed(out)?)
}

/// What of IN is not in OUT is named, and so is a take whose samples are not counted in its data size.
fn left_out(source: &Source, take: &Take, job: &Job) {
    let from = source.shown();
    if let Some(names) = chunks::left_out(&source.file, source.was.len(), take.hertz) {
        let out = shown(job.to.as_os_str());
        say(PROGRAM, &format!("{from}: not in {out}: {names}"));
    }
    if take.count == 0 && source.mending().is_ok_and(|(_, data)| data.old != data.new) {
        say(
            PROGRAM,
            &format!("{from}: its data size is 0, but bytes follow; mend it: daxfolin mend {from}"),
        );
    }
}

/// Whether OUT and the voices are there and whole: takes as long, at the same rate, and no older than what is read.
fn is_done(read: &[&Source], take: &Take, header: &[u8], job: &Job, voices: usize) -> bool {
    let done = |voice| {
        let name = named(&job.to, voice);
        let Ok(is) = fs::metadata(&name) else {
            return false;
        };
        let whole = is.is_file() && is.len() == header.len() as u64 + 2 * take.count;
        let newer = read
            .iter()
            .all(|source| is.modified().ok() >= source.was.modified().ok());
        whole
            && newer
            && Source::of(&name)
                .is_ok_and(|out| out.take().is_ok_and(|(_, begins)| begins == *header))
    };
    (0..=voices).all(done)
}

/// A line for each voice: its interval, and the file that has it.
fn voices_said(intervals: &[i32], outputs: &Outputs) -> String {
    let Outputs::Places(places) = outputs else {
        return String::new();
    };
    let voices = intervals.iter().zip(&places[1..]);
    let line = |(interval, place): (&i32, &Place)| {
        format!("voice {interval:+}: {}\n", shown(place.name.as_os_str()))
    };
    voices.map(line).collect()
}

// ---- outputs

/// Where the lead and the voices go.
enum Outputs {
    Places(Vec<Place>),
    Files(Vec<Output>),
    Standard(BufWriter<Standard>),
}

impl Outputs {
    fn standard() -> Result<Outputs, End> {
        if stdout().is_terminal() {
            let why = "standard output is a terminal: send the take to a file or a program";
            return Err(End::Usage(why.to_string()));
        }
        let output = standard::output().map_err(|error| unwritten(&error))?;
        Ok(Outputs::Standard(BufWriter::with_capacity(WINDOW, output)))
    }

    /// Each with its header.
    fn begun(self, header: &[u8]) -> Result<Outputs, End> {
        match self {
            Outputs::Places(places) => {
                let outputs = places.into_iter().map(|place| Output::at(place, header));
                Ok(Outputs::Files(outputs.collect::<Result<_, _>>()?))
            }
            Outputs::Standard(mut output) => {
                output
                    .write_all(header)
                    .map_err(|error| unwritten(&error))?;
                Ok(Outputs::Standard(output))
            }
            files => Ok(files),
        }
    }

    fn write(&mut self, tuned: &Blocks, count: usize) -> Result<(), End> {
        let mut bytes = [0; 2 * LONGEST_BLOCK];
        let bytes = &mut bytes[..2 * count];
        match self {
            Outputs::Places(_) => Ok(()),
            Outputs::Standard(output) => {
                wave::bytes(&tuned[0][..count], bytes);
                output.write_all(bytes).map_err(|error| unwritten(&error))
            }
            Outputs::Files(outputs) => {
                outputs
                    .iter_mut()
                    .zip(tuned)
                    .try_for_each(|(output, tuned)| {
                        wave::bytes(&tuned[..count], bytes);
                        output.write(bytes)
                    })
            }
        }
    }

    /// Each is whole, and takes its place.
    fn finish(self) -> Result<(), End> {
        match self {
            Outputs::Places(_) => Ok(()),
            Outputs::Standard(mut output) => output.flush().map_err(|error| unwritten(&error)),
            Outputs::Files(outputs) => finish(PROGRAM, outputs),
        }
    }

    /// What a dry run says.
    fn would(&self, source: &Source, take: &Take) -> String {
        let names = match self {
            Outputs::Places(places) => {
                let name = |place: &Place| {
                    let over = if place.is_over() { "over " } else { "" };
                    format!("{over}{}", shown(place.name.as_os_str()))
                };
                places.iter().map(name).collect::<Vec<_>>().join(", ")
            }
            _ => "standard output".to_string(),
        };
        format!(
            "{}: {} samples at {}, {} s; would write {names}\n",
            source.shown(),
            take.count,
            grouped(u64::from(take.hertz)),
            seconds(take.count, take.hertz)
        )
    }
}

// ---- the take

/// A block of the lead and of each voice.
type Blocks = [[i16; LONGEST_BLOCK]; 1 + MOST_VOICES];

/// Whether a start takes these settings and voices.
pub fn starts(hertz: u32, settings: Settings, intervals: &[i32]) -> Result<(), End> {
    started(Tuner::start(hertz, settings, false, intervals, &[]).0)
}

/// The output is read so many samples behind the read position.
const READ_BEHIND: u64 = 4;
/// The units of a position in a sample.
const UNITS: u64 = 65_536;

/// The latency in samples, to the nearest, where the read position lies so many units behind the input.
pub fn latency(units: u64) -> u64 {
    READ_BEHIND + (units + UNITS / 2) / UNITS
}

/// A latency for people.
pub fn late(samples: u64, hertz: u32) -> String {
    let hertz = u64::from(hertz);
    let tenths = (10_000 * samples + hertz / 2) / hertz;
    format!("{samples} samples ({}.{} ms)", tenths / 10, tenths % 10)
}

/// What was done to a take.
#[derive(Default)]
struct Tuned {
    repeated: u64,
    dropped: u64,
    /// A report's: samples with a pitch, and the sum of the rate's distance from 65536.
    pitched_samples: u64,
    sum: u64,
    blocks: u64,
    /// Blocks after which the meter shows a pitch.
    pitched: u64,
    /// How far the read position lay behind the input at the end of each block: their sum, and the farthest, in units.
    behind: u64,
    farthest: u64,
    /// Keys that were delivered, where a line is played.
    keys: Option<usize>,
}

impl Tuned {
    fn add(&mut self, answer: Answer) {
        self.repeated += u64::from(answer.repeated);
        self.dropped += u64::from(answer.dropped);
        self.pitched_samples += u64::from(answer.pitched);
        self.sum += u64::from(answer.strayed);
    }

    /// At the end of a block of the take, however keys cut it.
    fn block(&mut self, tuner: &Tuner) {
        let behind = tuner.behind();
        self.blocks += 1;
        self.pitched += u64::from(matches!(tuner.meter(), Meter::Pitched { .. }));
        self.behind += behind;
        self.farthest = self.farthest.max(behind);
    }

    /// The latency in samples, to the nearest: the mean, and the greatest.
    fn latency(&self) -> [u64; 2] {
        let mean = self.behind / self.blocks.max(1);
        [mean, self.farthest].map(latency)
    }

    fn line(&self, take: &Take) -> String {
        let shares = match self.blocks {
            0 => String::new(),
            blocks => {
                let tenths = (1000 * self.pitched + blocks / 2) / blocks;
                let [mean, most] = self.latency().map(|samples| late(samples, take.hertz));
                format!(
                    " ({}.{} %), latency {mean} on average, {most} at most",
                    tenths / 10,
                    tenths % 10
                )
            }
        };
        let keys = self.keys.map(|keys| format!(", {keys} keys delivered"));
        let keys = keys.unwrap_or_default();
        format!(
            "{} samples, {} s, {} cycles repeated, {} dropped, pitched after {} of {} blocks{shares}{keys}\n",
            take.count,
            seconds(take.count, take.hertz),
            self.repeated,
            self.dropped,
            self.pitched,
            self.blocks
        )
    }

    fn row(&self, source: &Source, job: &Job, take: &Take) -> String {
        let [mean, most] = self.latency();
        let keys = self.keys.map(|keys| format!("\t{keys}"));
        let keys = keys.unwrap_or_default();
        format!(
            "{}\t{}\t0\t{}\t{}\t{}\t{}\t{}\t{}\t{}\t{mean}\t{most}\t{}\t{}{keys}\n",
            source.shown(),
            shown(job.to.as_os_str()),
            take.hertz,
            take.count,
            seconds(take.count, take.hertz),
            self.repeated,
            self.dropped,
            self.blocks,
            self.pitched,
            self.pitched_samples,
            self.sum
        )
    }
}

/// Every block of the take through the tuner, one after the other, and each key before its sample: the lead to the first output, each
/// voice to its own.
fn tune(
    source: &Source,
    take: &Take,
    mut tuner: Tuner,
    delivery: &mut Delivery,
    outputs: &mut Outputs,
) -> Result<Tuned, End> {
    let mut tuned: Blocks = [[0; LONGEST_BLOCK]; 1 + MOST_VOICES];
    let mut sums = Tuned::default();
    source.blocks(PROGRAM, take, |_, sung| {
        ended()?;
        delivery.give(sung, |part| match part {
            Part::Keys(bytes) => taken(source, tuner.midi(bytes)),
            Part::Block(number, sung) => {
                let [lead, voices @ ..] = &mut tuned;
                let voices = voices.each_mut().map(|voice| &mut voice[..]);
                let answer = tuner.block_with(number, sung, lead, voices, &mut []);
                taken(source, answer.number)?;
                sums.add(answer);
                outputs.write(&tuned, sung.len())
            }
        })?;
        sums.block(&tuner);
        Ok(())
    })?;
    Ok(sums)
}

fn taken(source: &Source, number: u32) -> Result<(), End> {
    match number {
        TAKEN => Ok(()),
        number => Err(source.refused(number)),
    }
}

#[cfg(test)]
mod tests {
    use super::*;

    #[test]
    fn the_status_of_several_files() {
        for (statuses, right) in [
            (&[][..], 0),
            (&[EXISTS], EXISTS),
            (&[EXISTS, REFUSED], REFUSED),
            (&[REFUSED, EXISTS], REFUSED),
            (&[FILE, REFUSED, EXISTS], FILE),
            (&[EXISTS, FILE], FILE),
        ] {
            assert_eq!(
                statuses.iter().fold(0, |one, other| worse(one, *other)),
                right
            );
        }
    }
}
