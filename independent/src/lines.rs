//! The line program: any bytes in, one answer line for each line.

use crate::list::{List, MOST_ROWS};
use crate::report::{report, Figures};
use crate::rules::LONGEST_BLOCK;
use crate::settings::Settings;
use crate::statistics::{Between, Statistics};
use crate::table::CD;
use crate::tuner::{Answer, Standing, Tuner};

/// The most bytes before a line's end.
pub const LONGEST_LINE: usize = 8_192;
/// The answer to a line that cannot be read.
pub const UNREADABLE: usize = 10;

/// A line that can be read.
#[derive(Clone, Debug, PartialEq, Eq)]
pub enum Record {
    /// The sample rate, if it is on the line.
    Start(Option<u32>, Settings),
    /// Mode and channel are not on the line, and are kept.
    Change(Settings),
    Mode(u32),
    Channel(u32),
    Midi(Vec<u8>),
    Block(u16, Vec<i16>),
    Reset,
}

impl Record {
    /// The record on this line, without its end; None if it cannot be read.
    pub fn on(line: &[u8]) -> Option<Record> {
        if line.len() > LONGEST_LINE {
            return None;
        }
        let fields: Vec<&[u8]> = line.split(|&byte| byte == b'\t').collect();
        match (fields[0], &fields[1..]) {
            (b"start", fields) => start_in(fields),
            (b"change", settings) => Some(Record::Change(settings_in(settings)?)),
            (b"mode", [mode]) => Some(Record::Mode(setting(mode)?)),
            (b"channel", [channel]) => Some(Record::Channel(setting(channel)?)),
            (b"midi", bytes @ [_, ..]) => {
                let bytes: Option<Vec<u8>> = bytes.iter().map(|field| byte(field)).collect();
                Some(Record::Midi(bytes?))
            }
            (b"block", [number, samples @ ..]) => {
                let number = u16::try_from(whole_number(number, 65_535)?).ok()?;
                let samples: Option<Vec<i16>> = samples.iter().map(|field| sample(field)).collect();
                Some(Record::Block(number, samples?))
            }
            (b"reset", []) => Some(Record::Reset),
            _ => None,
        }
    }
}

/// The sample rate is an optional last field.
fn start_in(fields: &[&[u8]]) -> Option<Record> {
    let (settings, hertz) = match fields {
        [settings @ .., hertz] if settings.len() == 4 => (settings, Some(setting(hertz)?)),
        _ => (fields, None),
    };
    Some(Record::Start(hertz, settings_in(settings)?))
}

fn settings_in(fields: &[&[u8]]) -> Option<Settings> {
    match fields {
        [scale, eps, decay, floor] => Some(Settings::of([
            setting(scale)?,
            setting(eps)?,
            setting(decay)?,
            setting(floor)?,
        ])),
        _ => None,
    }
}

fn setting(field: &[u8]) -> Option<u32> {
    u32::try_from(whole_number(field, u64::from(u32::MAX))?).ok()
}

fn byte(field: &[u8]) -> Option<u8> {
    u8::try_from(whole_number(field, u64::from(u8::MAX))?).ok()
}

pub(crate) fn sample(field: &[u8]) -> Option<i16> {
    let value = match field.strip_prefix(b"-") {
        Some(digits) => -(whole_number(digits, 32_768)? as i64),
        None => whole_number(field, 32_767)? as i64,
    };
    i16::try_from(value).ok()
}

/// Digits, at least one, of a number that is at most `most`.
fn whole_number(field: &[u8], most: u64) -> Option<u64> {
    if field.is_empty() {
        return None;
    }
    let mut value = 0;
    for byte in field {
        if !byte.is_ascii_digit() {
            return None;
        }
        value = 10 * value + u64::from(byte - b'0');
        if value > most {
            return None;
        }
    }
    Some(value)
}

/// The line program with its tuner and the line that is coming in.
pub struct Program {
    tuner: Tuner,
    pub statistics: Statistics,
    /// The line so far, cut once it is too long to be read.
    line: Vec<u8>,
    /// The lists of the takes that ended, until they are asked for; and what
    /// fell between the samples of the one that goes on.
    lists: Vec<List>,
    between: Between,
    /// The figures of the takes that ended.
    takes: Vec<Figures>,
}

impl Default for Program {
    fn default() -> Program {
        Program {
            tuner: Tuner::default_start(),
            statistics: Statistics::default(),
            line: Vec::new(),
            lists: Vec::new(),
            between: Between::default(),
            takes: Vec::new(),
        }
    }
}

impl Program {
    /// Takes further bytes of the input and answers the lines that end there.
    pub fn read(&mut self, input: &[u8], answers: &mut Vec<u8>) {
        let mut pieces = input.split(|&byte| byte == b'\n');
        let unfinished = pieces.next_back().unwrap_or(&[]);
        for piece in pieces {
            self.lengthen(piece);
            self.answer_line(answers);
        }
        self.lengthen(unfinished);
    }

    /// The input has ended; a last line may lack its end.
    pub fn end(&mut self, answers: &mut Vec<u8>) {
        self.end_line(answers);
        self.end_take();
        self.statistics.input(self.takes.len());
    }

    /// Answers a last line that lacks its end.
    pub fn end_line(&mut self, answers: &mut Vec<u8>) {
        if !self.line.is_empty() {
            self.answer_line(answers);
        }
    }

    /// The lists of the takes that ended since this was last asked: each where
    /// a start or a reset was taken, the opening's too, and the last with the
    /// input.
    pub fn lists(&mut self) -> Vec<List> {
        std::mem::take(&mut self.lists)
    }

    /// The report of the takes that ended.
    pub fn report(&self) -> String {
        report(&self.takes)
    }

    pub fn tuner(&self) -> &Tuner {
        &self.tuner
    }

    /// One byte over the longest line is kept, so that it is known too long.
    fn lengthen(&mut self, piece: &[u8]) {
        let room = LONGEST_LINE + 1 - self.line.len();
        self.line.extend(piece.iter().take(room));
    }

    /// The list of the take and its figures, afresh from all its samples.
    fn end_take(&mut self) {
        let take = self.tuner.sounded();
        let figures = Figures::of(take);
        self.statistics.take(take, &figures);
        self.takes.push(figures);
        let list = List::of(self.tuner.notes(), MOST_ROWS);
        self.statistics.list(&list, &self.between);
        self.between = Between::default();
        self.lists.push(list);
    }

    fn answer_line(&mut self, answers: &mut Vec<u8>) {
        let record = Record::on(&self.line);
        self.line.clear();
        let mut numbers: Vec<i64> = Vec::new();
        let answer = match record {
            None => UNREADABLE,
            Some(Record::Start(hertz, settings)) => self.start(hertz, settings).number(),
            Some(Record::Change(to)) => self.change(|now| Settings {
                mode: now.mode,
                channel: now.channel,
                ..to
            }),
            Some(Record::Mode(mode)) => self.change(|now| Settings { mode, ..now }),
            Some(Record::Channel(channel)) => self.change(|now| Settings { channel, ..now }),
            Some(Record::Midi(bytes)) => self.midi(&bytes).number(),
            Some(Record::Reset) => self.reset().number(),
            Some(Record::Block(number, samples)) => {
                self.block(number, &samples, &mut numbers).number()
            }
        };
        self.statistics.answers[answer] += 1;
        answers.extend(answer.to_string().bytes());
        for number in numbers {
            answers.push(b'\t');
            answers.extend(number.to_string().bytes());
        }
        answers.push(b'\n');
    }

    /// Start begins anew, at 44,100 unless the line has another rate; if it is
    /// refused, the old tuner stays.
    fn start(&mut self, hertz: Option<u32>, settings: Settings) -> Answer {
        let (answer, tuner) = Tuner::start(hertz.unwrap_or(CD), settings);
        let before = self.tuner.standing();
        if answer == Answer::Taken {
            self.statistics.start(&before, hertz);
            self.end_take();
            self.tuner = tuner;
        } else {
            self.statistics.refused_start(&before, answer, &settings);
        }
        answer
    }

    /// Changes the settings to what is made of those in force.
    fn change(&mut self, to: impl Fn(Settings) -> Settings) -> usize {
        let before = self.tuner.standing();
        let answer = self.tuner.change(to(self.tuner.settings));
        self.statistics.change(&before, &self.tuner.standing());
        self.look_between(&before);
        answer.number()
    }

    fn midi(&mut self, bytes: &[u8]) -> Answer {
        let before = self.tuner.standing();
        let answer = self.tuner.midi(bytes, &mut self.statistics);
        self.look_between(&before);
        answer
    }

    /// What a line changed that is no block.
    fn look_between(&mut self, before: &Standing) {
        let (count, after) = (self.tuner.count(), self.tuner.standing());
        self.between.look(count, before, &after);
    }

    /// A tuner that calls from a start reached is good, so it is taken.
    fn reset(&mut self) -> Answer {
        self.statistics.reset(&self.tuner.standing());
        self.end_take();
        self.tuner.reset()
    }

    /// Written, repeated, dropped, then the samples written.
    fn block(&mut self, number: u16, samples: &[i16], numbers: &mut Vec<i64>) -> Answer {
        let mut output = [0; LONGEST_BLOCK];
        let (answer, counts) = self
            .tuner
            .block(number, samples, &mut output, &mut self.statistics);
        if answer == Answer::GivenAgain {
            self.between.repeats.push(self.tuner.count());
        }
        numbers.extend([counts.written, counts.repeated, counts.dropped].map(|count| count as i64));
        numbers.extend(output[..counts.written].iter().map(|&out| i64::from(out)));
        answer
    }
}

/// What `notes` prints of an input: the list of each of its takes.
pub fn lists_of(input: &[u8]) -> String {
    let mut program = Program::default();
    let mut answers = Vec::new();
    program.read(input, &mut answers);
    program.end(&mut answers);
    program.lists().iter().map(List::to_string).collect()
}

/// What `report` prints of an input.
pub fn report_of(input: &[u8]) -> String {
    let mut program = Program::default();
    let mut answers = Vec::new();
    program.read(input, &mut answers);
    program.end(&mut answers);
    program.report()
}

/// All answers to an input, and what was seen on the way.
pub fn answers_to(input: &[u8]) -> (Vec<u8>, Statistics) {
    let mut program = Program::default();
    let mut answers = Vec::new();
    program.read(input, &mut answers);
    program.end(&mut answers);
    (answers, program.statistics)
}
