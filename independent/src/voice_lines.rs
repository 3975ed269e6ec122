//! The line program with voices, to be held to another such program. It has one
//! more line: `voices`, and behind it intervals, tab-parted whole numbers of 16
//! bits, minus allowed. Those are the voices of the next start line that can be
//! read, taken or not; a start without such a line before it has none. The line
//! is answered 0. An answer to a block is followed by a line for each voice:
//! `voice`, then what it wrote, as many samples as the lead's. All else is
//! answered as by the line program, which has the lead.

use crate::lines::{sample, Program, Record, LONGEST_LINE, UNREADABLE};
use crate::settings::Settings;
use crate::table::CD;
use crate::tuner::Answer;
use crate::voice_statistics::VoiceStatistics;
use crate::voices::Ensemble;

#[derive(Default)]
pub struct VoiceLines {
    lead: Program,
    intervals: Vec<i32>,
    /// Those of the next start.
    next: Vec<i32>,
    pub statistics: VoiceStatistics,
}

impl VoiceLines {
    /// Answers a line, without its end.
    pub fn line(&mut self, line: &[u8], answers: &mut Vec<u8>) {
        if line.split(|&byte| byte == b'\t').next() == Some(b"voices") {
            let number = self.choose(line);
            answers.extend(format!("{number}\n").bytes());
            return;
        }
        let record = Record::on(line);
        let refused = match &record {
            Some(Record::Start(hertz, settings)) => self.start(hertz.unwrap_or(CD), settings),
            _ => None,
        };
        if let Some(number) = refused {
            answers.extend(format!("{number}\n").bytes());
            return;
        }
        if record == Some(Record::Reset) {
            let lead = self.lead.tuner().lead();
            self.statistics.reset(&lead, &self.intervals);
        }
        let before = answers.len();
        self.lead.read(&[line, b"\n"].concat(), answers);
        if let Some(Record::Block(_, samples)) = record {
            self.voices(answers[before], samples.len(), answers);
        }
    }

    /// Takes the voices of a start, or gives the number that refuses it: the old
    /// ones stay then, the lead too.
    fn start(&mut self, hertz: u32, settings: &Settings) -> Option<usize> {
        let next = std::mem::take(&mut self.next);
        let answer = Ensemble::answer_to_start(hertz, settings, None, &next);
        self.statistics.start(answer, next.len());
        if answer != Answer::Taken {
            return Some(answer.number());
        }
        self.intervals = next;
        None
    }

    fn choose(&mut self, line: &[u8]) -> usize {
        let fields = line.split(|&byte| byte == b'\t').skip(1);
        let intervals: Option<Vec<i32>> =
            fields.map(|field| sample(field).map(i32::from)).collect();
        match intervals {
            Some(intervals) if line.len() <= LONGEST_LINE => {
                self.next = intervals;
                Answer::Taken.number()
            }
            _ => UNREADABLE,
        }
    }

    /// What each voice wrote at a block of so many samples that was answered with
    /// this digit.
    fn voices(&mut self, digit: u8, length: usize, answers: &mut Vec<u8>) {
        let tuner = self.lead.tuner();
        let written = if digit <= b'1' { length } else { 0 };
        let (lead, from) = (tuner.lead(), tuner.count() - written);
        for &interval in &self.intervals {
            let voice = lead.voice(interval, from);
            self.statistics.block(digit, &lead, interval, from, &voice);
            answers.extend(b"voice");
            for sung in voice {
                answers.extend(format!("\t{}", sung.out).bytes());
            }
            answers.push(b'\n');
        }
    }
}

/// All answers to an input, and what was seen of the voices on the way.
pub fn answers_with_voices(input: &[u8]) -> (Vec<u8>, VoiceStatistics) {
    let mut program = VoiceLines::default();
    let mut answers = Vec::new();
    for line in input.split_inclusive(|&byte| byte == b'\n') {
        program.line(line.strip_suffix(b"\n").unwrap_or(line), &mut answers);
    }
    (answers, program.statistics)
}
