//! The line program with backing voices, by the proved calls, standard input to
//! standard output: `independent/src/voice_lines.rs` says what its lines and
//! answers look like, and `./compare` holds it to that program.

use commands::lines::{asked, each, intervals, Asked};
use daxfolin::{Settings, Tuner, LONGEST_BLOCK, MOST_VOICES, TAKEN};
use std::io::{self, Write};

/// The answer to a line that cannot be read.
const UNREADABLE: u32 = 10;

/// The program opens with the default settings, and without voices.
#[derive(Default)]
struct Program {
    tuner: Tuner,
    settings: Settings,
    /// The voices of the next start.
    next: Vec<i32>,
}

impl Program {
    /// What a line is answered.
    fn line(&mut self, line: &[u8]) -> String {
        if let Some(intervals) = intervals(line) {
            self.next = intervals;
            return format!("{TAKEN}\n");
        }
        let number = match asked(line, self.settings) {
            None => UNREADABLE,
            Some(Asked::Start(settings, hertz)) => self.start(settings, hertz),
            Some(Asked::Change(settings)) => self.change(settings),
            Some(Asked::Midi(bytes)) => self.tuner.midi(&bytes),
            Some(Asked::Reset) => self.tuner.reset(&[]),
            Some(Asked::Block(number, samples)) => return self.block(number, &samples),
        };
        format!("{number}\n")
    }

    /// A start that is refused leaves the old tuner, as the line program does.
    fn start(&mut self, settings: Settings, hertz: u32) -> u32 {
        let next = std::mem::take(&mut self.next);
        let (number, tuner) = Tuner::start(hertz, settings, false, &next, &[]);
        if number == TAKEN {
            (self.tuner, self.settings) = (tuner, settings);
        }
        number
    }

    fn change(&mut self, settings: Settings) -> u32 {
        let number = self.tuner.change(settings);
        if number == TAKEN {
            self.settings = settings;
        }
        number
    }

    /// Its number and counts, the samples written, and a line for each voice.
    fn block(&mut self, number: u16, samples: &[i16]) -> String {
        let mut lead = [0; LONGEST_BLOCK];
        let mut voices = [[0; LONGEST_BLOCK]; MOST_VOICES];
        let lent = voices.each_mut().map(|voice| &mut voice[..]);
        let answer = self
            .tuner
            .block_with(number, samples, &mut lead, lent, &mut []);
        let written = |out: &[i16; LONGEST_BLOCK]| -> String {
            let out = out[..answer.written.into()].iter();
            out.map(|sample| format!("\t{sample}")).collect()
        };
        let mut text = format!(
            "{}\t{}\t{}\t{}{}\n",
            answer.number,
            answer.written,
            answer.repeated,
            answer.dropped,
            written(&lead)
        );
        for voice in &voices[..self.tuner.intervals().len()] {
            text += &format!("voice{}\n", written(voice));
        }
        text
    }
}

/// Answers go out before the next line is read, so a host that waits gets them.
fn main() -> io::Result<()> {
    let mut to = io::stdout().lock();
    let mut program = Program::default();
    each(
        io::stdin().lock(),
        |error| error,
        |line| {
            to.write_all(program.line(line).as_bytes())?;
            to.flush()
        },
    )
}
