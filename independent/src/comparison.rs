//! Another program, held to this one: a script of lines or cases of WAVE files to
//! both, and the first answer that differs; or the first row of a list of the
//! notes sung, the first line of a report, or the first answer with voices.
//!
//! Threads of their own write the other's input and read its output, so that
//! it never stands still for this program, nor this one for it.

use crate::generator::files::Files;
use crate::lines::Program;
use crate::list::List;
use crate::takes::Disagreement;
use crate::voice_lines::VoiceLines;
use crate::waves::{Case, Independent};
use std::fmt;
use std::io::{self, Read, Write};
use std::process::{ChildStdin, ChildStdout, Command, ExitStatus, Stdio};
use std::sync::mpsc::{channel, sync_channel, Receiver, RecvTimeoutError, Sender};
use std::sync::Arc;
use std::thread;
use std::time::Duration;

/// So long is an answer awaited, in seconds.
const PATIENCE: u64 = 10;
/// So much of a line is shown, in bytes.
const SHOWN: usize = 200;

/// How lines are sent.
#[derive(Clone, Copy, PartialEq, Eq)]
pub enum Host {
    /// As fast as they are taken.
    Streaming,
    /// Each after the answer to the one before.
    Waiting,
}

/// What was equal.
#[derive(Default)]
pub struct Equal {
    pub lines: u64,
    pub samples: u64,
    /// Cases of WAVE files.
    pub files: u64,
    /// Rows of the lists of the notes sung, and how many takes they are of.
    pub rows: u64,
    pub lists: u64,
    pub reports: u64,
    /// Samples that voices wrote.
    pub voices: u64,
}

impl Equal {
    pub fn add(&mut self, other: &Equal) {
        self.lines += other.lines;
        self.samples += other.samples;
        self.files += other.files;
        self.rows += other.rows;
        self.lists += other.lists;
        self.reports += other.reports;
        self.voices += other.voices;
    }

    /// Written, repeated and dropped come before a block's samples.
    fn add_answer(&mut self, answer: &[u8]) {
        self.lines += 1;
        self.samples += tabs(answer).saturating_sub(3);
    }
}

/// So many fields come behind the first.
fn tabs(line: &[u8]) -> u64 {
    line.iter().filter(|&&byte| byte == b'\t').count() as u64
}

impl fmt::Display for Equal {
    fn fmt(&self, to: &mut fmt::Formatter) -> fmt::Result {
        write!(to, "{} lines, {} samples out", self.lines, self.samples)?;
        if self.lists > 0 {
            write!(to, ", {} rows of notes in {} takes", self.rows, self.lists)?;
        }
        if self.reports > 0 {
            write!(to, ", {} reports", self.reports)?;
        }
        if self.voices > 0 {
            write!(to, ", {} samples of voices", self.voices)?;
        }
        match self.files {
            0 => Ok(()),
            files => write!(to, ", {files} cases of files"),
        }
    }
}

/// Why two programs are not equal.
pub enum Unequal {
    /// An answer differs; it is empty where there is none.
    Answer {
        line: u64,
        input: Vec<u8>,
        expected: Vec<u8>,
        got: Vec<u8>,
    },
    /// The answer to this line did not come in time.
    Silence { line: u64, input: Vec<u8> },
    /// All answers are equal, but the other program says that it failed.
    Status(ExitStatus),
    /// All answers are equal, but those to the cuttings of a take do not agree.
    Cutting(Disagreement),
    /// The other program cannot be run.
    NotRun(io::Error),
}

impl fmt::Display for Unequal {
    fn fmt(&self, to: &mut fmt::Formatter) -> fmt::Result {
        match self {
            Unequal::Answer {
                line,
                input,
                expected,
                got,
            } => {
                let pairs = expected.iter().zip(got);
                let same = pairs.take_while(|(expected, got)| expected == got).count();
                let from = same.saturating_sub(SHOWN / 2);
                writeln!(to, "line {line}, from byte {} of its answer on", same + 1)?;
                writeln!(to, "  input     {}", shown(input, 0))?;
                writeln!(to, "  expected  {}", shown(expected, from))?;
                write!(to, "  got       {}", shown(got, from))
            }
            Unequal::Silence { line, input } => {
                writeln!(to, "line {line}: no answer within {PATIENCE} s")?;
                write!(to, "  input     {}", shown(input, 0))
            }
            Unequal::Status(status) => write!(to, "all answers are equal, but then: {status}"),
            Unequal::Cutting(disagreement) => write!(to, "{disagreement}"),
            Unequal::NotRun(error) => write!(to, "the program cannot be run: {error}"),
        }
    }
}

/// A part of a line in letters that can be seen, dots where it is cut.
fn shown(line: &[u8], from: usize) -> String {
    let rest = &line[from..];
    let part = &rest[..rest.len().min(SHOWN)];
    let before = if from > 0 { ".." } else { "" };
    let after = if part.len() < rest.len() { ".." } else { "" };
    match line {
        [] => "nothing".to_string(),
        _ => format!("{before}{}{after}", part.escape_ascii()),
    }
}

/// What came of a script.
pub struct Held {
    /// The other program's answers.
    pub answers: Vec<u8>,
    /// The list of each take, by this program.
    pub lists: Vec<List>,
    /// The report, by this program.
    pub report: String,
}

/// Gives a script to both programs, the other being this command, and counts
/// what is equal.
pub fn compare(
    script: &[u8],
    command: &[String],
    host: Host,
    equal: &mut Equal,
) -> Result<Held, Unequal> {
    with_program(command, script, host, |go, answers| {
        hold(script, go, answers, equal)
    })
}

/// Gives a script to this command, which prints the list of each take, and holds
/// it to these lists. Lines are then those of what it prints.
pub fn compare_lists(
    script: &[u8],
    lists: &[List],
    command: &[String],
    equal: &mut Equal,
) -> Result<(), Unequal> {
    with_stream(command, script, |mut answers| {
        let mut line = 1;
        for list in lists {
            for row in list.to_string().split_inclusive('\n') {
                answers.hold(line, b"", row.as_bytes())?;
                line += 1;
            }
            equal.rows += list.rows.len() as u64;
            equal.lists += 1;
        }
        answers.hold(line, b"", b"").map(drop)
    })
}

/// Gives a script to this command, which prints a report, and holds it to this
/// one. Lines are then those of the report.
pub fn compare_report(
    script: &[u8],
    report: &str,
    command: &[String],
    equal: &mut Equal,
) -> Result<(), Unequal> {
    with_stream(command, script, |mut answers| {
        let lines = report.split_inclusive('\n');
        for (line, figures) in (1..).zip(lines.chain([""])) {
            answers.hold(line, b"", figures.as_bytes())?;
        }
        equal.reports += 1;
        Ok(())
    })
}

/// Gives a script with voices to both programs, the other being this command, and
/// counts what voices wrote alike.
pub fn compare_voices(script: &[u8], command: &[String], equal: &mut Equal) -> Result<(), Unequal> {
    with_stream(command, script, |mut answers| {
        let mut program = VoiceLines::default();
        let mut line = 1;
        for input in script.split_inclusive(|&byte| byte == b'\n') {
            let mut expected = Vec::new();
            program.line(input.strip_suffix(b"\n").unwrap_or(input), &mut expected);
            for answer in expected.split_inclusive(|&byte| byte == b'\n') {
                answers.hold(line, input, answer)?;
                if answer.starts_with(b"voice") {
                    equal.voices += tabs(answer);
                }
            }
            line += 1;
        }
        answers.hold(line, b"", b"").map(drop)
    })
}

/// Gives the first cases of WAVE files of a seed to both programs, the other being
/// this command, and counts what is equal.
pub fn compare_files(
    seed: u64,
    cases: u64,
    command: &[String],
    equal: &mut Equal,
) -> Result<(), Unequal> {
    let mut source = Files::seeded(seed);
    let cases: Vec<Case> = (0..cases).map(|_| source.case()).collect();
    let bytes: Vec<u8> = cases.iter().flat_map(Case::bytes).collect();
    with_stream(command, &bytes, |mut answers| {
        for (line, case) in (1..).zip(&cases) {
            let expected = case.answer(&Independent) + "\n";
            answers.hold(line, &case.bytes(), expected.as_bytes())?;
            equal.files += 1;
        }
        answers.hold(cases.len() as u64 + 1, b"", b"").map(drop)
    })
}

/// Runs a command on this input as fast as it takes it, and holds its answers.
fn with_stream<T>(
    command: &[String],
    input: &[u8],
    hold: impl FnOnce(Answers) -> Result<T, Unequal>,
) -> Result<T, Unequal> {
    with_program(command, input, Host::Streaming, |go, answers| {
        // A program that has ended is told by its answers.
        let _ = go.send(());
        hold(answers)
    })
}

/// Runs a command on this input, and holds its answers as they come.
fn with_program<T>(
    command: &[String],
    input: &[u8],
    host: Host,
    hold: impl FnOnce(Sender<()>, Answers) -> Result<T, Unequal>,
) -> Result<T, Unequal> {
    let mut child = Command::new(&command[0])
        .args(&command[1..])
        .stdin(Stdio::piped())
        .stdout(Stdio::piped())
        .spawn()
        .map_err(Unequal::NotRun)?;
    let to = child.stdin.take().expect("the input is a pipe");
    let output = child.stdout.take().expect("the output is a pipe");
    let go = writer(to, input.into(), host);
    let compared = hold(go, Answers::of(output));
    if compared.is_err() {
        // It may have ended by itself, and then cannot be stopped.
        let _ = child.kill();
    }
    let status = child.wait().map_err(Unequal::NotRun)?;
    if compared.is_ok() && !status.success() {
        return Err(Unequal::Status(status));
    }
    compared
}

/// Writes the input once it is told to; for a host that waits, one line each
/// time. A program that does not take it all is told by its answers.
fn writer(mut to: ChildStdin, input: Arc<[u8]>, host: Host) -> Sender<()> {
    let (go, told) = channel();
    thread::spawn(move || {
        let mut pieces = input.split_inclusive(|&byte| host == Host::Waiting && byte == b'\n');
        pieces.all(|piece| told.recv().is_ok() && to.write_all(piece).is_ok())
    });
    go
}

/// Holds the answers to this program's, and gives them with this program's lists.
fn hold(
    script: &[u8],
    go: Sender<()>,
    mut answers: Answers,
    equal: &mut Equal,
) -> Result<Held, Unequal> {
    let mut program = Program::default();
    let mut got = Vec::new();
    let mut line = 1;
    for input in script.split_inclusive(|&byte| byte == b'\n') {
        // A streaming writer is told once, and then no longer listens.
        let _ = go.send(());
        let mut expected = Vec::new();
        program.read(input, &mut expected);
        if !input.ends_with(b"\n") {
            program.end_line(&mut expected);
        }
        got.extend(answers.hold(line, input, &expected)?);
        equal.add_answer(&expected);
        line += 1;
    }
    answers.hold(line, b"", b"")?;
    program.end(&mut Vec::new());
    Ok(Held {
        answers: got,
        lists: program.lists(),
        report: program.report(),
    })
}

/// What the other program writes, as it comes.
struct Answers {
    pieces: Receiver<Vec<u8>>,
    /// Come and not yet compared.
    come: Vec<u8>,
    compared: usize,
}

impl Answers {
    fn of(mut output: ChildStdout) -> Answers {
        // Few pieces, so that a program that never stops fills no memory.
        let (to, pieces) = sync_channel(4);
        thread::spawn(move || {
            let mut piece = vec![0; 65_536];
            while let Ok(length @ 1..) = output.read(&mut piece) {
                if to.send(piece[..length].to_vec()).is_err() {
                    break;
                }
            }
        });
        Answers {
            pieces,
            come: Vec::new(),
            compared: 0,
        }
    }

    /// Holds the next line to the one that is expected, and gives it.
    fn hold(&mut self, line: u64, input: &[u8], expected: &[u8]) -> Result<Vec<u8>, Unequal> {
        let got = self.next(expected.len()).ok_or_else(|| Unequal::Silence {
            line,
            input: input.to_vec(),
        })?;
        if got == expected {
            return Ok(got);
        }
        Err(Unequal::Answer {
            line,
            input: input.to_vec(),
            expected: expected.to_vec(),
            got,
        })
    }

    /// The next line with its end, or what there is of it, once that is longer
    /// than `enough` or nothing follows. None if it does not come in time.
    fn next(&mut self, enough: usize) -> Option<Vec<u8>> {
        loop {
            let rest = &self.come[self.compared..];
            let end = rest.iter().position(|&byte| byte == b'\n');
            let length = end.map_or(rest.len(), |end| end + 1);
            if end.is_some() || length > enough {
                self.compared += length;
                return Some(rest[..length].to_vec());
            }
            match self.pieces.recv_timeout(Duration::from_secs(PATIENCE)) {
                Ok(piece) => {
                    self.come.drain(..self.compared);
                    self.compared = 0;
                    self.come.extend(piece);
                }
                Err(RecvTimeoutError::Disconnected) => return Some(rest.to_vec()),
                Err(RecvTimeoutError::Timeout) => return None,
            }
        }
    }
}
