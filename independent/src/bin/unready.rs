//! `unready late|broken LINE TEXT.. -- COMMAND ARG..`: runs COMMAND on an input
//! that is not ready when it comes to it. LINE is sent and its answer awaited,
//! then each TEXT after a pause; after the last one the input ends, or breaks.
//! Where LINE is empty no answer is awaited: many empty lines are sent, and have
//! come to their end when COMMAND reads.
//! `unready slow -- COMMAND ARG..`: an output that is not ready, read slowly.
//! Writes what COMMAND writes and ends with its status.

use std::io::{self, Read, Write};
use std::os::fd::OwnedFd;
use std::os::unix::net::UnixStream;
use std::process::{Child, Command, ExitCode, Stdio};
use std::thread::sleep;
use std::time::Duration;

const PAUSE: Duration = Duration::from_millis(100);
/// More empty lines than fit between two programs.
const EMPTY_LINES: usize = 320_000;

fn main() -> ExitCode {
    let arguments: Vec<String> = std::env::args().skip(1).collect();
    let (words, command) = match arguments.iter().position(|word| word == "--") {
        Some(at) => (&arguments[..at], &arguments[at + 1..]),
        None => (&arguments[..], &[][..]),
    };
    let ran = match (words, command) {
        (_, []) => None,
        ([case, line, texts @ ..], _) if case == "late" => Some(input(line, texts, false, command)),
        ([case, line, texts @ ..], _) if case == "broken" => {
            Some(input(line, texts, true, command))
        }
        ([case], _) if case == "slow" => Some(slow(command)),
        _ => None,
    };
    match ran {
        Some(Ok(status)) => ExitCode::from(status),
        Some(Err(error)) => {
            eprintln!("unready: {error}");
            ExitCode::from(3)
        }
        None => {
            eprintln!("usage: unready late|broken LINE TEXT.. | slow -- COMMAND ARG..");
            ExitCode::from(2)
        }
    }
}

fn started(command: &[String], input: Stdio, output: Stdio) -> io::Result<Child> {
    let [program, arguments @ ..] = command else {
        return Err(io::ErrorKind::InvalidInput.into());
    };
    let mut command = Command::new(program);
    command.args(arguments).stdin(input).stdout(output).spawn()
}

fn ended(mut child: Child) -> io::Result<u8> {
    let status = child.wait()?;
    Ok(status
        .code()
        .and_then(|code| u8::try_from(code).ok())
        .unwrap_or(255))
}

/// A read of an empty socket that must not wait finds nothing ready.
fn input(line: &str, texts: &[String], breaks: bool, command: &[String]) -> io::Result<u8> {
    let (mut ours, theirs) = UnixStream::pair()?;
    theirs.set_nonblocking(true)?;
    let mut other_side = theirs.try_clone()?;
    let mut child = started(command, OwnedFd::from(theirs).into(), Stdio::piped())?;
    let mut answers = child.stdout.take().ok_or(io::ErrorKind::BrokenPipe)?;
    let mut out = Vec::new();
    if line.is_empty() {
        ours.write_all(&[b'\n'; EMPTY_LINES])?;
    } else {
        ours.write_all(line.as_bytes())?;
        out = answer(&mut answers)?;
    }
    for text in texts {
        ours.write_all(text.as_bytes())?;
        sleep(PAUSE);
    }
    // A socket that goes away with bytes unread resets the connection.
    if breaks {
        other_side.write_all(b"unread")?;
    }
    drop(other_side);
    drop(ours);
    answers.read_to_end(&mut out)?;
    io::stdout().write_all(&out)?;
    ended(child)
}

/// The next line.
fn answer(answers: &mut impl Read) -> io::Result<Vec<u8>> {
    let mut line = Vec::new();
    while line.last() != Some(&b'\n') {
        let mut byte = [0];
        answers.read_exact(&mut byte)?;
        line.push(byte[0]);
    }
    Ok(line)
}

/// A write to a full socket that must not wait is cut short or finds no room.
fn slow(command: &[String]) -> io::Result<u8> {
    let (mut ours, theirs) = UnixStream::pair()?;
    theirs.set_nonblocking(true)?;
    let child = started(command, Stdio::inherit(), OwnedFd::from(theirs).into())?;
    let mut out = io::stdout().lock();
    let mut some = [0; 50_000];
    loop {
        let length = ours.read(&mut some)?;
        if length == 0 {
            break;
        }
        out.write_all(&some[..length])?;
        sleep(PAUSE / 10);
    }
    ended(child)
}
