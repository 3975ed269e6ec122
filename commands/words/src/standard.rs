//! Standard input, output and error, which may be pipes, closed, or not ready
//! (non-blocking).

use crate::end::{reason, End};
use crate::signals;
use std::ffi::{c_int, c_short, c_ulong};
use std::fs::File;
use std::io::{self, ErrorKind, Read, Write};
use std::os::fd::{AsFd, AsRawFd};
use std::sync::atomic::{AtomicBool, Ordering::Relaxed};

#[repr(C)]
struct Polled {
    file: c_int,
    events: c_short,
    found: c_short,
}

extern "C" {
    fn poll(files: *mut Polled, count: c_ulong, milliseconds: c_int) -> c_int;
    fn fcntl(file: c_int, command: c_int, ...) -> c_int;
}

const READABLE: c_short = 1;
const WRITABLE: c_short = 4;
/// fcntl's question that any open file answers.
const FLAGS: c_int = 1;
/// How often a signal is looked for while nothing is ready.
const MILLISECONDS: c_int = 500;
/// The error of a file that is not open.
const CLOSED: i32 = 9;

static INPUT_CLOSED: AtomicBool = AtomicBool::new(false);
static OUTPUT_CLOSED: AtomicBool = AtomicBool::new(false);

/// Notes whether standard input and output are closed. A program has it called before `main` (`.init_array`), since Rust then puts
/// /dev/null in their place, and what is written there is lost in silence.
pub extern "C" fn look_before_main() {
    // SAFETY: it takes numbers, and answers -1 where no such file is open.
    let closed = |file| unsafe { fcntl(file, FLAGS) } < 0;
    INPUT_CLOSED.store(closed(0), Relaxed);
    OUTPUT_CLOSED.store(closed(1), Relaxed);
}

/// One of the three, read or written without a buffer.
pub struct Standard {
    file: File,
    closed: bool,
    events: c_short,
}

fn standard(from: impl AsFd, closed: bool, events: c_short) -> io::Result<Standard> {
    let file = File::from(from.as_fd().try_clone_to_owned()?);
    Ok(Standard {
        file,
        closed,
        events,
    })
}

pub fn input() -> io::Result<Standard> {
    standard(io::stdin(), INPUT_CLOSED.load(Relaxed), READABLE)
}

pub fn output() -> io::Result<Standard> {
    standard(io::stdout(), OUTPUT_CLOSED.load(Relaxed), WRITABLE)
}

impl Standard {
    /// Tries a call until it is ready. A signal that was noted ends the waiting.
    fn ready<T>(&mut self, mut call: impl FnMut(&mut File) -> io::Result<T>) -> io::Result<T> {
        if self.closed {
            return Err(io::Error::from_raw_os_error(CLOSED));
        }
        loop {
            match call(&mut self.file) {
                Err(error) if error.kind() == ErrorKind::WouldBlock => self.wait(),
                Err(error) if error.kind() == ErrorKind::Interrupted => {}
                done => return done,
            }
            if signals::ended().is_err() {
                return Err(io::Error::other("a signal ended it"));
            }
        }
    }

    fn wait(&self) {
        is_ready(self.file.as_raw_fd(), self.events);
    }
}

/// Waits until a file is ready, but no longer than a signal may have to wait; whether it is.
fn is_ready(file: c_int, events: c_short) -> bool {
    let mut polled = Polled {
        file,
        events,
        found: 0,
    };
    // SAFETY: it is one such record, and lent for the call alone.
    unsafe { poll(&mut polled, 1, MILLISECONDS) > 0 }
}

/// Waits so until there is something to read, or the end of it.
pub fn is_readable(file: &impl AsRawFd) -> bool {
    is_ready(file.as_raw_fd(), READABLE)
}

/// Standard input and output, where they are closed.
pub fn closed() -> [Option<c_int>; 2] {
    let if_closed = |closed: &AtomicBool, file| closed.load(Relaxed).then_some(file);
    [if_closed(&INPUT_CLOSED, 0), if_closed(&OUTPUT_CLOSED, 1)]
}

impl Read for Standard {
    fn read(&mut self, bytes: &mut [u8]) -> io::Result<usize> {
        self.ready(|file| file.read(bytes))
    }
}

/// A write that takes nothing is a failed one: `write_all` says so, and does not try for ever.
impl Write for Standard {
    fn write(&mut self, bytes: &[u8]) -> io::Result<usize> {
        self.ready(|file| file.write(bytes))
    }

    fn flush(&mut self) -> io::Result<()> {
        Ok(())
    }
}

/// Text on standard output.
pub fn print(text: &str) -> Result<(), End> {
    let write = || output()?.write_all(text.as_bytes());
    match text.is_empty() {
        true => Ok(()),
        false => write().map_err(|error| unwritten(&error)),
    }
}

/// Why standard output was not written, or input not read; a signal is one of its own.
pub fn unwritten(error: &io::Error) -> End {
    stopped("standard output", error)
}

pub fn unread(error: &io::Error) -> End {
    stopped("standard input", error)
}

fn stopped(name: &str, error: &io::Error) -> End {
    let unless = || End::File(format!("{name}: {}", reason(error)));
    signals::ended().err().unwrap_or_else(unless)
}

/// Text on standard error.
pub fn error(text: &str) {
    let write = || standard(io::stderr(), false, WRITABLE)?.write_all(text.as_bytes());
    // there is nowhere left to say that it failed
    let _ = write();
}
