//! Programs apart, which this one finds and starts: the independent program that
//! checks, and the line programs, which are proved as a whole.

use std::ffi::c_int;
use std::fs::File;
use std::io::{self, stdin, IsTerminal, Read};
use std::os::fd::{AsFd, AsRawFd};
use std::os::unix::fs::FileExt;
use std::os::unix::process::{CommandExt, ExitStatusExt};
use std::path::{Path, PathBuf};
use std::process::{Child, Command, ExitStatus, Stdio};
use words::end::{failed, no, say, End};
use words::signals::{ended, note_all};
use words::standard;

extern "C" {
    fn close(file: c_int) -> c_int;
    fn signal(number: c_int, action: usize) -> usize;
}

/// A write to a pipe that nobody reads, and a signal that does nothing.
const BROKEN_PIPE: c_int = 13;
const IGNORED: usize = 1;
/// The status of a line program that failed, and of one that is not there.
const FAILED: u8 = 1;
const MISSING: u8 = 2;
/// Where programs are built in a checkout: this one, and from there the line programs.
const BUILT: &str = "target/commands/release";
const LINES_BUILT: &str = "../../bin";

/// The places of a program, the first first: beside this one, and where an installation keeps what people do not call.
fn places(name: &str) -> io::Result<Vec<PathBuf>> {
    let own = std::env::current_exe()?;
    let beside = own.with_file_name(name);
    let apart = own.with_file_name("../libexec/daxfolin").join(name);
    Ok(vec![beside, apart])
}

/// A program, where it is.
pub fn found(name: &str) -> Result<PathBuf, End> {
    let places = places(name).map_err(|error| failed(Path::new(name), &error))?;
    let there = places.iter().find(|place| place.is_file());
    let missing = || no(&places[0], "it is not there: build it with tools/commands");
    there.cloned().ok_or_else(missing)
}

/// What a program that was started says or prints, all of it, and its status. A signal that ends this one ends it too.
pub fn finished(
    mut child: Child,
    program: &Path,
    mut from: impl Read + AsRawFd,
) -> Result<(ExitStatus, Vec<u8>), End> {
    let failed = |error| failed(program, &error);
    let (mut said, mut bytes) = (Vec::new(), [0; 4096]);
    loop {
        if let Err(end) = ended() {
            child.kill().map_err(failed)?;
            child.wait().map_err(failed)?;
            return Err(end);
        }
        if !standard::is_readable(&from) {
            continue;
        }
        match from.read(&mut bytes) {
            Ok(0) => break,
            Ok(count) => said.extend_from_slice(&bytes[..count]),
            Err(error) if error.kind() == io::ErrorKind::Interrupted => {}
            Err(error) => return Err(failed(error)),
        }
    }
    Ok((child.wait().map_err(failed)?, said))
}

// ---- line programs

/// A proved program between standard input and output.
pub struct Lines {
    /// Its name where it is installed, and where it is built.
    pub installed: &'static str,
    pub built: &'static str,
}

pub const ANSWERS: Lines = Lines {
    installed: "daxfolin-lines",
    built: "daxfolin",
};
pub const REPORT: Lines = Lines {
    installed: "daxfolin-report",
    built: "report",
};

impl Lines {
    /// Runs it, for the command of this name. It has no status of its own: anything that it says is a failure.
    pub fn run(&self, command: &str) -> Result<(), End> {
        note_all();
        lines_only()?;
        let missing = |end: End| {
            end.say(command);
            End::Said(MISSING)
        };
        let program = self.place().map_err(missing)?;
        let unstarted = |error: io::Error| missing(failed(&program, &error));
        let mut child = started(&program).spawn().map_err(unstarted)?;
        let Some(from) = child.stderr.take() else {
            return Err(missing(no(&program, "it cannot be heard")));
        };
        let (status, said) = finished(child, &program, from)?;
        if said.is_empty() && status.success() {
            return Ok(());
        }
        standard::error(&String::from_utf8_lossy(&said));
        if !status.success() {
            say(command, &self.ended(status));
        }
        Err(End::Said(FAILED))
    }

    /// Where it is.
    fn place(&self) -> Result<PathBuf, End> {
        let mut places = places(self.installed).unwrap_or_default();
        places.extend(self.in_checkout());
        let place = places.iter().find(|place| place.is_file());
        let place = place.or(places.last()).cloned().unwrap_or_default();
        if !cfg!(target_arch = "x86_64") {
            let why = "it is for x86-64: ./daxfolin in the checkout has it emulated";
            return Err(no(&place, why));
        }
        let built = self.built;
        let why = format!("it is not there: build it in the checkout with tools/build {built}");
        match place.is_file() {
            true => Ok(place),
            false => Err(no(&place, &why)),
        }
    }

    /// Where this program is where it was built, so is the other.
    fn in_checkout(&self) -> Option<PathBuf> {
        let own = std::env::current_exe().ok()?;
        let folder = own.parent()?;
        let built = folder.join(LINES_BUILT).join(self.built);
        folder.ends_with(BUILT).then_some(built)
    }

    fn ended(&self, status: ExitStatus) -> String {
        let (number, killed) = match (status.code(), status.signal()) {
            (Some(code), _) => (code, String::new()),
            (None, signal) => {
                let signal = signal.unwrap_or_default();
                (128 + signal, format!(", killed by signal {signal}"))
            }
        };
        format!(
            "the program {} ended with status {number}{killed}",
            self.built
        )
    }
}

/// A line program with this one's standard input and output, closed where they are closed. A pipe that nobody reads any more does not end
/// it, so that it says that.
fn started(program: &Path) -> Command {
    let mut command = Command::new(program);
    command.stderr(Stdio::piped());
    let closed = standard::closed();
    // SAFETY: between the two programs only these two calls are made, which take numbers and touch no memory.
    unsafe {
        command.pre_exec(move || {
            for file in closed.into_iter().flatten() {
                close(file);
            }
            signal(BROKEN_PIPE, IGNORED);
            Ok(())
        });
    }
    command
}

/// A person at a terminal, and a WAVE file, are not what is read where lines are. A file is looked at without reading on in it.
pub fn lines_only() -> Result<(), End> {
    let input = stdin();
    if input.is_terminal() {
        let why = "it reads lines from standard input, which is a terminal";
        return Err(End::Usage(why.to_string()));
    }
    let file = input.as_fd().try_clone_to_owned().map(File::from);
    let mut begins = [0; 4];
    let read = file.and_then(|file| match file.metadata()?.is_file() {
        true => file.read_exact_at(&mut begins, 0),
        false => Ok(()),
    });
    match read.is_ok() && begins == *b"RIFF" {
        true => Err(End::Usage(
            "standard input is a WAVE file, and this form reads lines".to_string(),
        )),
        false => Ok(()),
    }
}
