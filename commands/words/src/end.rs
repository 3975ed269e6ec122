//! How a command ends that did not do what it was asked for.

use crate::{help, parse, signals, standard};
use std::ffi::{c_int, OsStr};
use std::io;
use std::os::unix::ffi::OsStrExt;
use std::path::Path;
use std::process::ExitCode;

/// The exit statuses. 4 is the shell's: the program could not be built.
pub const USAGE: u8 = 1;
pub const REFUSED: u8 = 2;
pub const FILE: u8 = 3;
pub const EXISTS: u8 = 5;
pub const DIFFERS: u8 = 6;

#[derive(Debug)]
pub enum End {
    /// The words are wrong, whatever the files are.
    Usage(String),
    /// A proved call refused: its number, and what was refused and why.
    Refused(u32, String),
    /// A file cannot be read or written: which, and why.
    File(String),
    /// A file that would be written is there already.
    Exists(String),
    /// A signal said so.
    Signal(c_int),
    /// All is said and printed: the status alone.
    Said(u8),
}

impl End {
    /// The exit status. That of a signal is the signal itself.
    pub fn status(&self) -> u8 {
        match self {
            End::Usage(_) => USAGE,
            End::Refused(..) => REFUSED,
            End::File(_) => FILE,
            End::Exists(_) => EXISTS,
            End::Signal(number) => 128 + *number as u8,
            End::Said(status) => *status,
        }
    }

    /// What standard error says of it.
    pub fn say(&self, program: &str) {
        match self {
            End::Usage(why) => say(program, &format!("{why}\n{}", usage_of(program))),
            End::Refused(_, why) | End::File(why) | End::Exists(why) => say(program, why),
            End::Signal(_) | End::Said(_) => {}
        }
    }
}

/// The usage lines of a command.
fn usage_of(program: &str) -> String {
    let name = program.strip_prefix("daxfolin ").unwrap_or_default();
    let lines = match parse::command(name) {
        Some(command) => help::usage(command),
        None => help::USAGE.to_string(),
    };
    lines.trim_end().to_string()
}

/// The status of a whole run: what a refusal prints, and what is said.
pub fn finish(program: &str, ended: Result<(), End>) -> ExitCode {
    let Err(end) = ended else {
        return ExitCode::SUCCESS;
    };
    if let End::Signal(number) = end {
        signals::end_by(number);
    }
    if let End::Refused(number, _) = end {
        if let Err(unprinted) = standard::print(&format!("{number}\n")) {
            unprinted.say(program);
        }
    }
    end.say(program);
    ExitCode::from(end.status())
}

/// A line on standard error. Where that takes nothing, nothing is left to do.
pub fn say(program: &str, what: &str) {
    standard::error(&format!("{program}: {what}\n"));
}

/// What failed, without the system's number for it.
pub fn reason(error: &io::Error) -> String {
    let text = error.to_string();
    text.split(" (os error")
        .next()
        .unwrap_or_default()
        .to_string()
}

/// A file and what failed with it.
pub fn failed(name: &Path, error: &io::Error) -> End {
    no(name, &reason(error))
}

/// A file and why it is not read or written.
pub fn no(name: &Path, why: &str) -> End {
    End::File(format!("{}: {why}", shown(name.as_os_str())))
}

/// A file's name for people. One with control characters, or that is no text, is quoted as a shell takes it.
pub fn shown(name: &OsStr) -> String {
    match name.to_str() {
        Some(text) if !text.chars().any(char::is_control) => text.to_string(),
        _ => quoted(name.as_bytes()),
    }
}

fn quoted(bytes: &[u8]) -> String {
    let mut text = String::from("$'");
    for part in bytes.utf8_chunks() {
        for letter in part.valid().chars() {
            match letter {
                '\n' => text += "\\n",
                '\t' => text += "\\t",
                '\r' => text += "\\r",
                '\'' | '\\' => text.extend(['\\', letter]),
                _ if letter.is_control() => {
                    let mut bytes = [0; 4];
                    octal(&mut text, letter.encode_utf8(&mut bytes).as_bytes());
                }
                _ => text.push(letter),
            }
        }
        octal(&mut text, part.invalid());
    }
    text + "'"
}

fn octal(text: &mut String, bytes: &[u8]) {
    for byte in bytes {
        *text += &format!("\\{byte:03o}");
    }
}

#[cfg(test)]
mod tests {
    use super::*;

    #[test]
    fn names_for_people() {
        for (name, right) in [
            (&b"take.wav"[..], "take.wav"),
            (b"a b'c.wav", "a b'c.wav"),
            ("Lied\u{e4}.wav".as_bytes(), "Lied\u{e4}.wav"),
            (b"a\nb", "$'a\\nb'"),
            (b"it's\ta\\b\r", "$'it\\'s\\ta\\\\b\\r'"),
            (b"\x1b[31mred\x07", "$'\\033[31mred\\007'"),
            (b"\xff.wav", "$'\\377.wav'"),
            ("\u{85}".as_bytes(), "$'\\302\\205'"),
        ] {
            assert_eq!(shown(OsStr::from_bytes(name)), right);
        }
    }
}
