//! What the commands say of their words.

use std::process::{Command, Output, Stdio};

const COMMANDS: [(&str, &str); 13] = [
    ("compare", env!("CARGO_BIN_EXE_compare")),
    ("files", env!("CARGO_BIN_EXE_files")),
    ("generate", env!("CARGO_BIN_EXE_generate")),
    ("lines", env!("CARGO_BIN_EXE_lines")),
    ("night", env!("CARGO_BIN_EXE_night")),
    ("notes", env!("CARGO_BIN_EXE_notes")),
    ("play", env!("CARGO_BIN_EXE_play")),
    ("raw", env!("CARGO_BIN_EXE_raw")),
    ("records", env!("CARGO_BIN_EXE_records")),
    ("report", env!("CARGO_BIN_EXE_report")),
    ("smoothness", env!("CARGO_BIN_EXE_smoothness")),
    ("voices", env!("CARGO_BIN_EXE_voices")),
    ("waves", env!("CARGO_BIN_EXE_waves")),
];

fn run(program: &str, words: &[&str]) -> Output {
    let mut command = Command::new(program);
    command.args(words).stdin(Stdio::null());
    command.output().expect("the command starts")
}

fn begins(said: &[u8], name: &str) -> bool {
    String::from_utf8_lossy(said).starts_with(&format!("usage: {name}"))
}

#[test]
fn help_is_the_usage_on_standard_output() {
    for (name, program) in COMMANDS {
        let output = run(program, &["--help"]);
        assert_eq!(output.status.code(), Some(0), "{name}");
        assert!(begins(&output.stdout, name), "{name}");
        assert!(output.stderr.is_empty(), "{name}");
    }
}

#[test]
fn wrong_words_are_status_2_and_the_usage_on_standard_error() {
    for (name, program) in COMMANDS {
        let output = run(program, &["such", "words", "are", "not", "taken"]);
        assert_eq!(output.status.code(), Some(2), "{name}");
        assert!(output.stdout.is_empty(), "{name}");
        assert!(begins(&output.stderr, name), "{name}");
    }
}

/// Takes that are cut in several ways have no one length of blocks.
#[test]
fn cuts_take_no_length() {
    let generate = |kind| run(COMMANDS[2].1, &[kind, "1", "100", "64"]).status.code();
    assert_eq!(generate("tones"), Some(0));
    assert_eq!(generate("cuts"), Some(2));
}
