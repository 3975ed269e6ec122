//! The words of a command: its usage, asked for or given where the words are wrong.

use std::ffi::OsString;
use std::process::exit;

/// The words after the command's name. `--help` first: the usage on standard output, and the end, with status 0.
pub fn words(usage: &str) -> Vec<String> {
    let text = |word: OsString| word.into_string().unwrap_or_else(|_| wrong(usage));
    names(usage).into_iter().map(text).collect()
}

/// The same, where words are names of files, which need not be text.
pub fn names(usage: &str) -> Vec<OsString> {
    let words: Vec<OsString> = std::env::args_os().skip(1).collect();
    if words.first().is_some_and(|word| word == "--help") {
        println!("usage: {usage}");
        exit(0);
    }
    words
}

/// The end, with the usage on standard error and status 2.
pub fn wrong(usage: &str) -> ! {
    eprintln!("usage: {usage}");
    exit(2)
}
