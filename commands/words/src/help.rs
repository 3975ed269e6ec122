//! `--help`, from the table, for a terminal of 80 columns.

use crate::table::{Command, COMMANDS};

const WIDTH: usize = 80;
/// The column at which what an option does begins.
const INDENT: usize = 19;

pub const USAGE: &str = "usage: daxfolin COMMAND [OPTION..] [FILE..]\n";

/// The forms of a command, one behind the other.
pub fn usage(command: &Command) -> String {
    let forms = command.forms.iter().enumerate();
    let lines = forms.map(|(at, form)| {
        let begin = if at == 0 { "usage:" } else { "      " };
        format!("{begin} daxfolin {} {form}\n", command.name)
    });
    lines.collect()
}

pub fn of(command: &Command) -> String {
    let mut text = usage(command);
    for paragraph in command.about {
        text += &format!("\n{}", wrapped(paragraph, 0, 0));
    }
    text += "\n";
    for option in command.options() {
        text += &entry(&option.typed(), option.says);
    }
    for paragraph in command.more {
        text += &format!("\n{}", wrapped(paragraph, 0, 0));
    }
    text += "\nExit status:\n";
    for (status, meaning) in command.statuses {
        let line = format!("{status}  {meaning}");
        text += &format!("  {}", wrapped(&line, 2, 5));
    }
    text + "Standard error says why.\n"
}

pub fn overview() -> String {
    let mut text = format!("{USAGE}\nA tuner for one sung voice, proved sample by sample.\n\n");
    for command in COMMANDS {
        text += &entry(command.name, command.short);
    }
    for (words, says) in [
        ("help COMMAND", "what a command takes; also COMMAND -h"),
        (
            "man [COMMAND]",
            "the same as a man page: daxfolin man tune | man -l -",
        ),
        (
            "completion SHELL",
            "completion for bash, zsh or fish, to be evaluated by it",
        ),
        ("--version", "print the version"),
    ] {
        text += &entry(words, says);
    }
    text
}

/// What is typed, and from a column on what it does.
fn entry(typed: &str, says: &str) -> String {
    let says = wrapped(says, INDENT, INDENT);
    match typed.len() + 4 > INDENT {
        true => format!("  {typed}\n{:INDENT$}{says}", ""),
        false => format!("  {typed:width$}{says}", width = INDENT - 2),
    }
}

/// Lines of at most 80 columns, of which the first begins at one column and the others at another.
pub fn wrapped(text: &str, first: usize, others: usize) -> String {
    let mut lines = String::new();
    let mut column = first;
    for (at, word) in text.split(' ').enumerate() {
        let width = word.chars().count();
        if at > 0 && column + 1 + width > WIDTH {
            lines += &format!("\n{:others$}", "");
            column = others;
        } else if at > 0 {
            lines.push(' ');
            column += 1;
        }
        lines += word;
        column += width;
    }
    lines + "\n"
}

#[cfg(test)]
mod tests {
    use super::*;

    #[test]
    fn all_of_it_fits_a_terminal() {
        let helps = COMMANDS.iter().map(of).chain([overview()]);
        for help in helps {
            for line in help.lines() {
                assert!(line.chars().count() <= WIDTH, "{line}");
                assert_eq!(line, line.trim_end());
            }
        }
    }

    #[test]
    fn each_option_and_status_is_said() {
        for command in COMMANDS {
            let help = of(command);
            for option in command.options() {
                assert!(help.contains(&option.typed()), "{}", option.long);
            }
            for (status, _) in command.statuses {
                assert!(help.contains(&format!("\n  {status}  ")));
            }
            assert!(help.starts_with(&format!("usage: daxfolin {} ", command.name)));
        }
    }

    #[test]
    fn lines_are_filled() {
        assert_eq!(wrapped("a b", 0, 4), "a b\n");
        let long = "x".repeat(40);
        let text = format!("{long} {} {long}", &long[..39]);
        assert_eq!(
            wrapped(&text, 0, 4),
            format!("{long} {}\n    {long}\n", &long[..39])
        );
        assert_eq!(
            wrapped(&text, 1, 4),
            format!("{long}\n    {}\n    {long}\n", &long[..39])
        );
    }
}
