//! Words, by the table: a command, its options before, between or behind its
//! files, and what is near where one is wrong.

use crate::table::{Command, Opt, COMMANDS, SHELLS};
use std::ffi::OsString;

/// What the words ask for.
#[derive(Debug)]
pub enum Asked {
    Overview,
    Help(&'static Command),
    /// Of the program or command of this name.
    Version(&'static str),
    /// Of a command, or of the program.
    Man(Option<&'static Command>),
    Completion(&'static str),
    Scales,
    Run(&'static Command, Given),
}

/// The options and files that a command is given, in their order.
#[derive(Debug, Default)]
pub struct Given {
    options: Vec<(&'static Opt, String)>,
    pub files: Vec<OsString>,
}

/// A program's name, and what is wrong with its words.
type Wrong = (String, String);

pub fn command(name: &str) -> Option<&'static Command> {
    COMMANDS.iter().find(|command| command.name == name)
}

pub fn asked(words: Vec<OsString>) -> Result<Asked, Wrong> {
    let mut words = words.into_iter();
    let first = words.next().unwrap_or_default();
    let first = first.to_string_lossy();
    let mut next = || words.next().map(|word| word.to_string_lossy().into_owned());
    let wrong = |why: String| Err(("daxfolin".to_string(), why));
    match &*first {
        "-h" | "--help" => Ok(Asked::Overview),
        "-V" | "--version" | "version" => Ok(Asked::Version("daxfolin")),
        "help" => match next() {
            Some(name) => known(&name).map(Asked::Help),
            None => Ok(Asked::Overview),
        },
        "man" => match next() {
            Some(name) => known(&name).map(|command| Asked::Man(Some(command))),
            None => Ok(Asked::Man(None)),
        },
        "completion" => match next() {
            None => wrong(format!("a shell is missing: {}", SHELLS.join(", "))),
            Some(name) => match SHELLS.iter().find(|shell| **shell == name) {
                Some(shell) => Ok(Asked::Completion(shell)),
                None => wrong(format!(
                    "there is no completion for '{name}', only for {}",
                    SHELLS.join(", ")
                )),
            },
        },
        "" => wrong("a command is missing".to_string()),
        name => {
            let command = known(name)?;
            given(command, words).map_err(|why| (command.program(), why))
        }
    }
}

fn known(name: &str) -> Result<&'static Command, Wrong> {
    command(name).ok_or_else(|| {
        let names = COMMANDS.iter().map(|command| command.name);
        let hint = match nearest(name, names) {
            Some(near) => format!("; did you mean {near}?"),
            None => String::new(),
        };
        let why = format!("there is no command '{name}'{hint}");
        ("daxfolin".to_string(), why)
    })
}

/// The words behind a command's name. What follows `--help` or `--version` is not looked at.
fn given(
    command: &'static Command,
    mut words: impl Iterator<Item = OsString>,
) -> Result<Asked, String> {
    let mut given = Given::default();
    while let Some(word) = words.next() {
        if word == "-" || !word.as_encoded_bytes().starts_with(b"-") {
            given.files.push(word);
        } else if word == "--" {
            given.files.extend(&mut words);
        } else {
            let word = word.to_string_lossy();
            for (option, value) in options(command, &word)? {
                let value = match (option.value, value) {
                    (Some(_), None) => words.next().map(|word| word.to_string_lossy().into_owned()),
                    (_, value) => Some(value.unwrap_or_default()),
                };
                let value = value
                    .ok_or_else(|| format!("{} needs a value behind it", dashed(&word, option)))?;
                match (option.long, value.as_str()) {
                    ("help", _) => return Ok(Asked::Help(command)),
                    ("version", _) => return Ok(Asked::Version(command.name)),
                    ("scale", "list") => return Ok(Asked::Scales),
                    _ => given.options.push((option, value)),
                }
            }
        }
    }
    Ok(Asked::Run(command, given))
}

/// An option, and its value where that stands in the same word.
type Pair = (&'static Opt, Option<String>);

/// The options of a word: a long one, or short ones one behind the other, of which the last may have its value at once (`-oDIR`).
fn options(command: &'static Command, word: &str) -> Result<Vec<Pair>, String> {
    if word.starts_with("--") {
        return long(command, word).map(|pair| vec![pair]);
    }
    let mut pairs = Vec::new();
    let mut letters = word[1..].chars();
    while let Some(letter) = letters.next() {
        let rest = letters.as_str();
        let found = command
            .options()
            .find(|option| option.short == Some(letter));
        let option = found.ok_or_else(|| unknown(command, &format!("-{letter}")))?;
        if option.value.is_some() && !rest.is_empty() {
            let value = rest.strip_prefix('=').unwrap_or(rest);
            pairs.push((option, Some(value.to_string())));
            break;
        }
        if rest.starts_with('=') {
            return Err(format!("-{letter} takes no value"));
        }
        pairs.push((option, None));
    }
    Ok(pairs)
}

fn long(command: &'static Command, word: &str) -> Result<Pair, String> {
    let (name, value) = match word.split_once('=') {
        Some((name, value)) => (name, Some(value.to_string())),
        None => (word, None),
    };
    let found = command.options().find(|option| option.long == &name[2..]);
    let option = found.ok_or_else(|| unknown(command, name))?;
    match option.value.is_none() && value.is_some() {
        true => Err(format!("{name} takes no value")),
        false => Ok((option, value)),
    }
}

/// As it was typed.
fn dashed(word: &str, option: &Opt) -> String {
    match (word.starts_with("--"), option.short) {
        (false, Some(short)) => format!("-{short}"),
        _ => format!("--{}", option.long),
    }
}

fn unknown(command: &'static Command, name: &str) -> String {
    let longs = command.options().map(|option| option.long);
    let hint = match nearest(name.trim_start_matches('-'), longs) {
        Some(near) => format!("did you mean --{near}?"),
        None => format!("{} -h lists them", command.program()),
    };
    format!("there is no option '{name}'; {hint}")
}

/// The name that a word of two letters or more begins, or that it becomes with up to two fifths of its letters altered; the nearest of these.
fn nearest<'a>(word: &str, names: impl Iterator<Item = &'a str>) -> Option<&'a str> {
    let word = word.to_lowercase();
    let far = |name: &str| match word.len() >= 2 && name.starts_with(&word) {
        true => 0,
        false => altered(word.as_bytes(), name.as_bytes()),
    };
    let near = names.map(|name| (far(name), name));
    let near = near.filter(|(far, _)| 5 * far <= 2 * word.len());
    near.min_by_key(|(far, _)| *far).map(|(_, name)| name)
}

/// How many letters are to be put in, left out, altered or swapped with the next to come from one word to the other.
fn altered(from: &[u8], to: &[u8]) -> usize {
    let mut rows: Vec<Vec<usize>> = vec![(0..=to.len()).collect()];
    for at in 1..=from.len() {
        let mut row = vec![at];
        for place in 1..=to.len() {
            let same = from[at - 1] == to[place - 1];
            let kept = rows[at - 1][place - 1] + usize::from(!same);
            let mut least = kept.min(rows[at - 1][place] + 1).min(row[place - 1] + 1);
            let swapped = at > 1
                && place > 1
                && (from[at - 1], from[at - 2]) == (to[place - 2], to[place - 1]);
            if swapped {
                least = least.min(rows[at - 2][place - 2] + 1);
            }
            row.push(least);
        }
        rows.push(row);
    }
    rows[from.len()][to.len()]
}

impl Given {
    /// No word at all.
    pub fn is_empty(&self) -> bool {
        self.options.is_empty() && self.files.is_empty()
    }

    pub fn has(&self, name: &str) -> bool {
        self.value(name).is_some()
    }

    /// The value of an option; where it is given twice, the last.
    pub fn value(&self, name: &str) -> Option<&str> {
        self.values(name).last().copied()
    }

    /// All values of an option, in their order.
    pub fn values(&self, name: &str) -> Vec<&str> {
        let given = self.options.iter().filter(|pair| pair.0.long == name);
        given.map(|(_, value)| value.as_str()).collect()
    }

    /// The options of these names as words, in their order.
    pub fn words(&self, names: &[&str]) -> Vec<String> {
        let given = self.options.iter();
        let given = given.filter(|(option, _)| names.contains(&option.long));
        given
            .map(|(option, value)| format!("--{}={value}", option.long))
            .collect()
    }

    /// The value of an option as a whole number. One past the largest that a call takes is refused as that is.
    pub fn number(&self, name: &str, unless: u32) -> Result<u32, String> {
        let Some(text) = self.value(name) else {
            return Ok(unless);
        };
        whole(text).ok_or_else(|| format!("--{name} is a whole number, not '{text}'"))
    }

    /// The value of an option in milliseconds, with a decimal point or without.
    pub fn milliseconds(&self, name: &str) -> Result<Option<f64>, String> {
        let Some(text) = self.value(name) else {
            return Ok(None);
        };
        let digits = text
            .bytes()
            .all(|byte| byte.is_ascii_digit() || byte == b'.');
        let number = text.parse().ok().filter(|_| digits);
        let wrong = || format!("--{name} is a number of milliseconds like 5 or 4.8, not '{text}'");
        number.map(Some).ok_or_else(wrong)
    }

    /// Exactly as many files as have these names.
    pub fn files<const N: usize>(&self, names: [&str; N]) -> Result<[OsString; N], String> {
        if let Some(name) = names.get(self.files.len()) {
            return Err(format!("{name} is missing"));
        }
        if let Some(word) = self.files.get(N) {
            return Err(format!("'{}' is a word too many", crate::end::shown(word)));
        }
        Ok(std::array::from_fn(|at| self.files[at].clone()))
    }
}

pub fn whole(text: &str) -> Option<u32> {
    let digits = !text.is_empty() && text.bytes().all(|byte| byte.is_ascii_digit());
    digits.then(|| text.parse().unwrap_or(u32::MAX))
}

#[cfg(test)]
mod tests {
    use super::*;

    fn of(words: &[&str]) -> Result<Asked, String> {
        asked(words.iter().map(OsString::from).collect()).map_err(|(_, why)| why)
    }

    fn tune(words: &[&str]) -> Given {
        match of(&[&["tune"], words].concat()) {
            Ok(Asked::Run(_, given)) => given,
            other => panic!("{other:?}"),
        }
    }

    fn wrong(words: &[&str]) -> String {
        of(&[&["tune"], words].concat()).expect_err("wrong words")
    }

    #[test]
    fn options_stand_before_between_and_behind_files() {
        for words in [
            ["--decay", "7", "-f", "a", "b"],
            ["a", "--decay", "7", "-f", "b"],
            ["a", "b", "-f", "--decay", "7"],
            ["a", "--force", "--decay=7", "--", "b"],
        ] {
            let given = tune(&words);
            assert_eq!(given.files, ["a", "b"]);
            assert!(given.has("force") && !given.has("keep"));
            assert_eq!(given.number("decay", 230), Ok(7));
            assert_eq!(given.number("eps", 100), Ok(100));
        }
    }

    #[test]
    fn a_value_is_the_next_word_or_behind_an_equals_sign() {
        assert_eq!(tune(&["--decay=7"]).value("decay"), Some("7"));
        assert_eq!(tune(&["--scale="]).value("scale"), Some(""));
        assert_eq!(tune(&["--scale", "-f"]).value("scale"), Some("-f"));
        let given = tune(&["--voice=1", "a", "--voice", "-2"]);
        assert_eq!(given.values("voice"), ["1", "-2"]);
        assert_eq!(given.value("voice"), Some("-2"));
        assert_eq!(wrong(&["a", "--decay"]), "--decay needs a value behind it");
        assert_eq!(wrong(&["a", "-o"]), "-o needs a value behind it");
        assert_eq!(wrong(&["-f=1"]), "-f takes no value");
        assert_eq!(wrong(&["--force=1"]), "--force takes no value");
    }

    #[test]
    fn short_options_stand_together() {
        let given = tune(&["-fqoD", "a"]);
        assert!(given.has("force") && given.has("quiet"));
        assert_eq!(given.value("output-dir"), Some("D"));
        assert_eq!(tune(&["-o=D"]).value("output-dir"), Some("D"));
        assert_eq!(tune(&["-kf", "-o", "-k"]).value("output-dir"), Some("-k"));
        assert!(wrong(&["-fx"]).starts_with("there is no option '-x'"));
    }

    #[test]
    fn two_dashes_end_the_options() {
        let given = tune(&["-f", "--", "-f", "--decay", "--", "-"]);
        assert_eq!(given.files, ["-f", "--decay", "--", "-"]);
        assert_eq!(tune(&["-", "a"]).files, ["-", "a"]);
    }

    #[test]
    fn behind_help_nothing_is_looked_at() {
        assert!(matches!(
            of(&["tune", "a", "--help", "--none"]),
            Ok(Asked::Help(_))
        ));
        assert!(matches!(of(&["mend", "-nh"]), Ok(Asked::Help(_))));
        assert!(matches!(
            of(&["notes", "-V", "--x"]),
            Ok(Asked::Version("notes"))
        ));
        assert!(matches!(
            of(&["report", "--scale", "list", "--x"]),
            Ok(Asked::Scales)
        ));
        assert!(wrong(&["--none", "--help"]).starts_with("there is no option '--none'"));
    }

    #[test]
    fn a_hint_only_where_an_option_is_near() {
        for (word, near) in [
            ("--deca", Some("decay")),
            ("--dacey=3", Some("decay")),
            ("--hlep", Some("help")),
            ("--vers", Some("version")),
            ("--SCALE", Some("scale")),
            ("--voices=4", Some("voice")),
            ("-x", None),
            ("-z", None),
            ("--x", None),
            ("--colour", None),
        ] {
            let name = word.split('=').next().unwrap();
            let hint = match near {
                Some(near) => format!("did you mean --{near}?"),
                None => "daxfolin tune -h lists them".to_string(),
            };
            assert_eq!(
                wrong(&[word]),
                format!("there is no option '{name}'; {hint}")
            );
        }
    }

    #[test]
    fn commands_by_their_names() {
        assert!(matches!(of(&["help"]), Ok(Asked::Overview)));
        assert!(matches!(of(&["help", "mend"]), Ok(Asked::Help(_))));
        assert!(matches!(of(&["man"]), Ok(Asked::Man(None))));
        assert!(matches!(of(&["man", "tune"]), Ok(Asked::Man(Some(_)))));
        assert!(matches!(
            of(&["completion", "zsh"]),
            Ok(Asked::Completion("zsh"))
        ));
        for (words, why) in [
            (&[][..], "a command is missing"),
            (&["tnue"], "there is no command 'tnue'; did you mean tune?"),
            (&["x"], "there is no command 'x'"),
            (&["help", "x"], "there is no command 'x'"),
            (&["completion"], "a shell is missing: bash, zsh, fish"),
            (
                &["completion", "csh"],
                "there is no completion for 'csh', only for bash, zsh, fish",
            ),
        ] {
            assert_eq!(of(words).expect_err("wrong"), why);
        }
    }

    #[test]
    fn no_command_has_an_option_twice() {
        for command in COMMANDS {
            let longs: Vec<_> = command.options().map(|option| option.long).collect();
            let shorts: Vec<_> = command
                .options()
                .filter_map(|option| option.short)
                .collect();
            let once = |count: usize, all: usize| assert_eq!(count, all, "{}", command.name);
            once(
                longs.iter().collect::<std::collections::HashSet<_>>().len(),
                longs.len(),
            );
            once(
                shorts
                    .iter()
                    .collect::<std::collections::HashSet<_>>()
                    .len(),
                shorts.len(),
            );
        }
    }

    #[test]
    fn letters_to_alter() {
        for (from, to, count) in [
            ("", "", 0),
            ("", "abc", 3),
            ("abc", "", 3),
            ("abc", "abc", 0),
            ("abc", "adc", 1),
            ("kitten", "sitting", 3),
            ("hlep", "help", 1),
            ("ba", "ab", 1),
        ] {
            let altered = altered(from.as_bytes(), to.as_bytes());
            assert_eq!(altered, count, "{from} {to}");
        }
    }

    #[test]
    fn as_many_files_as_have_names() {
        let files = |words: &[&str]| tune(words).files(["IN", "OUT"]);
        assert_eq!(files(&[]), Err("IN is missing".to_string()));
        assert_eq!(files(&["a"]), Err("OUT is missing".to_string()));
        assert_eq!(files(&["a", "b"]), Ok(["a".into(), "b".into()]));
        assert_eq!(
            files(&["a", "b", "c", "d"]),
            Err("'c' is a word too many".to_string())
        );
    }

    #[test]
    fn numbers() {
        for (text, number) in [
            ("0", Some(0)),
            ("007", Some(7)),
            ("4294967295", Some(u32::MAX)),
            ("99999999999", Some(u32::MAX)),
            ("", None),
            ("-1", None),
            ("+1", None),
            (" 1", None),
            ("1.5", None),
            ("0x10", None),
        ] {
            assert_eq!(whole(text), number, "{text}");
        }
        for (text, right) in [
            ("5", Some(5.0)),
            ("4.8", Some(4.8)),
            (".5", Some(0.5)),
            ("", None),
            ("-1", None),
            ("1e3", None),
            ("inf", None),
            ("1.2.3", None),
        ] {
            let word = format!("--speed={text}");
            let given = tune(&[&word]);
            assert_eq!(given.milliseconds("speed").ok().flatten(), right, "{text}");
        }
    }
}
