//! `compare` finds equal what is equal, and the first difference of what is
//! not.

use std::process::{Command, Output};

const LINES: &str = env!("CARGO_BIN_EXE_lines");
const NOTES: &str = env!("CARGO_BIN_EXE_notes");
const REPORT: &str = env!("CARGO_BIN_EXE_report");
const VOICES: &str = env!("CARGO_BIN_EXE_voices");
const WAVES: &str = env!("CARGO_BIN_EXE_waves");

fn compare(arguments: &[&str]) -> Output {
    Command::new(env!("CARGO_BIN_EXE_compare"))
        .args(arguments)
        .output()
        .unwrap()
}

/// Compares with a program of the shell, in which `lines` is this project's.
fn compare_with(shell: &str, switches: &[&str]) -> (Option<i32>, String) {
    let shell = shell.replace("lines", &format!("'{LINES}'"));
    let words = [switches, &["1", "1", "3000", "--", "sh", "-c", &shell]].concat();
    let output = compare(&words);
    let said = String::from_utf8(output.stdout).unwrap();
    (output.status.code(), said)
}

/// Compares another program too, the one behind this switch.
fn beside(switch: &str, program: &str, samples: &str) -> (Option<i32>, String) {
    let output = compare(&[switch, program, "7", "1", samples, "--", LINES]);
    let said = String::from_utf8(output.stdout).unwrap();
    (output.status.code(), said)
}

fn assert_says(said: &str, parts: &[&str]) {
    for part in parts {
        assert!(said.contains(part), "no {part:?} in\n{said}");
    }
}

fn assert_unequal(shell: &str, parts: &[&str]) {
    let (status, said) = compare_with(shell, &[]);
    assert_eq!(status, Some(1), "{shell}");
    assert_says(&said, parts);
}

#[test]
fn the_program_is_equal_to_itself() {
    let output = compare(&["7", "2", "2000", "--", LINES]);
    let said = String::from_utf8(output.stdout).unwrap();
    assert!(output.status.success(), "{said}");
    let said: Vec<&str> = said.lines().collect();
    assert!(said[0].starts_with("seed 7: "));
    assert!(said[1].starts_with("seed 8: "));
    assert!(said[2].starts_with("equal: "));
    assert!(said[2].contains("; 43 kinds, seeds 7 to 8, "));
    assert_eq!(said.len(), 3);
    let words: Vec<&str> = said[2].split(' ').collect();
    let (lines, samples): (u64, u64) = (words[1].parse().unwrap(), words[3].parse().unwrap());
    assert!(lines > 5_000, "{lines} lines");
    assert!(samples > 2 * 35 * 2_000, "{samples} samples out");
}

/// A program that answers once its input has ended is equal, and nothing
/// stands still; but a host that waits for each answer gets none.
#[test]
fn a_program_that_holds_its_answers_back() {
    let late = "lines | tac | tac";
    let (status, said) = compare_with(late, &[]);
    assert_eq!(status, Some(0), "{said}");
    let (status, said) = compare_with(late, &["--waiting"]);
    assert_eq!(status, Some(1), "{said}");
    assert!(said.contains("kind opening, seed 1, line 1: no answer within 10 s"));
}

#[test]
fn a_waiting_host_gets_its_answers() {
    let (status, said) = compare_with("exec lines", &["--waiting"]);
    assert_eq!(status, Some(0), "{said}");
    let lines = said.strip_prefix("seed 1: ").unwrap().split(' ').next();
    assert!(lines.unwrap().parse::<u64>().unwrap() > 1_000, "{said}");
}

#[test]
fn wrong_programs_are_found() {
    // Another refusal.
    assert_unequal(
        "lines | sed 's/^5/6/'",
        &[
            "not equal: kind cuts, seed 1, line ",
            "\n  input     block\\t",
            "\n  expected  5\\t0\\t0\\t0\\n\n",
            "\n  got       6\\t0\\t0\\t0\\n\n",
            "\n  script    generate cuts 1 3000\n",
            "\nequal before that: ",
        ],
    );
    // The last sample of a long block.
    assert_unequal(
        "lines | sed '/^0\\t5../s/.$/x/'",
        &["kind opening, seed 1, line ", "x\\n\n", "\n  expected  .."],
    );
    // A carriage return.
    assert_unequal(
        "lines | sed '1s/$/\\r/'",
        &["line 1, from byte 586 ", "\\n\n  got       ..", "\\r\\n\n"],
    );
    // Fewer answers, and more.
    assert_unequal(
        "lines | head -n 3",
        &["seed 1, line 4, ", "\n  got       nothing\n"],
    );
    assert_unequal(
        "lines; echo 10",
        &["\n  expected  nothing\n  got       10\\n\n"],
    );
    // The last line's end, which an answer has even if its line lacks it.
    assert_unequal("lines | head -c -1", &["kind opening, seed 1, line "]);
    assert_unequal("yes", &["line 1, from byte 1 ", "\n  got       y\\n\n"]);
    assert_unequal(
        "lines; exit 3",
        &["all answers are equal, but then: exit status: 3"],
    );
}

/// Files come after the scripts, so many for each seed.
#[test]
fn files_are_compared_too() {
    let with_files = |program: &str| {
        let words = ["--files", "3000", program, "7", "2", "300", "--", LINES];
        let output = compare(&words);
        let said = String::from_utf8(output.stdout).unwrap();
        (output.status.code(), said)
    };
    let (status, said) = with_files(WAVES);
    assert_eq!(status, Some(0), "{said}");
    assert!(said.contains(", 6000 cases of files; 43 kinds, seeds 7 to 8, "));
    let (status, said) = with_files(LINES);
    assert_eq!(status, Some(1));
    let parts = [
        "not equal: files, seed 7, line 1, from byte 1 ",
        "\n  input     r",
        "\n  expected  r\\t0\\t44100\\t0\\n\n",
        "\n  got       10\\n\n",
        "\n  script    files 7 3000\n",
    ];
    assert_says(&said, &parts);
}

/// The list of each take of every script is held too.
#[test]
fn notes_are_compared_too() {
    let with_notes = |program: &str| beside("--notes", program, "3000");
    let (status, said) = with_notes(NOTES);
    assert_eq!(status, Some(0), "{said}");
    let rows: Vec<&str> = said.lines().next().unwrap().split(", ").collect();
    let (rows, takes) = rows[2].split_once(" rows of notes in ").unwrap();
    assert!(rows.parse::<u64>().unwrap() > 500, "{said}");
    assert!(takes.ends_with(" takes"), "{said}");
    let (status, said) = with_notes(LINES);
    assert_eq!(status, Some(1));
    let parts = [
        "not equal: notes of kind opening, seed 7, line 1, from byte 1 ",
        "\n  input     nothing\n",
        "\n  script    generate opening 7 3000\n",
    ];
    assert_says(&said, &parts);
}

/// And the report of every script.
#[test]
fn reports_are_compared_too() {
    let with_report = |words: &str| beside("--report", words, "2000");
    let (status, said) = with_report(REPORT);
    assert_eq!(status, Some(0), "{said}");
    assert!(said.contains(", 43 reports; 43 kinds, "), "{said}");
    let (status, said) = with_report(&format!("head -n 9 {}", env!("CARGO_MANIFEST_PATH")));
    assert_eq!(status, Some(1));
    let parts = [
        "not equal: report of kind opening, seed 7, line 1, from byte 1 ",
        "\n  got       [package]\\n\n",
        "\n  script    generate opening 7 2000\n",
    ];
    assert_says(&said, &parts);
}

/// And every script with voices.
#[test]
fn voices_are_compared_too() {
    let with_voices = |program: &str| beside("--voices", program, "2000");
    let (status, said) = with_voices(VOICES);
    assert_eq!(status, Some(0), "{said}");
    let parts: Vec<&str> = said.lines().next().unwrap().split(", ").collect();
    let voices = parts[2].strip_suffix(" samples of voices").unwrap();
    assert!(voices.parse::<u64>().unwrap() > 100_000, "{said}");
    let (status, said) = with_voices(LINES);
    assert_eq!(status, Some(1));
    let parts = [
        "not equal: voices of kind tones, seed 7, line 1, from byte 1 ",
        "\n  input     voices\\t",
        "\n  expected  0\\n\n  got       10\\n\n",
        "\n  script    voices --script tones 7 2000\n",
    ];
    assert_says(&said, &parts);
}

#[test]
fn a_program_that_is_not_there_is_told() {
    let output = compare(&["1", "1", "100", "--", "there/is/no/such/program"]);
    assert_eq!(output.status.code(), Some(1));
    let said = String::from_utf8(output.stdout).unwrap();
    assert!(said.contains("the program cannot be run"), "{said}");
}

#[test]
fn wrong_arguments_are_refused() {
    let refused: &[&[&str]] = &[
        &[],
        &["1", "1", "100"],
        &["1", "1", "100", "--"],
        &["1", "0", "100", "--", LINES],
        &["1", "1", "many", "--", LINES],
        &["18446744073709551615", "2", "100", "--", LINES],
        &["--hasty", "1", "1", "100", "--", LINES],
        &["--files", "1", "1", "100", "--", LINES],
        &["--notes", "1", "1", "100", "--", LINES],
        &["--voices", "1", "1", "100", "--", LINES],
        &[
            "--voices", VOICES, "--notes", NOTES, "1", "1", "100", "--", LINES,
        ],
        &["--report", "1", "1", "100", "--", LINES],
        &["--report", " ", "1", "1", "100", "--", LINES],
        &["--files", "many", WAVES, "1", "1", "100", "--", LINES],
    ];
    for arguments in refused {
        let output = compare(arguments);
        assert_eq!(output.status.code(), Some(2), "{arguments:?}");
        assert!(output.stdout.is_empty());
    }
}
