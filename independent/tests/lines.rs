//! The line program: the whole case, the reading of lines, the program itself.

use independent::lines::{answers_to, Program, LONGEST_LINE};
use std::io::{BufRead, BufReader, Read, Write};
use std::process::{Child, Command, Stdio};

/// Document 01's whole case, tabs shown as spaces.
const CASE: (&str, &str) = (
    "start 4095 200 0 100\n\
     block 0 1000 -1000 500\n\
     block 0 1000 -1000 500\n\
     block 2 7\n\
     block 1 8 9 10\n",
    "0\n\
     0 3 0 0 0 0 0\n\
     1 3 0 0 0 0 0\n\
     5 0 0 0\n\
     0 3 0 0 0 1000 -1000\n",
);

fn tabbed(text: &str) -> String {
    text.replace(' ', "\t")
}

/// The answers to an input whose tabs are shown as spaces, likewise.
fn answers(input: &str) -> String {
    let (answers, _) = answers_to(tabbed(input).as_bytes());
    String::from_utf8(answers).unwrap().replace('\t', " ")
}

/// Each line, of a fresh program, has this answer.
fn assert_answered(table: &[(&str, &str)]) {
    for (line, number) in table {
        assert_eq!(answers(line), format!("{number}\n"), "{line}");
    }
}

/// The answer to one line of a fresh program.
fn answer(line: &[u8]) -> String {
    let (answers, _) = answers_to(&[line, b"\n"].concat());
    String::from_utf8(answers).unwrap().replace('\t', " ")
}

fn program(arguments: &[&str]) -> Child {
    Command::new(env!("CARGO_BIN_EXE_lines"))
        .args(arguments)
        .stdin(Stdio::piped())
        .stdout(Stdio::piped())
        .stderr(Stdio::piped())
        .spawn()
        .unwrap()
}

#[test]
fn the_whole_case() {
    assert_eq!(answers(CASE.0), CASE.1);
    let example = include_str!("../../examples/whole_case.txt");
    assert_eq!(example, tabbed(CASE.0));
}

#[test]
fn the_program_gives_the_whole_case() {
    let mut child = program(&[]);
    let mut input = child.stdin.take().unwrap();
    input.write_all(tabbed(CASE.0).as_bytes()).unwrap();
    drop(input);
    let output = child.wait_with_output().unwrap();
    assert!(output.status.success());
    assert_eq!(output.stdout, tabbed(CASE.1).as_bytes());
    assert!(output.stderr.is_empty());
}

#[test]
fn the_program_answers_while_its_input_stands_open() {
    let mut child = program(&["--statistics"]);
    let mut input = child.stdin.take().unwrap();
    let mut output = BufReader::new(child.stdout.take().unwrap());
    for (line, answer) in CASE.0.lines().zip(CASE.1.lines()) {
        writeln!(input, "{}", tabbed(line)).unwrap();
        let mut answered = String::new();
        output.read_line(&mut answered).unwrap();
        assert_eq!(answered, format!("{}\n", tabbed(answer)));
    }
    drop(input);
    let mut statistics = String::new();
    let mut errors = child.stderr.take().unwrap();
    errors.read_to_string(&mut statistics).unwrap();
    assert!(child.wait().unwrap().success());
    let counted = |name: &str| {
        let line = statistics.lines().find(|line| line.starts_with(name));
        let (_, count) = line.unwrap().split_once('\t').unwrap();
        count.parse::<u64>().unwrap()
    };
    assert_eq!(counted("answer_0 "), 3);
    assert_eq!(counted("answer_1 "), 1);
    assert_eq!(counted("answer_5 "), 1);
    assert_eq!(counted("reads_before_take "), 4);
}

#[test]
fn unknown_switches_are_refused() {
    let output = program(&["--loud"]).wait_with_output().unwrap();
    assert_eq!(output.status.code(), Some(2));
}

#[test]
fn lines_that_are_read() {
    let read: &[(&[u8], &str)] = &[
        (b"reset", "0\n"),
        (b"start\t4095\t100\t0\t100", "0\n"),
        (b"change\t1\t0\t255\t1000000", "0\n"),
        (b"change\t0001\t000\t0255\t00000000000000000001", "0\n"),
        (b"start\t4096\t100\t0\t100", "8\n"),
        (b"start\t0\t100\t0\t100", "8\n"),
        (b"change\t4095\t410\t0\t100", "11\n"),
        (b"change\t4294967295\t0\t0\t1", "8\n"),
        (b"change\t4095\t100\t4294967295\t1", "12\n"),
        (b"block\t0", "2 0 0 0\n"),
        (b"block\t65535", "2 0 0 0\n"),
        (b"block\t0\t-0", "0 1 0 0 0\n"),
        (b"block\t0\t-007\t007\t32767\t-32768", "0 4 0 0 0 0 0 0\n"),
        (b"block\t0000000000000000000000000000\t1", "0 1 0 0 0\n"),
        (b"block\t65535\t1", "5 0 0 0\n"),
        (b"block\t0\t1\t2\t3\t4\t-5\t6", "0 6 0 0 0 0 0 0 1 2\n"),
    ];
    for (line, expected) in read {
        let shown = String::from_utf8_lossy(line);
        assert_eq!(answer(line), *expected, "{shown}");
    }
}

/// The first bad setting is named, in the order scale, eps, decay, floor.
#[test]
fn each_setting_has_its_own_refusal() {
    let table = [
        ("start 0 410 256 0", "8"),
        ("start 1 410 256 0", "11"),
        ("start 1 409 256 0", "12"),
        ("start 1 409 255 0", "13"),
        ("start 1 409 255 1", "0"),
        ("change 1 410 0 0", "11"),
        ("change 4096 410 256 1000001", "8"),
        ("change 4095 409 255 1000001", "13"),
        ("change 4095 409 255 1000000", "0"),
        ("start 0 410 256 4294967296", "10"),
    ];
    assert_answered(&table);
}

/// The rate is an optional last field of a start, and is named before the
/// settings; unreadable comes before it.
#[test]
fn the_rate_on_a_start_line() {
    let table = [
        ("start 0 410 256 0 1", "16"),
        ("start 4095 100 0 100 48000", "0"),
        ("start 4095 100 0 100 44100", "0"),
        ("start 4095 100 0 100 00048000", "0"),
        ("start 4095 100 0 100 0", "16"),
        ("start 4095 100 0 100 44099", "16"),
        ("start 4095 100 0 100 44101", "16"),
        ("start 4095 100 0 100 47999", "16"),
        ("start 4095 100 0 100 48001", "16"),
        ("start 4095 100 0 100 4294967295", "16"),
        ("start 4095 100 0 100 4294967296", "10"),
        ("start 0 100 0 100 48000", "8"),
        ("start 1 410 256 0 48000", "11"),
        ("start 1 409 256 0 44100", "12"),
        ("start 1 409 255 0 48000", "13"),
        ("start 4095 410 0 100 1", "16"),
        ("start 4095 100 256 100 1", "16"),
        ("start 4095 100 0 0 1", "16"),
        ("start 0 410 256 4294967296 1", "10"),
        ("change 4095 100 0 100 48000", "10"),
    ];
    assert_answered(&table);
}

/// Whichever setting is refused, the take goes on as it was.
#[test]
fn refused_settings_keep_the_tuner() {
    let refused = ["0 0 0 1", "1 410 0 1", "1 0 256 1", "1 0 0 0"];
    for (settings, number) in refused.iter().zip([8, 11, 12, 13]) {
        for word in ["start", "change"] {
            let input = format!("block 0 9 8 7\n{word} {settings}\nblock 0 9 8 7\nblock 1 6 5\n");
            let right = format!("0 3 0 0 0 0 0\n{number}\n1 3 0 0 0 0 0\n0 2 0 0 0 9\n");
            assert_eq!(answers(&input), right);
        }
    }
}

#[test]
fn lines_of_the_keyboard() {
    let table = [
        ("mode 0", "0"),
        ("mode 1", "0"),
        ("mode 0001", "0"),
        ("mode 2", "15"),
        ("mode 4294967295", "15"),
        ("mode 4294967296", "10"),
        ("mode", "10"),
        ("mode ", "10"),
        ("mode 0 0", "10"),
        ("mode -1", "10"),
        ("channel 0", "0"),
        ("channel 15", "0"),
        ("channel 16", "14"),
        ("channel 4294967295", "14"),
        ("channel 4294967296", "10"),
        ("channel", "10"),
        ("channel 1 ", "10"),
        ("midi", "10"),
        ("midi ", "10"),
        ("midi 0", "0"),
        ("midi 144 60 100", "0"),
        ("midi 255 0255 000", "0"),
        ("midi 256", "10"),
        ("midi -0", "10"),
        ("midi 144 60 +1", "10"),
        ("midi 144  100", "10"),
        ("midi 144 60 ", "10"),
        ("keys 60", "10"),
    ];
    assert_answered(&table);
    // As many bytes as a line holds, and one more.
    let line = |bytes: usize| ["midi".to_string(), "\t7".repeat(bytes)].concat();
    assert_eq!(line(4_094).len(), LONGEST_LINE);
    assert_eq!(answer(line(4_094).as_bytes()), "0\n");
    assert_eq!(answer(line(4_095).as_bytes()), "10\n");
}

/// A block of a square wave of 96 samples to a cycle.
fn wave(number: usize) -> String {
    let samples = (100 * number..100 * number + 100).map(|at| match at % 96 < 48 {
        true => " 8000",
        false => " -8000",
    });
    format!("block {number}{}\n", samples.collect::<String>())
}

/// What is answered to 600 samples of the wave after 1,200 of them and these
/// lines.
fn sung_after(lines: &str) -> String {
    let begun: String = (0..12).map(wave).collect();
    let rest: String = (12..18).map(wave).collect();
    let answers = answers(&format!("{begun}{lines}{rest}"));
    let answers = answers.lines().skip(12 + lines.lines().count());
    answers.collect::<Vec<&str>>().join("\n")
}

/// What is answered to the whole wave after these lines.
fn sung_from(lines: &str) -> String {
    let wave: String = (0..18).map(wave).collect();
    let answers = answers(&format!("{lines}{wave}"));
    let answers = answers.lines().skip(lines.lines().count());
    answers.collect::<Vec<&str>>().join("\n")
}

#[test]
fn change_keeps_mode_and_channel() {
    let plain = sung_after("");
    let played = sung_after("mode 1\nmidi 144 69 100\n");
    assert_ne!(played, plain);
    let keeping = [
        "mode 1\nmidi 144 69 100\nchange 1 100 230 100\n",
        "mode 1\nchange 4095 100 230 100\nmidi 144 69 100\n",
        "midi 144 69 100\nmode 1\nchannel 0\n",
        "mode 1\nchannel 7\nmidi 151 69 100\nchange 1 100 230 100\n",
        // One unreadable byte and none is taken; refusals change nothing.
        "mode 1\nmidi 144 69 100\nmidi 69 0 256\nmode 2\nchannel 16\nchange 0 0 0 0\n",
        "mode 1\nmidi 144 69 100\nstart 0 0 0 0\n",
        // Cut anywhere, and a real-time byte inside.
        "mode 1\nmidi 144\nmidi 69\nmode 0\nmidi 254\nmode 1\nmidi 100\n",
    ];
    for lines in keeping {
        assert_eq!(sung_after(lines), played, "{lines}");
    }
    let level = sung_after("mode 1\n");
    assert!(level != played && level != plain);
    let forgetting = [
        "mode 1\nmidi 144 69 100\nchannel 1\n",
        "mode 1\nmidi 144 69 100\nchannel 1\nchannel 0\nmidi 69 100\n",
        "mode 1\nmidi 144 69\nchannel 1\nchannel 0\nmidi 100\n",
        "mode 1\nmidi 144 31 100\n",
        "mode 1\nmidi 145 69 100\n",
    ];
    for lines in forgetting {
        assert_eq!(sung_after(lines), level, "{lines}");
    }
    let back = sung_after("mode 1\nmidi 144 69 100\nmode 0\n");
    assert_eq!(back, plain);
}

/// A taken start sets scale mode and channel 0; a reset keeps both.
#[test]
fn starts_and_resets_in_keyboard_mode() {
    let played = sung_from("mode 1\nmidi 144 69 100\n");
    assert_ne!(played, sung_from(""));
    let anew = "mode 1\nchannel 9\nstart 4095 100 230 100\n";
    assert_eq!(sung_from(anew), sung_from(""));
    let again = format!("{anew}mode 1\nmidi 144 69 100\n");
    assert_eq!(sung_from(&again), played);
    let reset = "mode 1\nchannel 9\nmidi 153 70 100\nreset\n";
    assert_eq!(sung_from(reset), sung_from("mode 1\n"));
    let again = format!("{reset}midi 153 69 100\n");
    assert_eq!(sung_from(&again), played);
}

/// The program opens with the default settings, and so at decay 230. Who needs
/// decay 0 sends it, by a start or a change at the head.
#[test]
fn the_opening_is_gentle() {
    let opening = sung_from("");
    assert_eq!(sung_from("start 4095 100 230 100\n"), opening);
    assert_eq!(sung_from("change 4095 100 230 100\n"), opening);
    assert_eq!(sung_from("start 4095 100 256 100\n"), opening);
    let at_once = sung_from("start 4095 100 0 100\n");
    assert_ne!(at_once, opening);
    assert_eq!(sung_from("change 4095 100 0 100\n"), at_once);
    // A reset keeps what is in force, and does not fall back to the defaults.
    assert_eq!(sung_from("change 4095 100 0 100\nreset\n"), at_once);
    assert_eq!(sung_from("reset\n"), opening);
}

/// A start without a rate is at 44,100, also after 48,000; a change, a reset and
/// lines of the keyboard keep the rate, and so does a start that is refused.
#[test]
fn rates_change_by_a_start_alone() {
    let start = "start 4095 100 230 100";
    let (at_cd, at_film) = (sung_from(""), sung_from(&format!("{start} 48000\n")));
    assert_ne!(at_cd, at_film);
    let lowered = [
        format!("{start}\n"),
        format!("{start} 44100\n"),
        format!("{start} 48000\n{start}\n"),
        format!("{start} 48000\n{start} 44100\n"),
        format!("{start} 48001\n"),
        format!("{start} 48000 \n"),
        "change 4095 100 0 100 48000\n".to_string(),
    ];
    for lines in lowered {
        assert_eq!(sung_from(&lines), at_cd, "{lines}");
    }
    let kept = [
        "reset\n",
        "change 1 200 0 100\nchange 4095 100 230 100\n",
        "mode 1\nmode 0\nchannel 3\nmidi 147 69 100\n",
        "start 4095 100 0 100 44101\n",
        "start 0 100 0 100 44100\n",
        "start 4095 410 0 100\n",
        "start 4095 100 0 100 \n",
        "change 4095 100 0 100 44100\n",
        "nonsense\nreset\nreset\n",
    ];
    for lines in kept {
        let lines = format!("{start} 48000\n{lines}");
        assert_eq!(sung_from(&lines), at_film, "{lines}");
    }
}

/// A block is given again after lines of the keyboard.
#[test]
fn the_repeat_among_lines_of_the_keyboard() {
    let input = "block 0 9 8 7\n\
                 mode 1\n\
                 midi 144 60 100\n\
                 channel 3\n\
                 mode 9\n\
                 block 0 9 8 7\n\
                 block 1 6 5\n";
    let expected = "0 3 0 0 0 0 0\n\
                    0\n\
                    0\n\
                    0\n\
                    15\n\
                    1 3 0 0 0 0 0\n\
                    0 2 0 0 0 9\n";
    assert_eq!(answers(input), expected);
}

#[test]
fn lines_that_cannot_be_read() {
    let unreadable: &[&[u8]] = &[
        b"",
        b"\t",
        b"block",
        b"block\t",
        b"block\t0\t",
        b"block\t0\t1\t",
        b"block\t0\t\t1",
        b"block\t\t1",
        b"block 0 1",
        b"block\t0\t-",
        b"block\t0\t--1",
        b"block\t0\t+1",
        b"block\t0\t1\r",
        b"block\t0\r",
        b"block\t0\t 1",
        b"block\t0\t1.0",
        b"block\t0\t32768",
        b"block\t0\t-32769",
        b"block\t0\t65536",
        b"block\t0\t18446744073709551616",
        b"block\t-0\t1",
        b"block\t65536\t1",
        b"block\t65536",
        b"block\tx\t1",
        b"Block\t0\t1",
        b"reset\t",
        b"reset\t1",
        b"reset\r",
        b"resets",
        b"start",
        b"start\t4095\t100\t0",
        b"start\t4095\t100\t0\t100\t",
        b"start\t4095\t100\t0\t100\t4294967296",
        b"start\t4095\t100\t0\t100\t48000\t",
        b"start\t4095\t100\t0\t100\t48000\t48000",
        b"start\t4095\t100\t0\t100\t-48000",
        b"start\t4095\t100\t0\t100\t48000.0",
        b"start\t4095\t100\t0\t\t48000",
        b"change\t4095\t100\t0\t100\t44100",
        b"change\t4095\t100\t0\t100\t48000",
        b"change\t4095\t100\t0\t100\t",
        b"start\t4095\t100\t\t100",
        b"start\t-1\t100\t0\t100",
        b"start\t4095\t-0\t0\t100",
        b"start\t4294967296\t100\t0\t100",
        b"change\t4095\t100\t0\t18446744073709551617",
        b"change\t4095\t100\t0\t+1",
        b"\xFF",
        b"block\t0\t\0",
    ];
    for line in unreadable {
        let shown = String::from_utf8_lossy(line);
        assert_eq!(answer(line), "10\n", "{shown}");
    }
}

/// A block line of this length whose only sample is 7.
fn long_line(length: usize) -> Vec<u8> {
    let mut line = b"block\t0\t".to_vec();
    line.resize(length - 1, b'0');
    line.push(b'7');
    line
}

#[test]
fn long_lines() {
    assert_eq!(answer(&long_line(LONGEST_LINE)), "0 1 0 0 0\n");
    assert_eq!(answer(&long_line(LONGEST_LINE + 1)), "10\n");
    assert_eq!(answer(&long_line(1_000_000)), "10\n");
    // An unreadable one of 8,192 bytes, and without a line's end.
    assert_eq!(answer(&[b'x'; LONGEST_LINE]), "10\n");
    assert_eq!(answers_to(&[b'x'; 100_000]).0, b"10\n");
    assert_eq!(answers_to(&long_line(LONGEST_LINE)).0, b"0\t1\t0\t0\t0\n");
    // What follows is read again.
    let two = [&long_line(9_000)[..], b"\nreset\n"].concat();
    assert_eq!(answers_to(&two).0, b"10\n0\n");
}

#[test]
fn blocks_of_512_and_over() {
    let line = |samples: usize| ["block\t0".to_string(), "\t7".repeat(samples)].concat();
    let most = answer(line(512).as_bytes());
    assert!(most.starts_with("0 512 0 0 0 0 0 0 7 7 "));
    assert_eq!(most.split(' ').count(), 4 + 512);
    assert_eq!(answer(line(513).as_bytes()), "3 0 0 0\n");
    assert_eq!(answer(line(600).as_bytes()), "3 0 0 0\n");
    assert_eq!(answer(line(4_092).as_bytes()), "3 0 0 0\n");
    assert_eq!(answer(line(4_093).as_bytes()), "10\n");
    // Unreadable comes before 3.
    assert_eq!(answer([&line(600), "\t"].concat().as_bytes()), "10\n");
}

#[test]
fn ends_of_the_input() {
    assert_eq!(answers(""), "");
    assert_eq!(answers("\n"), "10\n");
    assert_eq!(answers("\n\n"), "10\n10\n");
    assert_eq!(answers("reset"), "0\n");
    assert_eq!(answers("reset\n"), "0\n");
    assert_eq!(answers("reset\n\n"), "0\n10\n");
    assert_eq!(answers("reset\nblock 0 1"), "0\n0 1 0 0 0\n");
}

#[test]
fn a_refused_start_keeps_the_old_tuner() {
    let input = "block 0 1 2 3 4 5\n\
                 start 0 0 0 0\n\
                 start 4095 100 0 100 0\n\
                 start 4095 100 0 100 \n\
                 block 0 1 2 3 4 5\n\
                 block 1 6\n\
                 start 4095 100 0 100\n\
                 block 1 6\n\
                 block 0 1 2 3 4 5\n\
                 reset\n\
                 block 0 1 2 3 4 5\n";
    let expected = "0 5 0 0 0 0 0 0 1\n\
                    8\n\
                    16\n\
                    10\n\
                    1 5 0 0 0 0 0 0 1\n\
                    0 1 0 0 2\n\
                    0\n\
                    5 0 0 0\n\
                    0 5 0 0 0 0 0 0 1\n\
                    0\n\
                    0 5 0 0 0 0 0 0 1\n";
    assert_eq!(answers(input), expected);
}

#[test]
fn the_repeat_among_other_lines() {
    let input = "block 0 9 8 7\n\
                 change 1 0 0 1\n\
                 change 0 0 0 1\n\
                 nonsense\n\
                 block 0\n\
                 block 2 1\n\
                 block 0 9 8\n\
                 block 0 9 8 6\n\
                 block 0 9 8 7\n\
                 block 1 6 5\n\
                 block 0 9 8 7\n";
    let expected = "0 3 0 0 0 0 0\n\
                    0\n\
                    8\n\
                    10\n\
                    2 0 0 0\n\
                    5 0 0 0\n\
                    6 0 0 0\n\
                    6 0 0 0\n\
                    1 3 0 0 0 0 0\n\
                    0 2 0 0 0 9\n\
                    5 0 0 0\n";
    assert_eq!(answers(input), expected);
}

/// The answers do not hang on how the bytes come in.
#[test]
fn bytes_one_by_one() {
    let long = String::from_utf8(long_line(8_193)).unwrap();
    let longest = String::from_utf8(long_line(8_192)).unwrap();
    let input = format!("{}{long}\n\nreset\n{longest}\nblock\t1\t-3", tabbed(CASE.0));
    let (expected, _) = answers_to(input.as_bytes());
    let mut program = Program::default();
    let mut answers = Vec::new();
    for byte in input.bytes() {
        program.read(&[byte], &mut answers);
    }
    program.end(&mut answers);
    assert_eq!(answers, expected);
    assert!(answers.ends_with(b"\n10\n10\n0\n0\t1\t0\t0\t0\n0\t1\t0\t0\t0\n"));
}
