//! Hostile scripts: what is in them, how it is answered, and that what cannot
//! be read changes nothing.

use independent::generator::kinds::kind_named;
use independent::generator::night::NIGHT;
use independent::generator::script::script;
use independent::lines::{answers_to, LONGEST_LINE};

/// The lines of a script, each with its answer: of the night's, or of the one
/// that is too long for it.
fn answered(kind: &str) -> Vec<(Vec<u8>, String)> {
    let of_night = NIGHT.iter().find(|row| row.0 == kind);
    let &(_, seed, samples) = of_night.unwrap_or(&("endless", 1, 6_000));
    let script = script(kind_named(kind).unwrap(), seed, samples);
    let answers = String::from_utf8(answers_to(&script).0).unwrap();
    let lines = script.strip_suffix(b"\n").unwrap_or(&script);
    let lines = lines.split(|&byte| byte == b'\n').map(<[u8]>::to_vec);
    lines.zip(answers.lines().map(str::to_string)).collect()
}

/// Lines with their answers, by hand. NEXT is the number that would be taken;
/// samples follow an answer that ends in a tab.
const KNOWN: &[(&str, &str)] = &[
    // Cut short.
    ("", "10"),
    ("bloc", "10"),
    ("block", "10"),
    ("block\t", "10"),
    ("block\tNEXT", "2\t0\t0\t0"),
    ("block\tNEXT\t", "10"),
    ("block\tNEXT\t1", "0\t1\t0\t0\t"),
    ("block\tNEXT\t12", "0\t1\t0\t0\t"),
    ("block\tNEXT\t12\t", "10"),
    ("block\tNEXT\t12\t-", "10"),
    ("block\tNEXT\t12\t-3", "0\t2\t0\t0\t"),
    ("block\tNEXT\t12\t-34", "0\t2\t0\t0\t"),
    ("star", "10"),
    ("start\t4095\t100\t0", "10"),
    ("start\t4095\t100\t0\t", "10"),
    ("start\t4095\t100\t0\t1", "0"),
    ("start\t4095\t100\t0\t100", "0"),
    ("start\t4095\t100\t0\t100\t", "10"),
    ("start\t4095\t100\t0\t100\t4800", "16"),
    ("change\t4095\t100\t0\t10", "0"),
    ("rese", "10"),
    // Tabs, ends of lines, and what is none.
    ("\tblock\tNEXT\t12\t-345", "10"),
    ("block\t\tNEXT\t12\t-345", "10"),
    ("block\tNEXT\t12\t\t-345", "10"),
    ("block\tNEXT\t12\t-345\t", "10"),
    ("block\tNEXT\t12\t-345\r", "10"),
    ("block\tNEXT\t12\t-345\0", "10"),
    ("reset\r", "10"),
    ("reset\t", "10"),
    ("reset\0", "10"),
    // Words.
    ("BLOCK\tNEXT\t12\t-345", "10"),
    ("lock\tNEXT\t12\t-345", "10"),
    ("blocks\tNEXT\t12\t-345", "10"),
    (" block\tNEXT\t12\t-345", "10"),
    ("block \tNEXT\t12\t-345", "10"),
    ("change\tNEXT\t12\t-345", "10"),
    // Signs.
    ("block\t-NEXT\t12\t-345", "10"),
    ("block\t+NEXT\t12\t-345", "10"),
    ("block\tNEXT\t+12\t-345", "10"),
    ("block\tNEXT\t-12\t-345", "0\t2\t0\t0\t"),
    ("block\tNEXT\t12\t--345", "10"),
    ("block\tNEXT\t12-\t-345", "10"),
    ("change\t4095\t-100\t0\t100", "10"),
    ("change\t4095\t100\t-0\t100", "10"),
    // The bytes beside the digits.
    ("block\tNEXT\t12/\t-345", "10"),
    ("block\tNEXT\t12:\t-345", "10"),
    // Leading zeros.
    ("block\t0NEXT\t12\t-345", "0\t2\t0\t0\t"),
    ("block\tNEXT\t12\t-0345", "0\t2\t0\t0\t"),
    ("block\tNEXT\t12\t0-345", "10"),
    // Limits, and numbers that would be 12 or -345 with high bits lost.
    ("block\t65535\t12\t-345", "5\t0\t0\t0"),
    ("block\t65536\t12\t-345", "10"),
    ("block\tNEXT\t12\t32767", "0\t2\t0\t0\t"),
    ("block\tNEXT\t12\t32768", "10"),
    ("block\tNEXT\t12\t-32768", "0\t2\t0\t0\t"),
    ("block\tNEXT\t12\t-32769", "10"),
    ("block\tNEXT\t65548\t-345", "10"),
    ("block\tNEXT\t-65524\t-345", "10"),
    ("block\tNEXT\t4294967308\t-345", "10"),
    ("block\tNEXT\t18446744073709551628\t-345", "10"),
    ("block\tNEXT\t12\t4294966951", "10"),
    ("change\t4294967295\t100\t0\t100", "8"),
    ("change\t4294967296\t100\t0\t100", "10"),
    ("change\t4294971391\t100\t0\t100", "10"),
    ("start\t4095\t409\t0\t100\t48000", "0"),
    ("start\t4095\t410\t0\t100\t48000", "11"),
    ("start\t4095\t100\t256\t100\t48000", "12"),
    ("change\t4095\t100\t0\t1000001", "13"),
    ("change\t4095\t100\t0\t18446744073709551716", "10"),
    // The rate.
    ("start\t4095\t100\t0\t100\t44100", "0"),
    ("start\t4095\t100\t0\t100\t048000", "0"),
    ("start\t4095\t100\t0\t100\t44101", "16"),
    ("start\t4095\t100\t0\t100\t0", "16"),
    ("start\t4095\t100\t0\t100\t113536", "16"),
    ("start\t4095\t100\t0\t100\t4294967295", "16"),
    ("start\t4095\t100\t0\t100\t4294967296", "10"),
    ("start\t4095\t100\t0\t100\t4295015296", "10"),
    ("start\t4095\t100\t0\t100\t-48000", "10"),
    ("start\t4095\t100\t0\t100\t48000\t", "10"),
    ("start\t4095\t100\t0\t100\t48000\t0", "10"),
    ("start\t4095\t100\t0\t100\t48000\r", "10"),
    ("start\t4095\t100\t0\t100\t\t48000", "10"),
    ("change\t4095\t100\t0\t100\t0", "10"),
    // The keyboard.
    ("mod", "10"),
    ("mode", "10"),
    ("mode\t", "10"),
    ("mode\t1", "0"),
    ("mode\t01", "0"),
    ("mode\t-1", "10"),
    ("mode\t0\t1", "10"),
    ("mode\t1\t0", "10"),
    ("mode\t2", "15"),
    ("mode\t65537", "15"),
    ("mode\t4294967295", "15"),
    ("mode\t4294967297", "10"),
    ("channel\t0", "0"),
    ("channel\t15", "0"),
    ("channel\t16", "14"),
    ("channel\t65536", "14"),
    ("channel\t4294967296", "10"),
    ("channel\t-0", "10"),
    ("channel\t0\r", "10"),
    ("midi", "10"),
    ("midi\t", "10"),
    ("midi\t1", "0"),
    ("midi\t144\t60\t", "10"),
    ("midi\t144\t60\t1", "0"),
    ("midi\t144\t60\t255", "0"),
    ("midi\t144\t60\t256", "10"),
    ("midi\t144\t-60\t100", "10"),
    ("midi\t144\t65596\t100", "10"),
    ("midi\t144\t\t100", "10"),
    ("midi\t144\t60\t100\t0", "0"),
    ("midi\t144\t60\t100\t\t", "10"),
    ("MIDI\t144\t60\t100", "10"),
    ("mode\t144\t60\t100", "10"),
    ("block\t144\t60\t100", "5\t0\t0\t0"),
];

#[test]
fn known_lines_have_their_known_answers() {
    let mut met = vec![0; KNOWN.len()];
    let mut next: u16 = 0;
    for (line, answer) in answered("hostile") {
        for (place, (known, right)) in KNOWN.iter().enumerate() {
            if line == known.replace("NEXT", &next.to_string()).as_bytes() {
                met[place] += 1;
                let as_known = match right.ends_with('\t') {
                    true => answer.starts_with(right),
                    false => answer == *right,
                };
                assert!(as_known, "{known:?} is answered {answer}");
            }
        }
        next = match answer.as_str() {
            "0" if line.starts_with(b"start") || line.starts_with(b"reset") => 0,
            _ if answer.starts_with("0\t") => next.wrapping_add(1),
            _ => next,
        };
    }
    for ((known, _), met) in KNOWN.iter().zip(met) {
        assert!(met > 0, "{known:?} is in no hostile script");
    }
}

/// Lines of up to 8,192 bytes are read, whatever stands on them.
#[test]
fn lines_about_as_long_as_may_be() {
    let lines = answered("hostile");
    for length in LONGEST_LINE - 2..=LONGEST_LINE + 2 {
        let mut answers: Vec<&str> = lines
            .iter()
            .filter(|(line, _)| line.len() == length)
            .map(|(_, answer)| &answer[..answer.len().min(6)])
            .collect();
        answers.sort_unstable();
        let right = match length <= LONGEST_LINE {
            true => ["0", "0", "0", "0\t2\t0\t", "0\t2\t0\t", "0\t512\t", "10"],
            false => ["10"; 7],
        };
        assert_eq!(answers, right, "{length} bytes");
    }
}

#[test]
fn what_cannot_be_read_changes_nothing() {
    for kind in ["hostile", "endless"] {
        let lines = answered(kind);
        let read = lines.iter().filter(|(_, answer)| answer != "10");
        let (read, answers): (Vec<&[u8]>, Vec<&str>) = read
            .map(|(line, answer)| (&line[..], answer.as_str()))
            .unzip();
        assert!(read.len() < lines.len());
        let (again, _) = answers_to(&read.join(&b'\n'));
        assert_eq!(
            String::from_utf8(again).unwrap().trim_end(),
            answers.join("\n")
        );
    }
}

/// Soon after each line a block is taken.
#[test]
fn blocks_are_taken_between_hostile_lines() {
    let lines = answered("hostile");
    let unreadable = lines.iter().filter(|(_, answer)| answer == "10").count();
    assert!(unreadable > 2_000, "{unreadable} lines");
    let without_block = lines.windows(12).find(|few| {
        let mut answers = few.iter().map(|(_, answer)| answer);
        !answers.any(|answer| answer.starts_with("0\t"))
    });
    assert_eq!(without_block, None);
}

#[test]
fn a_line_of_a_million_bytes() {
    let lines = answered("endless");
    let million: Vec<&str> = lines
        .iter()
        .filter(|(line, _)| line.len() == 1_000_000)
        .map(|(_, answer)| answer.as_str())
        .collect();
    assert_eq!(million, ["10"]);
}
