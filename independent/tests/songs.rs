//! Standard MIDI Files: the published format's own example, cases as bytes, and
//! what the generator reaches.

use independent::generator::songs::Songs;
use independent::smf::Choice;
use independent::songs::{answer_all, Case, Independent};
use std::collections::HashMap;

/// The example of format 0 in "Standard MIDI Files 1.0": three channels, running status, and 96 ticks a quarter note.
const EXAMPLE: &[u8] = &[
    0x4D, 0x54, 0x68, 0x64, 0, 0, 0, 6, 0, 0, 0, 1, 0, 0x60, //
    0x4D, 0x54, 0x72, 0x6B, 0, 0, 0, 0x3B, //
    0, 0xFF, 0x58, 4, 4, 2, 0x18, 8, //
    0, 0xFF, 0x51, 3, 7, 0xA1, 0x20, //
    0, 0xC0, 5, //
    0, 0xC1, 0x2E, //
    0, 0xC2, 0x46, //
    0, 0x92, 0x30, 0x60, //
    0, 0x3C, 0x60, //
    0x60, 0x91, 0x43, 0x40, //
    0x60, 0x90, 0x4C, 0x20, //
    0x81, 0x40, 0x82, 0x30, 0x40, //
    0, 0x3C, 0x40, //
    0, 0x81, 0x43, 0x40, //
    0, 0x80, 0x4C, 0x40, //
    0, 0xFF, 0x2F, 0,
];

fn answer(file: &[u8], choice: Choice) -> String {
    let case = Case {
        hertz: 48_000,
        choice,
        file: file.to_vec(),
    };
    case.answer(&Independent)
}

#[test]
fn the_published_example() {
    let right = "0\t0\t96\t1\t1:0:other\t1:0:t500000\t1:0:c005\t1:0:c12e\t1:0:c246\t1:0:923060\t1:0:923c60\t\
                 1:96:914340\t1:192:904c20\t1:384:823040\t1:384:823c40\t1:384:814340\t1:384:804c40\t1:384:end\t\
                 keys\t0:48+\t0:60+\t24000:67+\t48000:76+\t96000:48-\t96000:60-\t96000:67-\t96000:76-\t0";
    assert_eq!(answer(EXAMPLE, Choice::default()), right);
    let second = Choice {
        channel: Some(2),
        transpose: 61,
        offset: -500,
        ..Choice::default()
    };
    let line = answer(EXAMPLE, second);
    assert!(line.ends_with("\tkeys\t1"), "{line}");
    let third = Choice {
        channel: Some(3),
        transpose: -12,
        offset: -3_000,
        ..Choice::default()
    };
    let line = answer(EXAMPLE, third);
    assert!(
        line.ends_with("\tkeys\t0:36+\t0:48+\t0:36-\t0:48-\t0"),
        "{line}"
    );
}

#[test]
fn what_is_damaged_is_refused_at_its_place() {
    let damaged = |at: usize, byte: u8| {
        let mut file = EXAMPLE.to_vec();
        file[at] = byte;
        answer(&file, Choice::default())
    };
    for (at, byte, right) in [
        (3, 0x65, "30\t3"),
        (7, 5, "33\t7"),
        (9, 2, "31\t9"),
        (13, 0, "32\t13"),
        (11, 2, "33\t81"),
        (21, 0x3C, "33\t81"),
        (21, 0x3A, "34\t79"),
        (33, 4, "39\t33"),
        (48, 0x80, "37\t48"),
        (38, 0x40, "36\t38"),
        (38, 0xF4, "38\t38"),
    ] {
        assert_eq!(damaged(at, byte), right, "byte {at}");
    }
    let cut = |to: usize| answer(&EXAMPLE[..to], Choice::default());
    assert_eq!(cut(0), "30\t0");
    assert_eq!(cut(3), "30\t3");
    for to in 4..EXAMPLE.len() {
        assert_eq!(cut(to), format!("33\t{to}"));
    }
}

#[test]
fn cases_come_back_from_their_bytes_and_reach_every_answer() {
    let mut source = Songs::seeded(5);
    let cases: Vec<Case> = (0..30_000).map(|_| source.case()).collect();
    let bytes: Vec<u8> = cases.iter().flat_map(Case::bytes).collect();
    let mut lines = Vec::new();
    answer_all(&Independent, &mut &bytes[..], &mut lines).unwrap();
    let lines = String::from_utf8(lines).unwrap();
    let mut numbers: HashMap<u32, u32> = HashMap::new();
    for (case, line) in cases.iter().zip(lines.lines()) {
        assert_eq!(case.answer(&Independent), line);
        let number = line.split('\t').next().unwrap().parse().unwrap();
        *numbers.entry(number).or_default() += 1;
    }
    assert_eq!(lines.lines().count(), cases.len());
    // 40 asks for a file of six million bytes
    for number in [0, 30, 31, 32, 33, 34, 35, 36, 37, 38, 39] {
        assert!(numbers[&number] > 50, "{number}: {numbers:?}");
    }
}
