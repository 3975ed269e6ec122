//! The line program with voices: what it answers, and how its voices stand to the
//! lead.

use independent::generator::cuts::CUTTINGS;
use independent::generator::kinds::{kind_named, KINDS};
use independent::generator::script::script;
use independent::generator::voices::script_with_voices;
use independent::lines::{answers_to, Record};
use independent::takes::takes_of;
use independent::voice_lines::{answers_with_voices, VoiceLines};
use std::collections::BTreeMap;

fn text(answers: Vec<u8>) -> String {
    String::from_utf8(answers).expect("answers are text")
}

/// Tabs are shown as spaces.
fn lines_answered(input: &str) -> String {
    let answers = answers_with_voices(input.replace(' ', "\t").as_bytes()).0;
    text(answers).replace('\t', " ")
}

/// The next start has the voices of the last such line before it, and no other.
#[test]
fn lines_with_voices() {
    // Without such a line it is the line program.
    let whole = "start 4095 200 0 100\nblock 0 1000 -1000 500\nblock 2 7\nblock 1 8 9 10";
    let answers = "0\n0 3 0 0 0 0 0\n5 0 0 0\n0 3 0 0 0 1000 -1000\n";
    assert_eq!(lines_answered(whole), answers);
    let mut program = VoiceLines::default();
    for (line, answer) in [
        ("voices 4 4 4", "0"),
        ("voices 7 -5", "0"),
        ("block 0 1", "0 1 0 0 0"),
        ("start 4095 200 0 100", "0"),
        ("block 0 1000 -1000", "0 2 0 0 0 0;voice 0 0;voice 0 0"),
        ("block 0 1000 -1000", "1 2 0 0 0 0;voice 0 0;voice 0 0"),
        ("block 0 7", "6 0 0 0;voice;voice"),
        ("block 1", "2 0 0 0;voice;voice"),
        ("block", "10"),
        ("voices 3", "0"),
        ("block 1 8 9 10", "0 3 0 0 0 0 1000;voice 0 0 0;voice 0 0 0"),
        ("reset", "0"),
        ("block 0 4", "0 1 0 0 0;voice 0;voice 0"),
        // Refused, and still the next start that there is.
        ("start 0 200 0 100", "8"),
        ("block 1 5", "0 1 0 0 0;voice 0;voice 0"),
        ("start 4095 200 0 100", "0"),
        ("block 0 6", "0 1 0 0 0"),
    ] {
        let mut answers = Vec::new();
        program.line(line.replace(' ', "\t").as_bytes(), &mut answers);
        let answers = text(answers).replace('\t', " ").replace('\n', ";");
        assert_eq!(answers, format!("{answer};"), "{line}");
    }
}

/// Refused where the start is, after what else refuses it; and lines that cannot be
/// read, which choose nothing.
#[test]
fn lines_that_choose_voices() {
    for (line, number, start) in [
        ("voices", 0, 0),
        ("voices 12 -12 00", 0, 0),
        ("voices 1 2 13", 0, 18),
        ("voices 1 2 3 -13", 0, 18),
        ("voices 1 2 3 4", 0, 19),
        ("voices 1 2 3 4 ", 10, 0),
        ("voices  1", 10, 0),
        ("voices +13", 10, 0),
        ("voices 32768", 10, 0),
        ("voice 13", 10, 0),
    ] {
        let answers = lines_answered(&format!("{line}\nstart 4095 200 0 100\n"));
        assert_eq!(answers, format!("{number}\n{start}\n"), "{line}");
    }
    let bad = "voices 13\nstart 0 200 0 100\nvoices 13\nstart 1 1 0 1 1\nvoices 13\n";
    assert_eq!(lines_answered(bad), "0\n8\n0\n16\n0\n");
    let long = format!("voices{}", "\t1".repeat(4_094));
    assert_eq!(
        text(answers_with_voices(&long.as_bytes()[..8_192]).0),
        "0\n"
    );
    assert_eq!(text(answers_with_voices(long.as_bytes()).0), "10\n");
}

/// A line, its answer, and what each voice wrote.
struct Answered<'a> {
    line: &'a [u8],
    answer: &'a str,
    voices: Vec<&'a str>,
}

fn answered<'a>(script: &'a [u8], answers: &'a str) -> Vec<Answered<'a>> {
    let mut answers = answers.lines().peekable();
    let mut all = Vec::new();
    for line in script.split_inclusive(|&byte| byte == b'\n') {
        let answer = answers.next().expect("each line is answered");
        let next = || answers.next_if(|answer| answer.starts_with("voice"));
        let voices = std::iter::from_fn(next).map(|voice| &voice["voice".len()..]);
        all.push(Answered {
            line,
            answer,
            voices: voices.collect(),
        });
    }
    assert_eq!(answers.next(), None);
    all
}

fn record(line: &[u8]) -> Option<Record> {
    Record::on(line.strip_suffix(b"\n").unwrap_or(line))
}

/// Over scripts of every kind: without the lines that choose voices, and without
/// the starts that are refused for them, the answers are the line program's; and
/// just behind a block comes each voice, with as many samples.
#[test]
fn the_lead_is_the_line_programs() {
    let mut met: BTreeMap<String, usize> = BTreeMap::new();
    for kind in KINDS {
        let voiced = script_with_voices(kind, 5, 2_000);
        let answers = text(answers_with_voices(&voiced).0);
        let (mut input, mut right) = (Vec::new(), String::new());
        let (mut voices, mut next) = (0, 0);
        for Answered {
            line,
            answer,
            voices: sung,
        } in answered(&voiced, &answers)
        {
            let record = record(line);
            if line.starts_with(b"voices") {
                next = line.iter().filter(|&&byte| byte == b'\t').count();
                continue;
            }
            let start = matches!(record, Some(Record::Start(..)));
            if start && ["18", "19"].contains(&answer) {
                *met.entry(format!("refused {answer}")).or_default() += 1;
                continue;
            }
            if start && answer == "0" {
                voices = next;
            }
            let is_block = matches!(record, Some(Record::Block(..)));
            assert_eq!(sung.len(), if is_block { voices } else { 0 });
            for voice in sung {
                let written = |answer: &str| answer.matches('\t').count();
                assert_eq!(written(voice), written(answer) - 3);
                let sounds = voice.bytes().any(|byte| (b'1'..=b'9').contains(&byte));
                *met.entry(format!("sounds {sounds}")).or_default() += 1;
            }
            *met.entry(format!("{voices} voices")).or_default() += 1;
            input.extend(line);
            right += &format!("{answer}\n");
        }
        assert!(answers_to(&input).0 == right.as_bytes(), "{}", kind.name);
    }
    assert_eq!(met.len(), 8, "{met:?}");
}

/// The cuttings of a take agree in every voice.
#[test]
fn cuttings_agree() {
    let script = script(kind_named("cuts").unwrap(), 3, 12_000);
    let mut voiced = Vec::new();
    for line in script.split_inclusive(|&byte| byte == b'\n') {
        if line.starts_with(b"start\t") {
            voiced.extend(b"voices\t-7\t4\t12\n");
        }
        voiced.extend(line);
    }
    let answers = text(answers_with_voices(&voiced).0);
    for place in 0..3 {
        // As if the voice were the lead, so that takes can be told.
        let mut alone = String::new();
        for Answered {
            line,
            answer,
            voices,
        } in answered(&voiced, &answers)
        {
            match voices.get(place) {
                _ if line.starts_with(b"voices") => {}
                None => alone += &format!("{answer}\n"),
                Some(voice) => {
                    let counts: Vec<&str> = answer.split('\t').take(4).collect();
                    alone += &format!("{}{voice}\n", counts.join("\t"));
                }
            }
        }
        let takes = takes_of(&script, alone.as_bytes());
        assert!(takes.len() >= CUTTINGS.len());
        let mut out = takes.iter().flat_map(|take| &take.output);
        assert!(out.any(|&out| out != 0));
        for cuttings in takes.chunks(CUTTINGS.len()) {
            assert!(cuttings.iter().all(|cutting| *cutting == cuttings[0]));
        }
    }
}
