//! The night: what it is put together from, and that it can be stored.

use independent::generator::cuts::CUTTINGS;
use independent::generator::kinds::KINDS;
use independent::generator::night::{script_of, write_night, AT_ONCE, NIGHT, NOT_STORED};
use independent::lines::answers_to;
use independent::takes::{hold_cuttings, takes_of, Stretch};

fn night() -> Vec<u8> {
    let mut bytes = Vec::new();
    write_night(&mut bytes).unwrap();
    bytes
}

/// How many lines end there.
fn lines(bytes: &[u8]) -> usize {
    bytes.iter().filter(|&&byte| byte == b'\n').count()
}

#[test]
fn it_has_every_kind_in_order() {
    let kinds = KINDS.iter().map(|kind| kind.name);
    let stored: Vec<&str> = kinds.filter(|name| !NOT_STORED.contains(name)).collect();
    let names: Vec<&str> = NIGHT.iter().map(|row| row.0).collect();
    assert_eq!(names, stored);
}

const WHOLE_CASE: &[u8] = include_bytes!("../../examples/whole_case.txt");

/// The first script, then the whole case, then each other script as the generator
/// writes it, a start before it where it has none, then a line without its end.
#[test]
fn it_is_the_opening_the_whole_case_and_the_scripts() {
    let night = night();
    let (opening, others) = NIGHT.split_first().unwrap();
    let rest = night.strip_prefix(&script_of(opening)[..]).unwrap();
    let mut rest = rest.strip_prefix(WHOLE_CASE).unwrap();
    for row in others {
        let script = script_of(row);
        if !script.starts_with(b"start\t") {
            rest = rest.strip_prefix(AT_ONCE.as_bytes()).unwrap();
        }
        rest = rest.strip_prefix(&script[..]).unwrap();
    }
    assert_eq!(rest, b"reset\nblock\t0\t5\t-6\t7");
}

/// The first script is sung under the defaults: as after a start that has them,
/// and not as at decay 0.
#[test]
fn it_opens_without_a_start() {
    let opening = script_of(&NIGHT[0]);
    assert!(opening.starts_with(b"block\t0\t"));
    let (answers, _) = answers_to(&opening);
    let after = |start: &[u8]| answers_to(&[start, &opening].concat()).0;
    assert_eq!(
        after(b"start\t4095\t100\t230\t100\n"),
        [b"0\n", &answers[..]].concat()
    );
    assert_ne!(after(AT_ONCE.as_bytes()), [b"0\n", &answers[..]].concat());
}

#[test]
fn it_is_answered_to_its_last_line() {
    let night = night();
    let (answers, _) = answers_to(&night);
    let (opening, _) = answers_to(&script_of(&NIGHT[0]));
    let whole_case = answers.strip_prefix(&opening[..]).unwrap();
    assert!(whole_case.starts_with(&answers_to(WHOLE_CASE).0));
    assert!(answers.ends_with(b"\n0\n0\t3\t0\t0\t0\t0\t0\n"));
    assert_eq!(lines(&answers), lines(&night) + 1);
    assert!(night.len() + answers.len() < 4_500_000);
}

/// A take at each rate, cut in every way, with changes and keys between: in the
/// night's own answers all cuttings give the same.
#[test]
fn its_takes_may_be_cut_in_any_way() {
    let row = NIGHT.iter().find(|row| row.0 == "cuts").unwrap();
    let (night, script) = (night(), script_of(row));
    let parts = &mut night.windows(script.len());
    let begins = parts.position(|part| part == script).unwrap();
    let (answers, _) = answers_to(&night);
    let answers = answers.split_inclusive(|&byte| byte == b'\n');
    let answers = answers.skip(lines(&night[..begins])).take(lines(&script));
    let answers = &answers.collect::<Vec<_>>().concat();
    assert_eq!(hold_cuttings(&script, answers, CUTTINGS.len()), Ok(2));
    let played = takes_of(&script, answers);
    let rates = [&played[0], &played[CUTTINGS.len()]].map(|played| {
        let stretches = &played.take.stretches;
        let is_key = |stretch: &Stretch| matches!(stretch, Stretch::Bytes(_));
        let is_change = |stretch: &Stretch| matches!(stretch, Stretch::Change(line) if line.starts_with(b"change\t"));
        assert!(stretches.iter().any(is_key) && stretches.iter().any(is_change));
        assert!(played.output.len() > 700, "{} samples", played.output.len());
        played.take.start.ends_with(b"\t48000")
    });
    assert_eq!(rates, [true, false]);
    assert!(played.iter().any(|played| played.counts[1] > 0));
}
