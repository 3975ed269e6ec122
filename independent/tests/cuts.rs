//! The cutting of a take does not matter: its cuttings give the same and leave
//! the same tuner, and what holds them to one another finds where they do not.

use independent::calls::{made, Call};
use independent::generator::cuts::CUTTINGS;
use independent::generator::kinds::kind_named;
use independent::generator::script::script;
use independent::lines::{answers_to, Program, Record};
use independent::record;
use independent::rules::LONGEST_BLOCK;
use independent::settings::Settings;
use independent::statistics::Statistics;
use independent::table::CD;
use independent::takes::{hold_cuttings, takes_of, Stretch};
use independent::tuner::Tuner;
use std::collections::HashSet;
use std::mem::discriminant;

const WAYS: usize = CUTTINGS.len();

fn cuts(seed: u64, samples: usize) -> Vec<u8> {
    script(kind_named("cuts").unwrap(), seed, samples)
}

/// A line without its end, and its answer.
type Answered = (Vec<u8>, String);

/// The lines of a script, each with its answer.
fn answered(script: &[u8], answers: &[u8]) -> Vec<Answered> {
    let lines = script.split(|&byte| byte == b'\n').map(<[u8]>::to_vec);
    let answers = String::from_utf8(answers.to_vec()).unwrap();
    lines.zip(answers.lines().map(str::to_string)).collect()
}

/// The cuttings of a script, each from the start that was taken on.
fn cuttings(script: &[u8]) -> Vec<Vec<Answered>> {
    let lines = answered(script, &answers_to(script).0);
    let begins = |(line, answer): &Answered| line.starts_with(b"start\t") && answer == "0";
    let parts = lines.chunk_by(|_, next| !begins(next));
    parts.map(<[Answered]>::to_vec).collect()
}

/// The lengths of the blocks that were taken, and of the lines of bytes.
fn lengths(cutting: &[Answered]) -> (Vec<usize>, Vec<usize>) {
    let (mut blocks, mut bytes) = (Vec::new(), Vec::new());
    for (line, answer) in cutting {
        match Record::on(line) {
            Some(Record::Block(_, samples)) if answer.starts_with("0\t") => {
                blocks.push(samples.len())
            }
            Some(Record::Midi(line)) => bytes.push(line.len()),
            _ => {}
        }
    }
    (blocks, bytes)
}

/// The numbers of the answers, 0 apart.
fn others(cutting: &[Answered]) -> HashSet<&str> {
    let numbers = cutting.iter().map(|(_, answer)| {
        let end = answer.find('\t').unwrap_or(answer.len());
        &answer[..end]
    });
    numbers.filter(|&number| number != "0").collect()
}

#[test]
fn takes_are_cut_as_the_cuttings_say() {
    for seed in 1..=3 {
        let script = cuts(seed, 70_000);
        let parts = cuttings(&script);
        assert_eq!(parts.len() % WAYS, 0);
        let cut_in = |way: usize| parts.iter().skip(way).step_by(WAYS).flatten().cloned();
        let whole: Vec<Vec<Answered>> = (0..WAYS).map(|way| cut_in(way).collect()).collect();
        for (cutting, lines) in CUTTINGS.iter().zip(&whole) {
            let (blocks, bytes) = lengths(lines);
            let (least, most) = cutting.samples;
            assert!((least..=most).contains(blocks.iter().max().unwrap()));
            assert!(bytes.iter().all(|&bytes| bytes <= cutting.bytes.1));
            let strewn: &[&str] = match cutting.strewn {
                0 => &[],
                _ => &["1", "2", "3", "5", "6", "8", "10", "16"],
            };
            let others = others(lines);
            assert!(strewn.iter().all(|number| others.contains(number)));
            assert_eq!(others.is_empty(), strewn.is_empty());
        }
        // All bytes that fall after a sample are on one line, or each on its own.
        let is_bytes = |(line, _): &Answered| line.starts_with(b"midi\t");
        let together = |pair: &[Answered]| is_bytes(&pair[0]) && is_bytes(&pair[1]);
        assert!(!whole[0].windows(2).any(together));
        assert!(lengths(&whole[0]).1.iter().any(|&bytes| bytes > 8));
        assert!(lengths(&whole[1]).1.iter().all(|&bytes| bytes == 1));
        let any: HashSet<usize> = lengths(&whole[3]).0.into_iter().collect();
        assert!(any.len() > 40, "{} lengths of blocks", any.len());
    }
}

/// In the last cutting most lags that are found or lost, and most cycles that are
/// turned, are so by the first or the last sample of a block.
#[test]
fn blocks_begin_and_end_beside_what_happens() {
    let (mut first, mut last, mut all) = (0, 0, 0);
    for seed in 1..=3 {
        let parts = cuttings(&cuts(seed, 70_000));
        for cutting in parts.iter().skip(WAYS - 1).step_by(WAYS) {
            let (mut tuner, mut number) = (Tuner::default_start(), 0);
            for record in taken(cutting) {
                let Record::Block(_, samples) = record else {
                    make(&mut tuner, record);
                    continue;
                };
                for (place, &sample) in (1..).zip(&samples) {
                    let before = discriminant(&tuner.meter());
                    let (_, counts) =
                        tuner.block(number, &[sample], &mut [0], &mut Statistics::default());
                    number = number.wrapping_add(1);
                    assert_eq!(counts.written, 1);
                    let turned = counts.repeated + counts.dropped > 0;
                    if turned || before != discriminant(&tuner.meter()) {
                        all += 1;
                        first += usize::from(place == 1);
                        last += usize::from(place == samples.len());
                    }
                }
            }
        }
    }
    assert!(all > 100, "{all} turns");
    assert!(
        3 * first > all && 3 * last > all,
        "{first} and {last} of {all}"
    );
}

/// Every sort of change, and bytes, fall into takes at both rates, and cycles are
/// repeated and dropped.
#[test]
fn much_falls_into_the_takes() {
    let mut words = HashSet::new();
    let mut counts = [0; 3];
    for seed in 1..=8 {
        let script = cuts(seed, 40_000);
        for played in takes_of(&script, &answers_to(&script).0) {
            let hertz = match played.take.start.ends_with(b"\t48000") {
                true => 48_000,
                false => 44_100,
            };
            for stretch in &played.take.stretches {
                let word = match stretch {
                    Stretch::Samples(_) => "block",
                    Stretch::Bytes(_) => "midi",
                    Stretch::Change(line) => std::str::from_utf8(line).unwrap(),
                };
                words.insert((hertz, word.split('\t').next().unwrap().to_string()));
            }
            (0..3).for_each(|at| counts[at] += played.counts[at]);
        }
    }
    for hertz in [44_100, 48_000] {
        for word in ["block", "midi", "change", "mode", "channel"] {
            assert!(words.contains(&(hertz, word.to_string())), "{word} {hertz}");
        }
    }
    assert_eq!(words.len(), 10);
    assert!(counts[1] > 100 && counts[2] > 10, "{counts:?}");
}

#[test]
fn cuttings_give_the_same() {
    let takes = (1..=30).map(|seed| {
        let script = cuts(seed, 10_000);
        hold_cuttings(&script, &answers_to(&script).0, WAYS).unwrap()
    });
    let takes: usize = takes.sum();
    assert!(takes > 35, "{takes} takes");
}

/// After every cutting of a take the tuner is the same, its last block apart.
#[test]
fn cuttings_leave_the_same_tuner() {
    for seed in 1..=30 {
        let left = cuttings(&cuts(seed, 10_000)).into_iter().map(|cutting| {
            let mut program = Program::default();
            for (line, _) in cutting {
                read(&mut program, &line);
            }
            program.tuner().clone()
        });
        let left: Vec<_> = left.collect();
        for take in left.chunks(WAYS) {
            for tuner in take {
                assert_eq!(tuner.meter(), take[0].meter());
                assert!(tuner.without_last_block() == take[0].without_last_block());
            }
            // The last block itself is not the same.
            assert!(take.iter().any(|tuner| *tuner != take[0]));
        }
    }
}

/// The call that a line makes, by the settings in force.
fn call(line: Record, now: Settings) -> Call {
    match line {
        Record::Start(hertz, settings) => Call::start(hertz.unwrap_or(CD), settings),
        Record::Change(to) => Call::Change(Settings {
            mode: now.mode,
            channel: now.channel,
            ..to
        }),
        Record::Mode(mode) => Call::Change(Settings { mode, ..now }),
        Record::Channel(channel) => Call::Change(Settings { channel, ..now }),
        Record::Midi(bytes) => Call::Midi(bytes),
        Record::Block(number, samples) => Call::block(number, &samples, vec![0; LONGEST_BLOCK]),
        Record::Reset => Call::Reset(vec![]),
    }
}

/// The record that these lines leave; only what is answered 0 alters it.
fn record_after(cutting: &[Answered]) -> record::Record {
    let mut left = record::Record::default_start();
    for record in cutting.iter().filter_map(|(line, _)| Record::on(line)) {
        let made = made(&left.bytes(), &call(record, left.settings));
        if made.answer.number == 0 {
            left = record::Record::of_bytes(&made.record);
        }
    }
    left
}

/// So does the record that hosts keep, with every store and sum of it.
#[test]
fn cuttings_leave_the_same_record() {
    for seed in 1..=4 {
        for take in cuttings(&cuts(seed, 8_000)).chunks(WAYS) {
            let left: Vec<_> = take.iter().map(|cutting| record_after(cutting)).collect();
            assert!(left[0].count > 0);
            for record in &left {
                let with_last_block_of_first = record::Record {
                    number: left[0].number,
                    length: left[0].length,
                    repeated: left[0].repeated,
                    dropped: left[0].dropped,
                    pitched: left[0].pitched,
                    strayed: left[0].strayed,
                    outs: left[0].outs,
                    ..record.clone()
                };
                assert!(with_last_block_of_first == left[0]);
            }
        }
    }
}

/// What is said of a script with these answers, from the take and cutting on.
fn said(script: &[u8], answers: &[String]) -> String {
    let answers: String = answers.iter().map(|answer| format!("{answer}\n")).collect();
    match hold_cuttings(script, answers.as_bytes(), WAYS) {
        Ok(_) => "they agree".to_string(),
        Err(disagreement) => disagreement.to_string(),
    }
}

/// Altered answers are found, whichever cutting they are in.
#[test]
fn altered_answers_are_found() {
    let script = cuts(1, 10_000);
    let (right, _) = answers_to(&script);
    let lines = answered(&script, &right);
    let right: Vec<String> = lines.iter().map(|(_, answer)| answer.clone()).collect();
    assert_eq!(said(&script, &right), "they agree");
    let parts = cuttings(&script);
    for way in 0..WAYS {
        let before: usize = parts[..way].iter().map(Vec::len).sum();
        let is_block = |answer: &String| answer.starts_with("0\t");
        let block = before + right[before..].iter().position(is_block).unwrap();
        let numbers = right[block].split('\t').map(|field| field.parse().unwrap());
        let numbers: Vec<i64> = numbers.collect();
        // Where the first is altered, it is the second that is found to be other.
        let cutting = format!("take 1, cutting {} against cutting 1: ", way.max(1) + 1);
        let alter = |at: usize, by: i64| {
            let (mut numbers, mut answers) = (numbers.clone(), right.clone());
            numbers[at] += by;
            let fields: Vec<String> = numbers.iter().map(i64::to_string).collect();
            answers[block] = fields.join("\t");
            said(&script, &answers)
        };
        assert!(alter(4, 1).starts_with(&(cutting.clone() + "sample 1 out is ")));
        assert!(alter(2, 1).starts_with(&(cutting.clone() + "written, repeated and dropped ")));
        // Another answer's number: the block was not taken.
        assert_eq!(alter(0, 5), cutting + "not the same was taken");
    }
    // A block given again that is answered as one taken.
    let again = right.iter().position(|answer| answer.starts_with("1\t"));
    let mut altered = right.clone();
    altered[again.unwrap()].replace_range(..1, "0");
    assert!(said(&script, &altered).ends_with(": not the same was taken"));
    // Answers that end early, and none at all.
    let three: usize = parts[..3].iter().map(Vec::len).sum();
    let missing = "take 1, cutting 4 against cutting 1: it is missing";
    assert_eq!(said(&script, &right[..three]), missing);
    assert!(said(&script, &[]).ends_with("it is missing"));
}

fn read(program: &mut Program, line: &[u8]) -> String {
    let mut answer = Vec::new();
    program.read(&[line, &b"\n"[..]].concat(), &mut answer);
    String::from_utf8(answer).unwrap().trim_end().to_string()
}

/// What is said of a program that takes the lines of a seed so and answers blocks
/// accordingly.
fn said_of(seed: u64, mut take: impl FnMut(&mut Program, &[u8]) -> String) -> String {
    let script = cuts(seed, 70_000);
    let right = answered(&script, &answers_to(&script).0);
    let mut program = Program::default();
    let answers = right.into_iter().map(|(line, right)| {
        let taken = take(&mut program, &line);
        match Record::on(&line) {
            Some(Record::Block(..)) => taken,
            _ => right,
        }
    });
    said(&script, &answers.collect::<Vec<String>>())
}

/// What is said of a program in which such lines wait until the next block is
/// taken.
fn said_of_late(seed: u64, waits: impl Fn(&Record) -> bool) -> String {
    let mut waiting: Vec<Vec<u8>> = Vec::new();
    said_of(seed, |program, line| match Record::on(line) {
        Some(record) if waits(&record) => {
            waiting.push(line.to_vec());
            String::new()
        }
        Some(Record::Block(..)) => {
            let answer = read(program, line);
            if answer.starts_with("0\t") {
                waiting
                    .drain(..)
                    .for_each(|late| drop(read(program, &late)));
            }
            answer
        }
        _ => read(program, line),
    })
}

/// What was taken of a cutting.
fn taken(cutting: &[Answered]) -> impl Iterator<Item = Record> + '_ {
    let taken = cutting.iter().filter(|(_, answer)| answer.starts_with('0'));
    taken.map(|(line, _)| Record::on(line).expect("it was taken"))
}

/// Makes the call of a line that is no block.
fn make(tuner: &mut Tuner, record: Record) {
    match call(record, tuner.standing().settings) {
        Call::Start {
            hertz, settings, ..
        } => *tuner = Tuner::start(hertz, settings).1,
        Call::Change(settings) => drop(tuner.change(settings)),
        Call::Midi(bytes) => drop(tuner.midi(&bytes, &mut Statistics::default())),
        _ => unreachable!("there are no other lines"),
    }
}

/// What is said of a program whose tuner is touched before each block that it
/// takes.
fn said_of_touched(seed: u64, touch: impl Fn(&mut Tuner)) -> String {
    let script = cuts(seed, 70_000);
    let right = answered(&script, &answers_to(&script).0);
    let mut tuner = Tuner::default_start();
    let answers = right.into_iter().map(|(line, right)| {
        if !right.starts_with('0') {
            return right;
        }
        match Record::on(&line).expect("it was taken") {
            Record::Block(number, samples) => {
                touch(&mut tuner);
                let mut out = vec![0; samples.len()];
                let seen = &mut Statistics::default();
                let (_, counts) = tuner.block(number, &samples, &mut out, seen);
                let counts = [counts.written, counts.repeated, counts.dropped];
                let counts = counts.map(|count| format!("\t{count}")).concat();
                let out: String = out.iter().map(|sample| format!("\t{sample}")).collect();
                format!("0{counts}{out}")
            }
            record => {
                make(&mut tuner, record);
                right
            }
        }
    });
    said(&script, &answers.collect::<Vec<String>>())
}

/// Programs to which the cutting matters are found by every seed, though nothing
/// else than their own answers is known.
#[test]
fn programs_to_which_the_cutting_matters_are_found() {
    for seed in 1..=3 {
        assert_eq!(said_of(seed, read), "they agree");
        assert_eq!(said_of_touched(seed, |_| {}), "they agree");
        let settings = |record: &Record| {
            matches!(
                record,
                Record::Change(_) | Record::Mode(_) | Record::Channel(_)
            )
        };
        let bytes = |record: &Record| matches!(record, Record::Midi(_));
        let forgets_half_messages = said_of(seed, |program, line| {
            let answer = read(program, line);
            if line.starts_with(b"midi\t") {
                read(program, b"midi\t246");
            }
            answer
        });
        let found = [
            said_of_late(seed, settings),
            said_of_late(seed, bytes),
            said_of_touched(seed, |tuner| tuner.put_behind(0)),
            forgets_half_messages,
        ];
        for said in found {
            assert!(said.contains(" against cutting 1: "), "{seed}: {said}");
        }
    }
}
