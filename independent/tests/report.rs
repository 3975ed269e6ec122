//! The report: figures counted over takes, their sum, and what `report` prints of
//! an input.

use independent::generator::cuts::CUTTINGS;
use independent::generator::kinds::{kind_named, KINDS};
use independent::generator::script::{script, write_script};
use independent::lines::{answers_to, report_of, Program};
use independent::report::{report, Figures, Sounded, MOST_TAKES};
use independent::rules::Cycle;
use independent::tuner::Meter;
use std::fs::File;
use std::process::{Command, Stdio};

const NOTHING: &str = "0\t0\t0\t0\t0\t0\t0\n";

fn figures([samples, pitched, repeated, dropped, sum]: [u64; 5]) -> Figures {
    Figures {
        samples,
        pitched,
        repeated,
        dropped,
        sum,
    }
}

/// The lines of a report as numbers, the total last.
fn numbers(report: &str) -> Vec<[u64; 7]> {
    let line = |line: &str| {
        let fields: Vec<u64> = line
            .split('\t')
            .map(|field| field.parse().unwrap())
            .collect();
        fields.try_into().expect("a line has seven fields")
    };
    report.lines().map(line).collect()
}

#[test]
fn figures_are_counted_over_samples() {
    assert_eq!(Figures::of(&[]), Figures::default());
    let sounded = |pitched, rate, cycle| Sounded {
        pitched,
        rate,
        cycle,
    };
    let take = [
        sounded(false, 65_536, Cycle::Kept),
        sounded(true, 65_540, Cycle::Repeated),
        sounded(true, 65_536, Cycle::Kept),
        sounded(true, 65_535, Cycle::Dropped),
        sounded(true, 131_072, Cycle::Repeated),
        sounded(false, 65_536, Cycle::Kept),
    ];
    let right = figures([6, 4, 2, 1, 65_541]);
    assert_eq!(Figures::of(&take), right);
    assert_eq!(right.mean(), (10_923, 3));
    assert_eq!(right.to_string(), "6\t4\t2\t1\t65541\t10923\t3");
}

/// The total's mean is of the total, and no mean of means.
#[test]
fn the_total_is_the_sum_of_the_takes() {
    let takes = [[1, 1, 0, 0, 9], [0; 5], [3, 2, 1, 4, 1]].map(figures);
    let lines = "1\t1\t0\t0\t9\t9\t0\n0\t0\t0\t0\t0\t0\t0\n3\t2\t1\t4\t1\t0\t1\n";
    assert_eq!(report(&takes), format!("{lines}4\t3\t1\t4\t10\t2\t2\n"));
    assert_eq!(report(&[]), NOTHING);
}

/// Made-up figures, as large as takes can have them: sums and the total's
/// remainder need more than 32 bits.
#[test]
fn figures_of_more_than_32_bits() {
    let takes: Vec<Figures> = (0..1_000)
        .map(|k| {
            let samples = 1_000_000_000 - k;
            let sum = samples * 65_536 - 11 * k * k;
            figures([samples, samples - 6 * k, 3 * k, 5 * k, sum])
        })
        .collect();
    let report = report(&takes);
    let lines = numbers(&report);
    assert_eq!(lines.len(), 1_001);
    assert_eq!(
        lines[0],
        [
            1_000_000_000,
            1_000_000_000,
            0,
            0,
            65_536_000_000_000,
            65_536,
            0
        ]
    );
    let remainder = 1_000_000_000 - 999 - 11 * 999 * 999;
    assert_eq!(lines[999][5..], [65_535, remainder]);
    assert!(report.ends_with(
        "\n999999500500\t999996503500\t1498500\t2497500\t65535963603599500\t65535\t996338332000\n"
    ));
}

#[test]
fn the_opening_is_a_take() {
    assert_eq!(report_of(b""), NOTHING.repeat(2));
    let whole_case = include_bytes!("../../examples/whole_case.txt");
    assert_eq!(
        report_of(whole_case),
        "0\t0\t0\t0\t0\t0\t0\n6\t0\t0\t0\t0\t0\t0\n6\t0\t0\t0\t0\t0\t0\n"
    );
    assert_eq!(report_of(b"block\t0\t5"), "1\t0\t0\t0\t0\t0\t0\n".repeat(2));
    assert_eq!(report_of(b"reset\nreset"), NOTHING.repeat(4));
}

/// What is refused or cannot be read begins no take, nor is a block again, or
/// one that is refused, of its samples.
#[test]
fn what_is_not_taken_counts_nothing() {
    let input =
        "block\t0\t5\t6\nstart\t0\t100\t0\t100\nstart\t1\t0\t0\t1\t1\nstart\t1\t0\t0\nreset\t\n\
                 change\t1\t0\t0\t1\nmode\t1\nchannel\t3\nmidi\t144\t60\t1\nblock\t0\t5\t6\n\
                 block\t0\t5\nblock\t9\t5\nblock\t1\n";
    assert_eq!(
        report_of(input.as_bytes()),
        "2\t0\t0\t0\t0\t0\t0\n".repeat(2)
    );
}

#[test]
fn up_to_a_thousand_takes() {
    let script = |takes: usize| "block\t0\t1\nreset\n".repeat(takes - 1) + "block\t0\t1\t2\n";
    for takes in [1, 2, 999, MOST_TAKES] {
        let report = report_of(script(takes).as_bytes());
        let lines = numbers(&report);
        assert_eq!(lines.len(), takes + 1);
        assert!(lines[..takes - 1].iter().all(|line| line[0] == 1));
        assert_eq!(
            lines[takes - 1..],
            [2, takes as u64 + 1].map(|samples| [samples, 0, 0, 0, 0, 0, 0])
        );
    }
    for takes in [1_001, 1_002, 5_000] {
        assert_eq!(report_of(script(takes).as_bytes()), "28\n");
    }
}

/// As many takes as a report has, one less and one more, by the seed.
#[test]
fn scripts_of_a_thousand_takes() {
    for (seed, lines) in [(300, 1_000), (301, 1_001), (302, 1)] {
        let script = script(kind_named("takes").unwrap(), seed, 70_000);
        assert_eq!(report_of(&script).lines().count(), lines, "seed {seed}");
    }
}

/// Over the scripts of every kind: samples and cycles are those of the answers
/// to blocks that were taken.
#[test]
fn samples_and_cycles_are_those_answered() {
    for kind in KINDS {
        let script = script(kind, 6, 8_000);
        let (answers, _) = answers_to(&script);
        let mut answered = [0; 3];
        for answer in answers.split(|&byte| byte == b'\n') {
            let answer = std::str::from_utf8(answer).unwrap();
            if let Some(counts) = answer.strip_prefix("0\t") {
                let counts = counts.split('\t').take(3);
                for (sum, count) in answered.iter_mut().zip(counts) {
                    *sum += count.parse::<u64>().unwrap();
                }
            }
        }
        let lines = numbers(&report_of(&script));
        let (total, takes) = lines.split_last().unwrap();
        let [samples, pitched, repeated, dropped, sum, mean, remainder] = *total;
        assert_eq!([samples, repeated, dropped], answered, "{}", kind.name);
        assert!(pitched <= samples && remainder < samples);
        assert_eq!(sum, mean * samples + remainder);
        for field in 0..5 {
            let sum: u64 = takes.iter().map(|take| take[field]).sum();
            assert_eq!(total[field], sum);
        }
    }
}

/// In blocks of one sample the meter shows period and rate after each: their
/// counts and sums are the report's.
#[test]
fn pitched_samples_and_rates_are_those_of_the_meter() {
    for name in ["vibrato", "goals", "settings", "film", "octaves", "trill"] {
        let mut script = Vec::new();
        write_script(kind_named(name).unwrap(), 9, 6_000, Some(1), &mut script).unwrap();
        let mut program = Program::default();
        let (mut answers, mut pitched, mut sum) = (Vec::new(), 0, 0);
        for line in script.split_inclusive(|&byte| byte == b'\n') {
            answers.clear();
            let before = program.tuner().count();
            program.read(line, &mut answers);
            // A block of one that was taken; the last line of a script has three.
            if !line.ends_with(b"\n") || program.tuner().count() != before + 1 {
                continue;
            }
            if let Meter::Pitched(figures) = program.tuner().meter() {
                pitched += 1;
                sum += (65_536.0 * f64::from(figures.rate) - 65_536.0).abs() as u64;
            }
        }
        // The last line is no block of one, and is left out.
        let end = script[..script.len() - 1]
            .iter()
            .rposition(|&byte| byte == b'\n')
            .unwrap();
        let lines = numbers(&report_of(&script[..=end]));
        let total = lines.last().unwrap();
        assert_eq!([total[1], total[4]], [pitched, sum], "{name}");
        assert!(pitched > 0, "{name}");
    }
}

/// Each take of the kind that is cut has the same figures in every cutting.
#[test]
fn cuttings_have_the_same_figures() {
    let script = script(kind_named("cuts").unwrap(), 3, 30_000);
    let lines = numbers(&report_of(&script));
    // The first is the opening's, the last the total.
    let takes = lines[1..lines.len() - 1].chunks(CUTTINGS.len());
    for cuttings in takes {
        assert_eq!(cuttings.len(), CUTTINGS.len());
        assert!(cuttings.iter().all(|take| *take == cuttings[0]));
        assert!(cuttings[0][1] > 0);
    }
}

/// A read that fails: nothing is printed, and standard error says so.
#[test]
fn half_a_report_is_worse_than_none() {
    let report = |input: Stdio| {
        let mut command = Command::new(env!("CARGO_BIN_EXE_report"));
        command.stdin(input).output().unwrap()
    };
    let output = report(Stdio::null());
    assert_eq!(output.status.code(), Some(0));
    assert_eq!(output.stdout, NOTHING.repeat(2).into_bytes());
    let output = report(File::open("/").unwrap().into());
    assert_eq!(output.status.code(), Some(1));
    assert!(output.stdout.is_empty() && output.stderr.starts_with(b"report: "));
}
