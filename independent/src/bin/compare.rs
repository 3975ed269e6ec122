//! `compare [--waiting] [--report WORDS] [--notes PROGRAM] [--voices PROGRAM]
//! [--files CASES PROGRAM] FIRST_SEED SEEDS SAMPLES -- COMMAND ARG..`: holds
//! another line program to this one, by a script of each kind for each seed; and
//! its answers to the cuttings of a take to one another. With `--report` also the
//! command of these words, parted by blanks, to `report`, by the same scripts, and
//! with `--notes` PROGRAM to `notes`. With `--voices` PROGRAM to `voices`, by the
//! same scripts with voices for their starts. With `--files` then PROGRAM to
//! `waves`, by so many cases of WAVE files for each seed.

use independent::comparison::{
    compare, compare_files, compare_lists, compare_report, compare_voices, Equal, Host, Unequal,
};
use independent::generator::cuts::CUTTINGS;
use independent::generator::kinds::{Kind, KINDS};
use independent::generator::script::script;
use independent::generator::voices::script_with_voices;
use independent::takes::hold_cuttings;
use independent::words::{words, wrong};
use std::ops::RangeInclusive;
use std::process::ExitCode;
use std::slice::from_ref;
use std::time::Instant;

const USAGE: &str = "compare [--waiting] [--report WORDS] [--notes PROGRAM] [--voices PROGRAM] \
                     [--files CASES PROGRAM] FIRST_SEED SEEDS SAMPLES -- COMMAND ARG..";

struct Task {
    host: Host,
    /// The program that is to print the list of the notes sung in each take.
    notes: Option<String>,
    /// The line program with voices.
    voices: Option<String>,
    /// The command that is to print the report.
    report: Option<Vec<String>>,
    /// So many cases of WAVE files, and the program that is to answer them.
    files: Option<(u64, String)>,
    seeds: RangeInclusive<u64>,
    samples: usize,
    command: Vec<String>,
}

/// None if an argument cannot be read.
fn task(arguments: &[String]) -> Option<Task> {
    let (host, arguments) = match arguments {
        [switch, rest @ ..] if switch == "--waiting" => (Host::Waiting, rest),
        _ => (Host::Streaming, arguments),
    };
    let (report, arguments) = match arguments {
        [switch, words, rest @ ..] if switch == "--report" && !words.trim().is_empty() => {
            let words = words.split_whitespace().map(str::to_string);
            (Some(words.collect()), rest)
        }
        _ => (None, arguments),
    };
    let (notes, arguments) = program("--notes", arguments);
    let (voices, arguments) = program("--voices", arguments);
    let (files, arguments) = match arguments {
        [switch, cases, program, rest @ ..] if switch == "--files" => {
            (Some((cases.parse().ok()?, program.clone())), rest)
        }
        _ => (None, arguments),
    };
    match arguments {
        [first, seeds, samples, dashes, command @ ..] if dashes == "--" && !command.is_empty() => {
            let first: u64 = first.parse().ok()?;
            let more = seeds.parse::<u64>().ok()?.checked_sub(1)?;
            Some(Task {
                host,
                notes,
                voices,
                report,
                files,
                seeds: first..=first.checked_add(more)?,
                samples: samples.parse().ok()?,
                command: command.to_vec(),
            })
        }
        _ => None,
    }
}

/// The program behind this switch, if that stands first, and what is left.
fn program<'a>(switch: &str, arguments: &'a [String]) -> (Option<String>, &'a [String]) {
    match arguments {
        [first, program, rest @ ..] if first == switch => (Some(program.clone()), rest),
        _ => (None, arguments),
    }
}

fn main() -> ExitCode {
    let Some(task) = task(&words(USAGE)) else {
        wrong(USAGE)
    };
    let began = Instant::now();
    let mut all = Equal::default();
    for seed in task.seeds.clone() {
        let mut equal = Equal::default();
        let compared = compare_kinds(seed, &task, &mut equal);
        all.add(&equal);
        if let Err((what, made, unequal)) = compared {
            println!("not equal: {what}, seed {seed}, {unequal}");
            println!("  script    {made}");
            println!("equal before that: {all}");
            return ExitCode::FAILURE;
        }
        println!("seed {seed}: {equal}");
    }
    let (first, last) = (task.seeds.start(), task.seeds.end());
    let (kinds, seconds) = (KINDS.len(), began.elapsed().as_secs_f64());
    println!("equal: {all}; {kinds} kinds, seeds {first} to {last}, {seconds:.1} s");
    ExitCode::SUCCESS
}

/// What differs, the command that wrote the input, and how they differ.
type Difference = (String, String, Unequal);

/// A script of each kind, and then files, up to where the programs differ.
fn compare_kinds(seed: u64, task: &Task, equal: &mut Equal) -> Result<(), Difference> {
    for kind in KINDS {
        let (name, samples) = (kind.name, task.samples);
        let words = format!("{name} {seed} {samples}");
        compare_kind(kind, seed, task, equal).map_err(|(of, unequal)| {
            let what = format!("{of}kind {name}");
            (what, format!("generate {words}"), unequal)
        })?;
        let Some(program) = &task.voices else {
            continue;
        };
        let script = script_with_voices(kind, seed, samples);
        compare_voices(&script, from_ref(program), equal).map_err(|unequal| {
            let what = format!("voices of kind {name}");
            (what, format!("voices --script {words}"), unequal)
        })?;
    }
    let Some((cases, program)) = &task.files else {
        return Ok(());
    };
    compare_files(seed, *cases, from_ref(program), equal).map_err(|unequal| {
        let made = format!("files {seed} {cases}");
        ("files".to_string(), made, unequal)
    })
}

/// Where it is not the answers that differ, what does, before the kind's name.
fn compare_kind(
    kind: &Kind,
    seed: u64,
    task: &Task,
    equal: &mut Equal,
) -> Result<(), (&'static str, Unequal)> {
    let script = script(kind, seed, task.samples);
    let answers = |unequal| ("", unequal);
    let held = compare(&script, &task.command, task.host, equal).map_err(answers)?;
    if kind.cut {
        hold_cuttings(&script, &held.answers, CUTTINGS.len())
            .map_err(|disagreement| ("", Unequal::Cutting(disagreement)))?;
    }
    if let Some(program) = &task.notes {
        compare_lists(&script, &held.lists, from_ref(program), equal)
            .map_err(|unequal| ("notes of ", unequal))?;
    }
    let Some(command) = &task.report else {
        return Ok(());
    };
    compare_report(&script, &held.report, command, equal).map_err(|unequal| ("report of ", unequal))
}
