//! Every branch of documents 01 and 02 is reached by the scripts of some kind,
//! those of voices by scripts with voices, and all others by the night.

use independent::generator::kinds::{kind_named, KINDS};
use independent::generator::night::{write_night, NIGHT};
use independent::generator::script::{script, write_script};
use independent::generator::voices::script_with_voices;
use independent::lines::{answers_to, Program, Record};
use independent::statistics::Statistics;
use independent::table::{is_rate, notes_at, period_of, CD, FILM};
use independent::tuner::Meter;
use independent::voice_lines::answers_with_voices;
use independent::voice_statistics::VoiceStatistics;
use std::collections::{HashMap, HashSet};

/// Samples in each script.
const SAMPLES: usize = 200_000;

/// Each counter, and the kind and seed whose script reaches it.
const REACHED: &[(&str, &str, u64)] = &[
    ("searches_without_low", "cycles", 1),
    ("searches_without_second_low", "brim", 1),
    ("finds_by_long_low", "pulses", 1),
    ("finds_by_first_low", "noise", 1),
    ("finds_by_second_low", "ones", 1),
    ("finds_tied", "squares", 2),
    ("lows_level_with_next", "squares", 2),
    ("losses_by_eps", "noise", 1),
    ("losses_by_floor", "tails", 2),
    ("losses_by_jump", "pulses", 1),
    ("steps", "tones", 1),
    ("bests_tied", "soft", 1),
    ("bests_first_of_eight", "hollow", 2),
    ("bests_last_of_eight", "steps", 1),
    ("vertices", "vibrato", 1),
    ("vertices_at_exact_half", "halves", 1),
    ("offsets_of_minus_128", "pulses", 1),
    ("offsets_of_plus_128", "pulses", 1),
    ("periods_of_4096", "glides", 1),
    ("periods_of_225280", "glides", 1),
    ("moves_down", "settings", 2),
    ("moves_up", "glides", 1),
    ("moves_stopped_at_16", "glides", 1),
    ("moves_stopped_at_880", "glides", 1),
    ("steps_at_48000", "film", 1),
    ("notes_of_32_at_44100", "tones", 1),
    ("notes_of_100_at_44100", "glides", 192),
    ("notes_of_33_at_48000", "film", 1),
    ("notes_of_101_at_48000", "film", 1),
    ("notes_of_102_at_48000", "film", 1),
    ("notes_tied", "ones", 1),
    ("steps_past_a_key", "played", 1),
    ("steps_without_key", "melody", 1),
    ("steps_with_key_below_table", "outside", 1),
    ("steps_with_key_above_table", "outside", 1),
    ("steps_by_key", "melody", 1),
    ("raw_rates_too_low", "octaves", 1),
    ("raw_rates_too_high", "octaves", 1),
    ("raw_rates_of_32767", "octaves", 1),
    ("raw_rates_of_32768", "octaves", 1),
    ("raw_rates_rounded_to_32768", "octaves", 1),
    ("raw_rates_of_131072", "octaves", 1),
    ("raw_rates_of_131073", "octaves", 1),
    ("steps_at_default_decay", "opening", 1),
    ("remainders_added", "goals", 1),
    ("rates_raised_by_remainder", "goals", 1),
    ("remainders_past_decay_0", "decays", 1),
    ("goals_reached_from_below", "goals", 1),
    ("goals_reached_from_above", "goals", 1),
    ("goals_held_over_remainder", "goals", 1),
    ("notes_changed_over_remainder", "keys", 1),
    ("remainders_cleared_by_loss", "decays", 1),
    ("remainders_cleared_by_reset", "decays", 1),
    ("remainders_cleared_by_start", "decays", 1),
    ("decays_changed_over_remainder", "decays", 1),
    ("modes_changed_over_remainder", "keys", 1),
    ("channels_changed_over_remainder", "keys", 1),
    ("keys_struck_over_remainder", "keys", 1),
    ("keys_released_over_remainder", "keys", 1),
    ("positions_level", "level", 1),
    ("positions_1000_behind", "brink", 1),
    ("cycles_repeated", "shifted", 1),
    ("cycles_dropped", "shifted", 2),
    ("reads_before_take", "rough", 1),
    ("reads_between", "tones", 1),
    ("blocks_of_1", "cuts", 1),
    ("blocks_of_512", "cuts", 1),
    ("blocks_begun_between_searches", "cuts", 1),
    ("blocks_begun_between_steps", "cuts", 1),
    ("values_held_above", "squares", 2),
    ("values_held_below", "squares", 2),
    ("bytes_of_real_time", "bytes", 1),
    ("bytes_of_real_time_inside", "pieces", 1),
    ("bytes_of_system", "bytes", 1),
    ("halves_ended_by_system", "pieces", 1),
    ("halves_ended_by_status", "bytes", 1),
    ("data_passed_over", "pieces", 1),
    ("messages_of_one_byte", "played", 1),
    ("messages_of_other_channels", "played", 1),
    ("messages_of_other_sorts", "played", 1),
    ("notes_on", "trill", 1),
    ("notes_on_past_a_key", "trill", 1),
    ("releases_by_note_off", "trill", 1),
    ("releases_by_velocity_0", "melody", 1),
    ("releases_of_other_keys", "trill", 1),
    ("calls_ending_in_half", "pieces", 1),
    ("keys_forgotten_by_reset", "played", 1),
    ("keys_forgotten_by_channel", "pieces", 1),
    ("halves_forgotten_by_reset", "pieces", 1),
    ("halves_forgotten_by_channel", "pieces", 1),
    ("starts_without_rate", "rates", 1),
    ("starts_at_44100", "rates", 1),
    ("starts_at_48000", "rates", 1),
    ("rates_raised_by_start", "rates", 1),
    ("rates_lowered_by_start", "rates", 1),
    ("rates_lowered_without_rate", "rates", 1),
    ("rates_refused_before_settings", "choices", 1),
    ("starts_refused_at_48000", "rates", 1),
    ("changes_at_48000", "rates", 1),
    ("resets_at_48000", "rates", 1),
    ("midis_at_48000", "ends", 1),
    ("key_32_at_44100", "ends", 1),
    ("key_33_at_44100", "ends", 1),
    ("key_100_at_44100", "ends", 1),
    ("key_101_at_44100", "ends", 1),
    ("key_102_at_44100", "ends", 1),
    ("key_103_at_44100", "ends", 1),
    ("key_32_at_48000", "ends", 1),
    ("key_33_at_48000", "ends", 1),
    ("key_100_at_48000", "ends", 1),
    ("key_101_at_48000", "ends", 1),
    ("key_102_at_48000", "ends", 1),
    ("key_103_at_48000", "ends", 1),
    ("rows", "rests", 1),
    ("rows_left_out", "rows", 1),
    ("lists_without_row", "rough", 1),
    ("rows_without_rest", "rows", 1),
    ("rows_of_the_same_note", "rests", 1),
    ("rows_of_5_samples", "rows", 1),
    ("rows_outside_the_tables", "outside", 1),
    ("settings_changed_within_row", "within", 1),
    ("modes_changed_within_row", "within", 1),
    ("keys_changed_within_row", "within", 1),
    ("blocks_given_again_within_row", "rests", 1),
    ("samples_at_higher_rate", "takes", 0),
    ("samples_at_lower_rate", "takes", 0),
    ("takes_without_samples", "takes", 0),
    ("takes_pitched_in_part", "takes", 0),
    ("takes_with_remainder", "takes", 0),
    ("inputs_of_999_takes", "takes", 0),
    ("inputs_of_1000_takes", "takes", 1),
    ("inputs_of_1001_takes", "takes", 2),
    ("answer_0", "endless", 1),
    ("answer_1", "mixed", 1),
    ("answer_2", "hostile", 1),
    ("answer_3", "rough", 1),
    ("answer_5", "rough", 1),
    ("answer_6", "rough", 1),
    ("answer_8", "choices", 1),
    ("answer_10", "unreadable", 1),
    ("answer_11", "choices", 1),
    ("answer_12", "choices", 1),
    ("answer_13", "choices", 1),
    ("answer_14", "bytes", 1),
    ("answer_15", "bytes", 1),
    ("answer_16", "choices", 1),
];

/// No script reaches these: the line program always has room for 512 samples
/// out (4), its limit needs 1,000,000,000 samples (7), and no tuner reached
/// from a start by calls is out of range (9). The calls' own tests reach them.
const NEVER: [&str; 3] = ["answer_4", "answer_7", "answer_9"];

/// For a list that is full and for a thousand takes the night is too short, and
/// a take in which nothing is sung is of no use there.
const NOT_IN_THE_NIGHT: [&str; 5] = [
    "rows_left_out",
    "takes_without_samples",
    "inputs_of_999_takes",
    "inputs_of_1000_takes",
    "inputs_of_1001_takes",
];

fn statistics(kind: &str, seed: u64, samples: usize) -> Statistics {
    let script = script(kind_named(kind).unwrap(), seed, samples);
    answers_to(&script).1
}

fn count(seen: &Statistics, name: &str) -> u64 {
    let counters = seen.counters();
    let counter = counters.iter().find(|counter| counter.0 == name);
    counter.expect("the counter has this name").1
}

#[test]
fn every_branch_is_reached() {
    let mut runs: HashMap<(&str, u64), Statistics> = HashMap::new();
    let mut all = Statistics::default();
    for &(_, kind, seed) in REACHED {
        runs.entry((kind, seed)).or_insert_with(|| {
            let seen = statistics(kind, seed, SAMPLES);
            all.add(&seen);
            seen
        });
    }
    let in_table: HashMap<&str, (&str, u64)> = REACHED
        .iter()
        .map(|&(name, kind, seed)| (name, (kind, seed)))
        .collect();
    for (name, total) in all.counters() {
        let Some(&(kind, seed)) = in_table.get(name.as_str()) else {
            assert!(NEVER.contains(&name.as_str()), "{name} is in no table");
            assert_eq!(total, 0, "{name}");
            continue;
        };
        let count = count(&runs[&(kind, seed)], &name);
        assert!(count > 0, "{name} by {kind} {seed}");
    }
    assert_eq!(in_table.len() + NEVER.len(), all.counters().len());
    let kinds: HashSet<&str> = REACHED.iter().map(|row| row.1).collect();
    assert_eq!(kinds.len(), KINDS.len(), "every kind is of use");
    // Reading comes near to 1,000 samples behind and never farther.
    assert!((65_000_000..=65_536_000).contains(&all.largest_behind));
}

/// What a kind is there to reach, it reaches in the night too.
#[test]
fn the_night_reaches_every_branch() {
    for &(kind, seed, samples) in NIGHT {
        let seen = statistics(kind, seed, samples);
        for row in REACHED.iter().filter(|row| row.1 == kind) {
            assert!(count(&seen, row.0) > 0, "{} by {kind} {seed}", row.0);
        }
    }
    let mut night = Vec::new();
    write_night(&mut night).unwrap();
    let (_, seen) = answers_to(&night);
    for (name, count) in seen.counters() {
        let unreached = NEVER.iter().chain(&NOT_IN_THE_NIGHT);
        let reachable = !unreached.into_iter().any(|other| *other == name);
        assert_eq!(count > 0, reachable, "{name}: {count}");
    }
}

/// Kinds and seeds whose scripts with voices reach between them whatever a voice
/// may do: every interval, keys far from low and high tones and outside the table,
/// losses, starts, resets and repeats at either rate, and full-scale sounds.
const VOICED: [(&str, u64); 5] = [
    ("takes", 1),
    ("ends", 1),
    ("cuts", 1),
    ("outside", 2),
    ("squares", 1),
];

#[test]
fn every_branch_of_voices_is_reached() {
    let mut all = VoiceStatistics::default();
    for (kind, seed) in VOICED {
        let script = script_with_voices(kind_named(kind).unwrap(), seed, 70_000);
        all.add(&answers_with_voices(&script).1);
    }
    for (name, count) in all.counters() {
        assert!(count > 0, "{name}");
    }
}

/// Every choice of good and bad settings, to change to, and to start with at a
/// rate that there is and at one that there is not, with a block taken after each.
#[test]
fn the_night_has_every_choice_of_settings() {
    let &(_, seed, samples) = NIGHT.iter().find(|row| row.0 == "choices").unwrap();
    let script = script(kind_named("choices").unwrap(), seed, samples);
    let answers = String::from_utf8(answers_to(&script).0).unwrap();
    let lines = script.split(|&byte| byte == b'\n').map(Record::on);
    let mut met = HashSet::new();
    for (record, answer) in lines.zip(answers.lines()) {
        let (word, hertz, settings) = match record {
            Some(Record::Start(hertz, settings)) => ("start", hertz.unwrap_or(CD), settings),
            Some(Record::Change(settings)) => ("change", CD, settings),
            _ => continue,
        };
        let bad = [
            !is_rate(hertz),
            !(1..=4_095).contains(&settings.scale),
            settings.eps > 409,
            settings.decay > 255,
            !(1..=1_000_000).contains(&settings.floor),
        ];
        let first = bad.iter().position(|&bad| bad);
        let number = first.map_or("0", |place| ["16", "8", "11", "12", "13"][place]);
        assert_eq!(answer, number, "{settings:?} at {hertz}");
        met.insert((word, bad));
    }
    assert_eq!(met.len(), 16 + 32);
}

/// At 48,000 every note of the table is wanted: the meter shows each of their
/// periods after some short block.
#[test]
fn every_note_at_48000_is_wanted() {
    let mut script = Vec::new();
    let film = kind_named("film").unwrap();
    write_script(film, 4, SAMPLES, Some(16), &mut script).unwrap();
    let mut program = Program::default();
    let mut wanted = HashSet::new();
    for line in script.split_inclusive(|&byte| byte == b'\n') {
        program.read(line, &mut Vec::new());
        if let Meter::Pitched(figures) = program.tuner().meter() {
            wanted.insert((256.0 * figures.wanted_period) as i64);
        }
    }
    let table: HashSet<i64> = notes_at(FILM).map(|note| period_of(FILM, note)).collect();
    assert_eq!(wanted, table);
}

#[test]
fn block_numbers_wrap() {
    let script = script(kind_named("ones").unwrap(), 1, 70_000);
    let text = String::from_utf8(script).unwrap();
    let (answers, seen) = answers_to(text.as_bytes());
    let answers = String::from_utf8(answers).unwrap();
    let taken = |number: &str| {
        let lines = text.lines().zip(answers.lines());
        lines
            .filter(|(line, answer)| line.starts_with(number) && answer.starts_with("0\t1\t"))
            .count()
    };
    assert_eq!(taken("block\t65535\t"), 1);
    assert_eq!(taken("block\t0\t"), 2);
    assert_eq!(taken("block\t1\t"), 2);
    assert_eq!(seen.answers[5], 0);
}

/// No tuner reached from a start by calls is ever answered 9, and without a
/// period nothing is kept.
#[test]
fn reached_tuners_are_good() {
    let kinds = ["mixed", "rough", "glides", "settings"];
    let played = ["played", "octaves", "pieces", "bytes"];
    let held = ["goals", "decays", "keys"];
    let filmed = ["film", "rates", "ends", "cuts"];
    let kinds = kinds.into_iter().chain(played).chain(held).chain(filmed);
    for (kind, seed) in kinds.map(|kind| (kind, 3)) {
        let script = script(kind_named(kind).unwrap(), seed, 50_000);
        let mut program = Program::default();
        let mut answers = Vec::new();
        for line in script.split_inclusive(|&byte| byte == b'\n') {
            program.read(line, &mut answers);
            let tuner = program.tuner();
            assert!(tuner.is_good());
            let pitched = matches!(tuner.meter(), Meter::Pitched(_));
            assert!(pitched || tuner.standing().kept == 0);
        }
    }
}
