//! A Standard MIDI File played to a take in a file, as the commands do it; and
//! beside the independent program. DAXFOLIN_PLAYED says how many files that plays,
//! DAXFOLIN_SEED which.

mod singers;

use commands::delivery::Part;
use commands::midi::{by_keys, line, Choice, Key};
use commands::octave::Octave;
use commands::rows::rows;
use commands::score::score;
use commands::{End, Source};
use daxfolin::{wave, Settings, CD, LONGEST_BLOCK};
use independent::generator::random::Random;
use independent::generator::songs::Songs;
use independent::settings::{Settings as Theirs, KEYBOARD};
use independent::smf;
use independent::statistics::Statistics;
use independent::tuner::{Answer, Tuner};
use singers::{play, sung, tuned};
use std::fs::File;
use std::path::Path;

fn right<T>(done: Result<T, End>) -> T {
    match done {
        Ok(done) => done,
        Err(end) => panic!("{end:?}"),
    }
}

/// The example's list as a file, two octaves too high: in the octave found it gives what the scale gave, and exactly as it stands it does not.
#[test]
fn a_list_two_octaves_higher_comes_back_in_the_octave_found() {
    let name = Path::new("../examples/sung.wav");
    let source = right(Source::open(name, |name| File::open(name)));
    let (take, _) = right(source.take());
    let settings = Settings::default();
    let listed = right(rows("test", &source, &take, settings));
    let file = score(&listed, take.count, take.hertz);
    let higher = Choice {
        transpose: 24,
        ..Choice::default()
    };
    let line = right(line(Path::new("list.mid"), &file, take.hertz, &higher));
    assert_eq!((line.dropped, line.channels[0]), (0, listed.len() as u64));
    let keys = |octave: Octave| right(octave.keys("test", &source, &take, settings, &line));

    let bytes = std::fs::read(name).unwrap();
    let mut samples = vec![0; take.count as usize];
    wave::read(&bytes, &mut samples).unwrap();
    let (by_scale, _) = tuned(&samples, take.hertz, settings, &[]);
    let by_file = |octave| {
        let settings = by_keys(settings);
        tuned(&samples, take.hertz, settings, &keys(octave)).0
    };
    assert!(by_file(Octave::Nearest) == by_scale);
    assert!(by_file(Octave::Exact) != by_scale);
    assert_eq!(Octave::of("nearest"), Some(Octave::default()));
    assert_eq!(Octave::of("exact"), Some(Octave::Exact));
    assert_eq!(Octave::of("lower"), None);
}

/// What the independent program makes of a take with the keys that it reads of a file itself.
fn independently(take: &[i16], hertz: u32, keys: &[smf::Key]) -> Vec<i16> {
    let settings = Theirs {
        mode: KEYBOARD,
        ..Theirs::DEFAULT
    };
    let (answer, mut tuner) = Tuner::start(hertz, settings);
    assert_eq!(answer, Answer::Taken);
    let mut seen = Statistics::default();
    let (mut given, mut at, mut number) = (Vec::new(), 0, 0u16);
    let mut keys = keys.iter().peekable();
    while at < take.len() {
        while let Some(key) = keys.next_if(|key| key.sample <= at as u64) {
            let status = if key.down { 0x90 } else { 0x80 };
            tuner.midi(&[status, key.key, 1], &mut seen);
        }
        let next = keys.peek().map_or(u64::MAX, |key| key.sample);
        let to = (take.len().min(at + 97) as u64).min(next) as usize;
        let mut out = [0; LONGEST_BLOCK];
        let (answer, counts) = tuner.block(number, &take[at..to], &mut out, &mut seen);
        assert_eq!(answer, Answer::Taken);
        given.extend_from_slice(&out[..counts.written]);
        (at, number) = (to, number.wrapping_add(1));
    }
    given
}

#[test]
fn the_independent_program_plays_the_same_files() {
    let asked = |name, unless| std::env::var(name).map_or(unless, |n| n.parse().unwrap());
    let mut source = Songs::seeded(asked("DAXFOLIN_SEED", 11));
    let (mut played, files) = (0, asked("DAXFOLIN_PLAYED", 6));
    while played < files {
        let case = source.case();
        let Ok(song) = smf::song(&case.file) else {
            continue;
        };
        let theirs = song.line(case.hertz, &smf::Choice::default());
        let within = theirs.keys.iter().filter(|key| key.sample < 30_000);
        if within.count() < 4 {
            continue;
        }
        played += 1;
        let (mut take, _) = sung(played, case.hertz, 3);
        take.truncate(30_000);
        let name = Path::new("song.mid");
        let ours = right(line(name, &case.file, case.hertz, &Choice::default()));
        let settings = by_keys(Settings::default());
        let (given, _) = tuned(&take, case.hertz, settings, &ours.keys);
        assert!(given == independently(&take, case.hertz, &theirs.keys));
    }
}

/// Every sample is given once and in order, and every key before its sample, whatever the keys.
#[test]
fn nothing_is_lost_at_the_cuts() {
    let (take, _) = sung(3, CD, 2);
    let mut chance = Random::seeded(3);
    for widest in [1, 2, 40, 3_000] {
        let (mut keys, mut sample) = (Vec::new(), 0);
        while sample < take.len() as u64 {
            let down = chance.chance(500);
            keys.push(Key {
                sample,
                key: 60,
                down,
            });
            sample += chance.next() % (widest + 1);
        }
        let (mut given, mut pressed) = (Vec::new(), Vec::new());
        play(&take, &keys, |part| match part {
            Part::Keys(bytes) => pressed.push((given.len() as u64, bytes[0] == 0x90)),
            Part::Block(_, sung) => given.extend_from_slice(sung),
        });
        assert!(given == take);
        assert!(pressed
            .into_iter()
            .eq(keys.iter().map(|key| (key.sample, key.down))));
    }
}
