//! Lists as Standard MIDI Files, and back: a take's list played as keys in
//! keyboard mode gives the samples that the scale gave.

mod singers;

use commands::midi::{by_keys, played, Choice, Key};
use commands::octave::nearest;
use commands::rows::Row;
use commands::score::score;
use daxfolin::{smf, wave, Settings, CD, FILM, MOST_ROWS};
use independent::generator::random::Random;
use singers::{pitches, sung, swinging, tuned};

/// The keys that a file of rows plays.
fn keys(rows: &[Row], samples: u64, hertz: u32) -> Vec<Key> {
    let read = smf::read(&score(rows, samples, hertz)).expect("it is a right file");
    played(&read, hertz, &Choice::default()).keys
}

/// A key down and up at the samples of each row.
fn right(rows: &[Row]) -> Vec<Key> {
    let key = |row: &Row| {
        let at = |sample, down| Key {
            sample,
            key: row.note,
            down,
        };
        [at(row.first, true), at(row.end(), false)]
    };
    rows.iter().flat_map(key).collect()
}

#[test]
fn rows_are_read_back_at_their_very_samples() {
    let mut chance = Random::seeded(1);
    for round in 0..2_000 {
        let (mut rows, mut at) = (Vec::new(), 0);
        let widest = [3, 700, 100_000, 400_000_000][round % 4];
        while at < 1_000_000_000 && rows.len() < 30 {
            let first = at + chance.next() % widest;
            let length = 1 + chance.next() % widest;
            let note = chance.whole(0, 127) as u8;
            rows.push(Row {
                note,
                first,
                length,
            });
            at = first + length;
        }
        for hertz in [CD, FILM] {
            assert_eq!(keys(&rows, at, hertz), right(&rows), "round {round}");
        }
    }
}

#[test]
fn a_take_without_notes_is_a_file_without_keys() {
    assert_eq!(keys(&[], 0, CD), []);
    let file = score(&[], 1_000_000_000, FILM);
    let read = smf::read(&file).unwrap();
    let end = read.events.last().unwrap();
    assert_eq!((end.what, end.tick), (smf::What::End, 1_000_000_000));
}

/// By scale, then the list as keys, at its own samples, through a file: how many notes, and how many samples differ.
fn again(take: &[i16], hertz: u32, settings: Settings) -> (usize, usize) {
    let (by_scale, rows) = tuned(take, hertz, settings, &[]);
    let keys = keys(&rows, take.len() as u64, hertz);
    let (again, same) = tuned(take, hertz, by_keys(settings), &keys);
    assert_eq!(rows, same);
    let differing = by_scale.iter().zip(&again).filter(|(a, b)| a != b).count();
    (rows.len(), differing)
}

#[test]
fn a_list_played_back_gives_the_samples_that_the_scale_gave() {
    let file = std::fs::read("../examples/sung.wav").expect("the example is there");
    let mut example = vec![0; file.len() / 2];
    let read = wave::read(&file, &mut example).expect("it is a right file");
    example.truncate(read.count);
    let mut takes = vec![(example, read.hertz)];
    for seed in 1..=4 {
        takes.extend([CD, FILM].map(|hertz| (sung(seed, hertz, 7).0, hertz)));
    }
    let major = 0b1010_1011_0101;
    let mut notes = 0;
    for (scale, decay) in [(4095, 230), (major, 0), (1 << 9, 255), (0b1001_0001, 100)] {
        let settings = Settings {
            scale,
            decay,
            ..Settings::default()
        };
        for (take, hertz) in &takes {
            let (rows, differing) = again(take, *hertz, settings);
            assert_eq!(differing, 0, "scale {scale}, decay {decay}");
            notes += rows;
        }
    }
    assert!(notes > 300, "{notes} notes");
}

/// More rows than a list of the library's has.
#[test]
fn a_list_has_any_length() {
    let take = swinging(CD, 60);
    let settings = Settings {
        eps: 409,
        ..Settings::default()
    };
    let (by_scale, rows) = tuned(&take, CD, settings, &[]);
    assert!(rows.len() > MOST_ROWS, "{} rows", rows.len());
    let keys = keys(&rows, take.len() as u64, CD);
    let (again, same) = tuned(&take, CD, by_keys(settings), &keys);
    assert!(rows == same && by_scale == again);
}

/// Singers that are found an octave lower here and there: keys in the sung octave ask for twice the rate there, and nearest ones do not.
#[test]
fn the_octave_matters() {
    let (mut leaps, mut shown) = (0, 0);
    for seed in 1..=8 {
        let (take, meant) = sung(seed, CD, 9);
        let rows: Vec<Row> = meant
            .iter()
            .map(|note| Row {
                note: note.key,
                first: note.first,
                length: note.length,
            })
            .collect();
        let exact = right(&rows);
        let settings = by_keys(Settings::default());
        let (_, found) = tuned(&take, CD, Settings::default(), &[]);
        let sent = nearest(&exact, &found);
        // six semitones and a half
        let near = |&(period, wanted): &(f32, f32)| (0.686..1.457).contains(&(period / wanted));
        let held = |pitch: &(f32, f32)| pitch.1 > 0.0;
        let by_file = pitches(&take, CD, settings, &exact);
        let by_rule = pitches(&take, CD, settings, &sent);
        leaps += by_file
            .iter()
            .filter(|pitch| held(pitch) && !near(pitch))
            .count();
        shown += by_rule.iter().filter(|pitch| held(pitch)).count();
        assert!(by_rule.iter().filter(|pitch| held(pitch)).all(near));
    }
    assert!(leaps > 100, "{leaps} of {shown}");
}
