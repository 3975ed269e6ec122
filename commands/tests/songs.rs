//! Standard MIDI Files: the commands' reader beside the independent one, and
//! what lines are made of files. DAXFOLIN_SONGS says how many files, DAXFOLIN_SEED
//! which.

mod played;

use commands::midi::{line, played as keys_of, words, Choice, Key, Line};
use daxfolin::smf::{self, Refused};
use independent::generator::songs::Songs as Source;
use independent::songs::{Case, Independent};
use played::Played;
use std::path::Path;
use words::end::End;

#[test]
fn two_readers_agree() {
    let asked = |name, unless| std::env::var(name).map_or(unless, |n| n.parse().unwrap());
    let mut source = Source::seeded(asked("DAXFOLIN_SEED", 20_261_116));
    for number in 0..asked("DAXFOLIN_SONGS", 20_000) {
        let case = source.case();
        if case.said(&Independent) != case.said(&Played) {
            let (right, got) = (case.answer(&Independent), case.answer(&Played));
            panic!("file {number}: {case:?}\nright {right}\ngot   {got}");
        }
    }
}

fn chunk(name: &[u8; 4], body: &[u8]) -> Vec<u8> {
    let size = (body.len() as u32).to_be_bytes();
    [&name[..], &size, body].concat()
}

fn file(format: u16, division: u16, tracks: &[&[u8]]) -> Vec<u8> {
    let header = [format, tracks.len() as u16, division];
    let mut file = chunk(b"MThd", &header.map(u16::to_be_bytes).concat());
    for track in tracks {
        file.extend(chunk(b"MTrk", track));
    }
    file
}

fn read(file: &[u8], hertz: u32, choice: Choice) -> Line {
    keys_of(&smf::read(file).unwrap(), hertz, &choice)
}

/// Sample and key, below 0 where it goes up.
fn shown(line: &Line) -> Vec<(u64, i32)> {
    let sign = |key: &Key| i32::from(key.key) * if key.down { 1 } else { -1 };
    line.keys
        .iter()
        .map(|key| (key.sample, sign(key)))
        .collect()
}

const END: [u8; 4] = [0, 0xFF, 0x2F, 0];

/// A key down at tick 1, up at tick 97, at the tempo that is there without a word.
fn one_note() -> Vec<u8> {
    [&[1, 0x90, 60, 64, 96, 0x80, 60, 0][..], &END].concat()
}

#[test]
fn ticks_are_rounded_down_to_samples_once() {
    let file = file(0, 96, &[&one_note()]);
    // 500,000 microseconds a quarter of 96 ticks: a tick is 229.6875 samples at 44,100, and 250 at 48,000
    let choice = Choice::default();
    assert_eq!(
        shown(&read(&file, 44_100, choice)),
        [(229, 60), (22_279, -60)]
    );
    assert_eq!(
        shown(&read(&file, 48_000, choice)),
        [(250, 60), (24_250, -60)]
    );
}

#[test]
fn tempos_of_any_track_count_and_nothing_is_rounded_between_them() {
    let tempo =
        |delta: u8, tempo: u32| [&[delta, 0xFF, 0x51, 3], &tempo.to_be_bytes()[1..]].concat();
    let conductor = [tempo(0, 333_333), tempo(1, 333_334), tempo(1, 1_000_000)].concat();
    let keys = [&[3, 0x91, 60, 1, 0, 60, 0][..], &END].concat();
    let file = file(1, 1, &[&keys, &conductor]);
    // 333,333 + 333,334 + 1,000,000 microseconds: 73,500.0147 samples
    assert_eq!(
        shown(&read(&file, 44_100, Choice::default())),
        [(73_500, 60), (73_500, -60)]
    );
}

#[test]
fn film_has_frames() {
    let at = |division: u16, ticks: u32, hertz: u32| {
        let [a, b, c] = [14, 7, 0].map(|shift| (ticks >> shift & 127) as u8);
        let track = [&[a | 128, b | 128, c, 0x90, 60, 1][..], &END].concat();
        read(&file(0, division, &[&track]), hertz, Choice::default()).keys[0].sample
    };
    // 25 frames of 40 parts: milliseconds
    assert_eq!(at(0xE728, 1_000, 44_100), 44_100);
    assert_eq!(at(0xE728, 1_001, 44_100), 44_144);
    assert_eq!(at(0xE80A, 240, 48_000), 48_000);
    assert_eq!(at(0xE204, 120, 48_000), 48_000);
    // 29 is 30,000 frames in 1001 seconds
    assert_eq!(at(0xE301, 30_000, 48_000), 1_001 * 48_000);
    assert_eq!(at(0xE301, 1, 48_000), 1_601);
}

#[test]
fn offsets_move_keys_and_none_comes_before_the_take() {
    let file = file(0, 96, &[&one_note()]);
    let at = |offset| {
        let offset = Choice {
            offset,
            ..Choice::default()
        };
        shown(&read(&file, 48_000, offset))
    };
    assert_eq!(at(1), [(298, 60), (24_298, -60)]);
    assert_eq!(at(-5), [(10, 60), (24_010, -60)]);
    assert_eq!(at(-6), [(0, 60), (23_962, -60)]);
    assert_eq!(at(i64::MIN), [(0, 60), (0, -60)]);
    assert_eq!(at(i64::MAX), [(u64::MAX, 60), (u64::MAX, -60)]);
}

#[test]
fn channels_tracks_and_notes_are_chosen() {
    let first = [&[0, 0x90, 60, 1, 0, 0x95, 61, 1, 9, 0xE0, 1, 2][..], &END].concat();
    let second = [&[0, 0x90, 127, 1, 0, 0x90, 0, 1, 9, 0x80, 0, 1][..], &END].concat();
    let file = file(1, 9, &[&first, &second]);
    let keys = |choice| {
        let line = read(&file, 48_000, choice);
        let keys: Vec<i32> = shown(&line).iter().map(|key| key.1).collect();
        (keys, line.dropped)
    };
    let all = Choice::default();
    let line = read(&file, 48_000, all);
    assert_eq!((line.tracks, line.channels[0], line.channels[5]), (2, 3, 1));
    assert_eq!(keys(all), (vec![60, 61, 127, 0, 0, -60, -61, -127], 0));
    let channel = |channel| Choice {
        channel: Some(channel),
        ..all
    };
    assert_eq!(keys(channel(6)), (vec![61, -61], 0));
    assert_eq!(keys(channel(2)), (vec![], 0));
    let track = |track| Choice {
        track: Some(track),
        ..all
    };
    assert_eq!(keys(track(1)), (vec![60, 61, -60, -61], 0));
    assert_eq!(keys(track(2)), (vec![127, 0, 0, -127], 0));
    let moved = |transpose| Choice { transpose, ..all };
    assert_eq!(keys(moved(1)), (vec![61, 62, 1, -1, -61, -62], 1));
    assert_eq!(keys(moved(-1)), (vec![59, 60, 126, -59, -60, -126], 1));
    assert_eq!(keys(moved(i32::MIN)), (vec![], 4));
    let said = |choice, past| read(&file, 48_000, choice).remarks(&choice, past);
    let channels = "there are notes on channels 1, 6, and all are played; --channel chooses one";
    assert_eq!(said(all, 0), [channels]);
    assert!(said(channel(6), 0).is_empty());
    assert_eq!(said(channel(2), 0), ["no note of the file is played"]);
    let left = "1 notes have no key when they are moved, and are left out";
    let behind = "3 keys come behind the take's end";
    assert_eq!(said(moved(1), 3), [channels, left, behind]);
}

#[test]
fn what_is_refused_has_a_sentence_with_its_place() {
    let said = |bytes: &[u8], choice: &Choice| match line(Path::new("a.mid"), bytes, 48_000, choice)
    {
        Ok(_) => "taken".to_string(),
        Err(End::File(why)) => why,
        Err(_) => "another end".to_string(),
    };
    let good = file(1, 96, &[&one_note()]);
    let all = Choice::default();
    assert_eq!(said(&good, &all), "taken");
    let second = Choice {
        track: Some(2),
        ..all
    };
    assert_eq!(said(&good, &second), "a.mid: there is no track 2: it has 1");
    assert_eq!(
        said(b"RIFF", &all),
        "a.mid: 30, this is no Standard MIDI File"
    );
    assert_eq!(
        said(&file(2, 96, &[&one_note()]), &all),
        "a.mid: byte 9: 31, the format is not 0 or 1; files of format 2 hold several songs"
    );
    let mut damaged = good.clone();
    damaged[25] = 200;
    assert_eq!(
        said(&damaged, &all),
        "a.mid: byte 25: 37, a status byte stands within a message"
    );
    // every refusal has words of its own
    let number = |number| words(Refused { number, at: 0 });
    let all: Vec<String> = (30..=41).map(number).collect();
    let mut once = all.clone();
    once.dedup();
    assert_eq!(all, once);
}

#[test]
fn a_track_without_an_end_of_ticks_is_refused() {
    let longest = [0xFF, 0xFF, 0xFF, 0x7F, 0xF0, 0];
    let endless = |times: usize| [longest.repeat(times), END.to_vec()].concat();
    for (times, number) in [(1_048_576, 0), (1_048_577, 40)] {
        let case = Case {
            hertz: 48_000,
            choice: Default::default(),
            file: file(0, 1, &[&endless(times)]),
        };
        let said = case.said(&Played);
        assert!(said == case.said(&Independent));
        assert_eq!(
            said.err().map_or(0, |wrong| wrong.number),
            number,
            "{times}"
        );
    }
}
