//! Mending, sentence by sentence of document 02's K9 and of its readings.

mod common;

use common::{fmt, fmt_of, resized, riff, size_of, then, with_word};
use independent::mend::{mend, mended, sizes, Size};
use independent::table::{CD, FILM};
use independent::wave::read;

const ALL: u32 = 4_294_967_295;

/// A file with four samples.
fn plain() -> Vec<u8> {
    riff(&[("fmt ", &fmt(CD)), ("data", &[7; 8])])
}

/// The changes as place, old and new value.
fn changes(file: &[u8]) -> Vec<(u64, u32, u32)> {
    let changes = mend(file).unwrap().into_iter();
    changes
        .map(|Size { place, old, new }| (place, old, new))
        .collect()
}

fn stays(file: &[u8]) {
    assert_eq!(changes(file), []);
}

fn refusal(file: &[u8]) -> u32 {
    match mend(file) {
        Ok(_) => 0,
        Err(refusal) => refusal,
    }
}

#[test]
fn a_whole_file_stays() {
    stays(&plain());
    stays(&riff(&[("fmt ", &fmt(FILM)), ("data", &[7; 8])]));
    stays(&riff(&[
        ("LIST", b"odd"),
        ("fmt ", &fmt(CD)),
        ("data", &[7; 8]),
        ("tail", b"odd"),
    ]));
}

#[test]
fn a_data_size_of_0_or_4294967295_or_past_the_end_reaches_the_end() {
    for bad in [0, ALL, 4_294_967_294, 9, 10] {
        let file = resized(plain(), "data", bad);
        assert_eq!(changes(&file), [(40, bad, 8)]);
    }
    // Even where a LIST follows.
    let list = riff(&[("fmt ", &fmt(CD)), ("data", &[]), ("LIST", b"more")]);
    assert_eq!(changes(&list), [(40, 0, 12)]);
}

#[test]
fn less_one_byte_if_that_number_is_odd() {
    for bad in [0, ALL, 10] {
        let file = with_word(resized(then(plain(), &[7]), "data", bad), 4, 45);
        assert_eq!(changes(&file), [(40, bad, 8)]);
    }
}

#[test]
fn a_data_size_inside_the_file_stays_odd_or_not() {
    for size in 1..=8 {
        let file = resized(plain(), "data", size);
        stays(&file);
        assert_eq!(read(&file, 9).is_ok(), size % 2 == 0);
    }
}

#[test]
fn a_data_size_of_0_is_left_when_the_header_ends_the_file() {
    stays(&riff(&[("fmt ", &fmt(CD)), ("data", &[])]));
}

#[test]
fn with_one_byte_behind_the_new_size_is_0_and_nothing_changes() {
    let file = with_word(
        then(riff(&[("fmt ", &fmt(CD)), ("data", &[])]), &[7]),
        4,
        37,
    );
    stays(&file);
    assert_eq!(sizes(&file).unwrap()[1].new, 0);
    // Another bad size becomes 0.
    assert_eq!(changes(&resized(file, "data", ALL)), [(40, ALL, 0)]);
}

#[test]
fn a_bad_riff_size_becomes_the_file_s_length_less_8() {
    for bad in [0, ALL, 4_294_967_294, 45, 46] {
        assert_eq!(changes(&with_word(plain(), 4, bad)), [(4, bad, 44)]);
    }
    // Bytes behind the data too.
    let file = with_word(then(plain(), &[7; 5]), 4, 0);
    assert_eq!(changes(&file), [(4, 0, 49)]);
}

#[test]
fn a_riff_size_that_stops_short_of_the_mended_data_s_end_is_bad_too() {
    for short in [1, 4, 27, 36, 42, 43] {
        assert_eq!(changes(&with_word(plain(), 4, short)), [(4, short, 44)]);
    }
    // Of the mended data, not of the data as it was.
    let file = with_word(resized(plain(), "data", 0), 4, 36);
    assert_eq!(changes(&file), [(4, 36, 44), (40, 0, 8)]);
    let file = resized(with_word(then(plain(), &[7; 2]), 4, 44), "data", ALL);
    assert_eq!(changes(&file), [(4, 44, 46), (40, ALL, 10)]);
}

#[test]
fn a_riff_size_that_reaches_the_data_s_end_without_the_pad_byte_stays() {
    let odd = riff(&[("fmt ", &fmt(CD)), ("data", &[7; 7])]);
    assert_eq!(odd.len(), 52);
    stays(&with_word(odd.clone(), 4, 43));
    assert_eq!(changes(&with_word(odd, 4, 42)), [(4, 42, 44)]);
    // A tail behind the RIFF chunk is no matter.
    stays(&then(plain(), b"tail\x09\0\0\0"));
}

#[test]
fn place_is_the_size_s_and_the_riff_size_stands_first() {
    let file = riff(&[("LIST", b"odd"), ("fmt ", &fmt(CD)), ("data", &[7; 8])]);
    let at = size_of(&file, "data");
    assert_eq!(at, 52);
    let file = with_word(resized(file, "data", 0), 4, 0);
    assert_eq!(changes(&file), [(4, 0, 56), (52, 0, 8)]);
}

#[test]
fn no_byte_but_those_eight_alters_and_mending_twice_changes_nothing_more() {
    let whole = riff(&[("LIST", b"odd"), ("fmt ", &fmt(CD)), ("data", &[7; 8])]);
    for riff_size in [0, 11, ALL] {
        for data_size in [0, 3, 99, ALL] {
            let file = with_word(resized(whole.clone(), "data", data_size), 4, riff_size);
            let after = mended(&file, &mend(&file).unwrap());
            for (place, (old, new)) in file.iter().zip(&after).enumerate() {
                assert!(old == new || (4..8).contains(&place) || (52..56).contains(&place));
            }
            assert_eq!(after.len(), file.len());
            stays(&after);
        }
    }
}

#[test]
fn the_walk_does_not_look_at_the_riff_size() {
    let file = riff(&[("fmt ", &fmt(CD)), ("LIST", b"odd"), ("data", &[7; 8])]);
    for size in [0, 4, 12, 30] {
        assert_eq!(changes(&with_word(file.clone(), 4, size)), [(4, size, 56)]);
    }
}

#[test]
fn not_riff_wave_is_20_first() {
    for length in 0..12 {
        assert_eq!(refusal(&plain()[..length]), 20);
    }
    assert_eq!(refusal(&[b"RF64", &plain()[4..]].concat()), 20);
    assert_eq!(refusal(&[b"RIFX", &plain()[4..]].concat()), 20);
}

/// The files are as the kernel gives them, hardly touched, and so take no room.
#[test]
fn a_file_of_2147483648_bytes_is_29_by_its_length_alone() {
    let longest = 2_147_483_647;
    let mut file = vec![0; longest + 1];
    assert_eq!(refusal(&file), 20);
    let list = resized(riff(&[("LIST", &[])]), "LIST", ALL);
    file[..20].copy_from_slice(&list);
    assert_eq!(refusal(&file), 29);
    file.pop();
    assert_eq!(refusal(&file), 26);
    file[..44].copy_from_slice(&resized(plain(), "data", 0)[..44]);
    // An odd rest: less one byte.
    let (whole, rest) = (longest as u32 - 8, longest as u32 - 45);
    assert_eq!(changes(&file), [(4, 44, whole), (40, 0, rest)]);
    file.push(0);
    assert_eq!(refusal(&file), 29);
}

#[test]
fn no_fmt_that_is_taken_before_the_data_or_the_end_is_26() {
    assert_eq!(refusal(&riff(&[])), 26);
    assert_eq!(refusal(&riff(&[("LIST", b"more")])), 26);
    assert_eq!(refusal(&riff(&[("data", &[7; 8])])), 26);
    assert_eq!(refusal(&riff(&[("data", &[7; 8]), ("fmt ", &fmt(CD))])), 26);
    for length in 0..16 {
        let body = &fmt(CD)[..length];
        assert_eq!(refusal(&riff(&[("fmt ", body), ("data", &[7; 8])])), 26);
        // It says 16, and the file ends before. 26 before 27.
        assert_eq!(refusal(&plain()[..20 + length]), 26);
    }
    let stereo = fmt_of(1, 2, CD, 4 * CD, 4, 16);
    let extensible = fmt_of(65_534, 1, CD, 2 * CD, 2, 16);
    for bad in [stereo, extensible, fmt(22_050)] {
        assert_eq!(refusal(&riff(&[("fmt ", &bad), ("data", &[7; 8])])), 26);
        // The first one counts.
        let two = [("fmt ", &bad[..]), ("fmt ", &fmt(CD)), ("data", &[7; 8])];
        assert_eq!(refusal(&riff(&two)), 26);
    }
}

#[test]
fn no_data_chunk_reached_is_27() {
    assert_eq!(refusal(&riff(&[("fmt ", &fmt(CD))])), 27);
    for length in 36..44 {
        assert_eq!(refusal(&plain()[..length]), 27, "{length}");
    }
    assert_eq!(refusal(&resized(plain(), "fmt ", 99)), 27);
    let past = riff(&[("fmt ", &fmt(CD)), ("LIST", b"more"), ("data", &[7; 8])]);
    assert_eq!(refusal(&resized(past.clone(), "LIST", ALL)), 27);
    assert_eq!(refusal(&resized(past, "LIST", 0)), 27);
}

#[test]
fn a_file_that_is_cut_anywhere_behind_its_header_is_mended_and_read() {
    for length in 44..=52 {
        let cut = plain()[..length].to_vec();
        let after = mended(&cut, &mend(&cut).unwrap());
        let samples = (length - 44) / 2;
        assert_eq!(read(&after, 4), Ok((CD, vec![0x0707; samples])));
    }
}
