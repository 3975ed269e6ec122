//! WAVE files, sentence by sentence of document 02's K4 and of its readings.

mod common;

use common::{fmt, fmt_of, resized, riff, then, with_word};
use independent::table::{CD, FILM};
use independent::tuner::TAKE_LIMIT;
use independent::wave::{header, read, take, write, Take};

const FOUR: [u8; 8] = [1, 0, 255, 255, 0, 128, 255, 127];
const SAMPLES: [i16; 4] = [1, -1, -32_768, 32_767];

/// The canonical form: fmt, then data.
fn plain() -> Vec<u8> {
    riff(&[("fmt ", &fmt(CD)), ("data", &FOUR)])
}

fn refusal(file: &[u8]) -> u32 {
    match read(file, usize::MAX) {
        Ok(_) => 0,
        Err(refusal) => refusal,
    }
}

fn is_taken(file: &[u8]) {
    assert_eq!(read(file, 4), Ok((CD, SAMPLES.to_vec())));
}

#[test]
fn pcm_of_one_channel_and_16_bits_is_read_at_both_rates() {
    for hertz in [CD, FILM] {
        let file = riff(&[("fmt ", &fmt(hertz)), ("data", &FOUR)]);
        assert_eq!(read(&file, 4), Ok((hertz, SAMPLES.to_vec())));
        let (at, count) = (44, 4);
        assert_eq!(take(&file), Ok(Take { hertz, at, count }));
    }
}

#[test]
fn chunks_of_other_names_are_skipped_odd_ones_with_their_pad_byte() {
    for odd in [&b"x"[..], b"xyz", b"", b"data", b"fmt data "] {
        is_taken(&riff(&[
            ("LIST", odd),
            ("fmt ", &fmt(CD)),
            ("JUNK", odd),
            ("data", &FOUR),
            ("tail", odd),
        ]));
    }
}

#[test]
fn writing_and_then_reading_gives_the_samples_back() {
    for hertz in [CD, FILM] {
        for count in 0..=SAMPLES.len() {
            let file = write(hertz, &SAMPLES[..count], 44 + 2 * count).unwrap();
            assert_eq!(read(&file, count), Ok((hertz, SAMPLES[..count].to_vec())));
        }
    }
}

#[test]
fn reading_and_then_writing_gives_the_canonical_form_a_fixed_point() {
    let more = riff(&[
        ("LIST", b"odd"),
        ("fmt ", &then(fmt(CD), b"\0\0")),
        ("data", &FOUR),
        ("tail", b"odd"),
    ]);
    let canonical = |file: &[u8]| {
        let (hertz, samples) = read(file, usize::MAX).unwrap();
        write(hertz, &samples, usize::MAX).unwrap()
    };
    assert_eq!(canonical(&more), plain());
    assert_eq!(canonical(&plain()), plain());
}

#[test]
fn the_canonical_form_has_a_header_of_44_bytes() {
    let bytes: [u8; 44] = [
        82, 73, 70, 70, 44, 0, 0, 0, 87, 65, 86, 69, 102, 109, 116, 32, 16, 0, 0, 0, 1, 0, 1, 0,
        128, 187, 0, 0, 0, 119, 1, 0, 2, 0, 16, 0, 100, 97, 116, 97, 8, 0, 0, 0,
    ];
    assert_eq!(header(FILM, 4), Ok(bytes));
    assert_eq!(write(FILM, &SAMPLES, 52), Ok([&bytes[..], &FOUR].concat()));
}

// ---- 20

#[test]
fn not_riff_wave_is_20() {
    for length in 0..12 {
        assert_eq!(refusal(&plain()[..length]), 20);
    }
    for place in [0, 1, 2, 3, 8, 9, 10, 11] {
        let mut file = plain();
        file[place] ^= 32;
        assert_eq!(refusal(&file), 20);
    }
    for name in [b"RIFX", b"RF64"] {
        assert_eq!(refusal(&[name, &plain()[4..]].concat()), 20);
    }
}

#[test]
fn the_riff_size_has_no_part_in_20() {
    for size in [0, 1, 3, 4, 11, u32::MAX] {
        assert_ne!(refusal(&with_word(plain(), 4, size)), 20);
    }
    assert_eq!(refusal(&plain()[..12]), 21);
}

// ---- 21

#[test]
fn no_fmt_before_the_data_or_the_end_is_21() {
    assert_eq!(refusal(&riff(&[])), 21);
    assert_eq!(refusal(&riff(&[("LIST", b"more")])), 21);
    assert_eq!(refusal(&riff(&[("data", &FOUR)])), 21);
    assert_eq!(refusal(&riff(&[("data", &FOUR), ("fmt ", &fmt(CD))])), 21);
    // 21 before 22 and 24.
    assert_eq!(refusal(&riff(&[("data", &[1]), ("fmt ", &[])])), 21);
    assert_eq!(refusal(&resized(riff(&[("data", &FOUR)]), "data", 99)), 21);
}

#[test]
fn what_lies_behind_the_riff_chunk_is_not_there() {
    for size in 0..12 {
        assert_eq!(refusal(&with_word(plain(), 4, size)), 21, "{size}");
    }
    assert_eq!(refusal(&then(riff(&[]), &plain()[12..])), 21);
}

// ---- 22

#[test]
fn under_16_bytes_of_fmt_is_22() {
    for length in 0..16 {
        let file = riff(&[("fmt ", &fmt(CD)[..length]), ("data", &FOUR)]);
        assert_eq!(refusal(&file), 22, "{length}");
        // It says 16, but the RIFF chunk or the file ends before.
        let file = riff(&[("fmt ", &fmt(CD))]);
        let (short, size) = (&file[..20 + length], 12 + length as u32);
        assert_eq!(refusal(short), 22, "{length}");
        assert_eq!(refusal(&with_word(file.clone(), 4, size)), 22, "{length}");
    }
}

#[test]
fn each_field_of_fmt_that_is_wrong_is_22() {
    let fields = [
        (0, 1, CD, 2 * CD, 2, 16),
        (2, 1, CD, 2 * CD, 2, 16),
        (3, 1, CD, 2 * CD, 2, 16),
        (257, 1, CD, 2 * CD, 2, 16),
        (65_534, 1, CD, 2 * CD, 2, 16),
        (1, 0, CD, 2 * CD, 2, 16),
        (1, 2, CD, 2 * CD, 2, 16),
        (1, 2, CD, 4 * CD, 4, 16),
        (1, 1, 0, 0, 2, 16),
        (1, 1, 22_050, 44_100, 2, 16),
        (1, 1, 44_099, 88_198, 2, 16),
        (1, 1, 44_101, 88_202, 2, 16),
        (1, 1, 47_999, 95_998, 2, 16),
        (1, 1, 48_001, 96_002, 2, 16),
        (1, 1, 96_000, 192_000, 2, 16),
        (1, 1, CD, CD, 2, 16),
        (1, 1, CD, 2 * CD + 1, 2, 16),
        (1, 1, CD, 2 * FILM, 2, 16),
        (1, 1, FILM, 2 * CD, 2, 16),
        (1, 1, CD, 2 * CD, 1, 16),
        (1, 1, CD, 2 * CD, 4, 16),
        (1, 1, CD, 2 * CD, 2, 8),
        (1, 1, CD, 2 * CD, 2, 15),
        (1, 1, CD, 2 * CD, 2, 24),
        (1, 1, CD, 2 * CD, 2, 272),
    ];
    for (tag, channels, hertz, bytes_a_second, block, bits) in fields {
        let body = fmt_of(tag, channels, hertz, bytes_a_second, block, bits);
        assert_eq!(refusal(&riff(&[("fmt ", &body), ("data", &FOUR)])), 22);
        // 22 before 23.
        assert_eq!(refusal(&riff(&[("fmt ", &body)])), 22);
    }
}

#[test]
fn a_longer_fmt_with_tag_1_is_taken_and_tag_65534_is_22() {
    for more in [1, 2, 24] {
        let body = then(fmt(CD), &vec![7; more]);
        is_taken(&riff(&[("fmt ", &body), ("data", &FOUR)]));
        let body = then(fmt_of(65_534, 1, CD, 2 * CD, 2, 16), &vec![7; more]);
        assert_eq!(refusal(&riff(&[("fmt ", &body), ("data", &FOUR)])), 22);
    }
}

#[test]
fn an_odd_data_size_is_22_before_23_and_24() {
    assert_eq!(
        refusal(&riff(&[("fmt ", &fmt(CD)), ("data", &FOUR[..3])])),
        22
    );
    assert_eq!(refusal(&resized(plain(), "data", 1)), 22);
    assert_eq!(refusal(&resized(plain(), "data", 4_294_967_295)), 22);
    assert_eq!(refusal(&resized(plain(), "data", 4_294_967_294)), 24);
    // 21 is less.
    assert_eq!(refusal(&resized(riff(&[("data", &FOUR)]), "data", 9)), 21);
}

#[test]
fn a_fmt_that_runs_past_the_end_with_16_right_bytes_is_23() {
    let file = riff(&[("fmt ", &fmt(CD)), ("data", &FOUR)]);
    assert_eq!(refusal(&resized(file.clone(), "fmt ", 99)), 23);
    assert_eq!(refusal(&resized(file.clone(), "fmt ", u32::MAX)), 23);
    assert_eq!(refusal(&resized(file[..36].to_vec(), "fmt ", 17)), 23);
}

// ---- 23

#[test]
fn no_data_chunk_is_23() {
    assert_eq!(refusal(&riff(&[("fmt ", &fmt(CD))])), 23);
    assert_eq!(refusal(&riff(&[("fmt ", &fmt(CD)), ("DATA", &FOUR)])), 23);
    // A header cut short is none, and nothing else is wrong with the file.
    for more in 1..8 {
        let file = with_word(plain()[..36 + more].to_vec(), 4, 28 + more as u32);
        assert_eq!(refusal(&file), 23, "{more}");
    }
    // 23 before 24.
    let past = resized(riff(&[("fmt ", &fmt(CD)), ("LIST", &FOUR)]), "LIST", 9);
    assert_eq!(refusal(&past), 23);
    assert_eq!(refusal(&plain()[..36]), 23);
}

// ---- 24

#[test]
fn a_chunk_that_runs_past_the_riff_chunk_is_24() {
    for past in [10, 12, 4_294_967_294] {
        assert_eq!(refusal(&resized(plain(), "data", past)), 24);
    }
    // Also where the file goes on.
    let longer = resized(then(plain(), &FOUR), "data", 10);
    assert_eq!(refusal(&longer), 24);
    let short = |size| refusal(&with_word(plain(), 4, size));
    assert_eq!((short(43), short(42), short(36)), (24, 24, 24));
    // The walk goes on behind the data.
    let tail = riff(&[("fmt ", &fmt(CD)), ("data", &FOUR), ("tail", &FOUR)]);
    for past in [9, 10, 4_294_967_295] {
        assert_eq!(refusal(&resized(tail.clone(), "tail", past)), 24);
    }
}

#[test]
fn a_riff_chunk_that_runs_past_the_file_is_24() {
    for size in [45, 46, 4_294_967_294, 4_294_967_295] {
        assert_eq!(refusal(&with_word(plain(), 4, size)), 24, "{size}");
    }
    for length in 44..52 {
        assert_eq!(refusal(&plain()[..length]), 24, "{length}");
    }
}

#[test]
fn bytes_behind_the_riff_chunk_are_not_looked_at() {
    is_taken(&then(plain(), b"data"));
    is_taken(&then(plain(), &plain()));
    is_taken(&then(plain(), b"tail\xFF\xFF\xFF\xFF"));
}

#[test]
fn under_8_bytes_left_end_the_walk() {
    for more in 0..8 {
        is_taken(&with_word(
            then(plain(), &[255; 7][..more]),
            4,
            44 + more as u32,
        ));
    }
    // 8 are a chunk's header.
    let file = with_word(then(plain(), &[255; 8]), 4, 52);
    assert_eq!(refusal(&file), 24);
}

#[test]
fn a_missing_pad_byte_at_the_very_end_is_no_refusal_unless_the_riff_size_counts_it() {
    let padded = riff(&[("fmt ", &fmt(CD)), ("data", &FOUR), ("tail", b"odd")]);
    is_taken(&padded);
    let mut unpadded = padded.clone();
    unpadded.pop();
    assert_eq!(refusal(&unpadded), 24);
    let size = unpadded.len() as u32 - 8;
    is_taken(&with_word(unpadded, 4, size));
    is_taken(&with_word(padded, 4, size));
}

// ---- which chunks count

#[test]
fn the_first_fmt_counts_also_where_it_is_bad_and_a_good_one_follows() {
    let bad = fmt_of(1, 2, CD, 4 * CD, 4, 16);
    let two =
        |first: &[u8], second: &[u8]| riff(&[("fmt ", first), ("fmt ", second), ("data", &FOUR)]);
    assert_eq!(refusal(&two(&bad, &fmt(CD))), 22);
    assert_eq!(refusal(&two(&[], &fmt(CD))), 22);
    is_taken(&two(&fmt(CD), &bad));
    is_taken(&two(&fmt(CD), &fmt(FILM)));
    is_taken(&riff(&[
        ("fmt ", &fmt(CD)),
        ("data", &FOUR),
        ("fmt ", &bad),
    ]));
}

#[test]
fn the_first_data_counts_also_where_it_is_empty() {
    let two = |first: &[u8], second: &[u8]| {
        riff(&[("fmt ", &fmt(CD)), ("data", first), ("data", second)])
    };
    assert_eq!(read(&two(&[], &FOUR), 0), Ok((CD, vec![])));
    is_taken(&two(&FOUR, &FOUR[..2]));
    is_taken(&two(&FOUR, &FOUR[..1]));
    assert_eq!(refusal(&two(&FOUR[..1], &FOUR)), 22);
}

#[test]
fn names_are_bytes_and_nothing_is_looked_for_inside_a_list() {
    for name in ["fmt\0", "FMT ", "Data", "DATA", "data"] {
        let fmt_too = riff(&[(name, &fmt(CD)), ("data", &FOUR)]);
        assert_eq!(refusal(&fmt_too), 21, "{name}");
    }
    let inside = [&riff(&[("fmt ", &fmt(CD)), ("data", &FOUR)])[8..]].concat();
    let list = riff(&[("LIST", &inside)]);
    assert_eq!(refusal(&list), 21);
    is_taken(&riff(&[
        ("LIST", &riff(&[("data", &FOUR)])[8..]),
        ("fmt ", &fmt(CD)),
        ("LIST", &riff(&[("data", &[9; 4])])[8..]),
        ("data", &FOUR),
    ]));
}

// ---- 25, and writing

#[test]
fn an_output_too_small_is_25() {
    assert_eq!(read(&plain(), 3), Err(25));
    assert_eq!(read(&plain(), 0), Err(25));
    assert!(read(&plain(), 5).is_ok());
    // 24 is less.
    assert_eq!(read(&plain()[..51], 0), Err(24));
    for room in 0..52 {
        assert_eq!(write(CD, &SAMPLES, room), Err(25), "{room}");
    }
    assert!(write(CD, &SAMPLES, 53).is_ok());
}

#[test]
fn an_empty_take_is_44_bytes_and_reads_back() {
    let file = write(FILM, &[], 44).unwrap();
    assert_eq!(file.len(), 44);
    assert_eq!(read(&file, 0), Ok((FILM, vec![])));
    assert_eq!(write(FILM, &[], 43), Err(25));
}

/// The samples are as the kernel gives them, never touched, and so take no room.
#[test]
fn writing_over_a_take_s_limit_is_7_before_25_and_reading_has_none() {
    assert!(header(CD, TAKE_LIMIT as u64).is_ok());
    assert_eq!(header(CD, TAKE_LIMIT as u64 + 1), Err(7));
    assert_eq!(header(CD, u64::MAX), Err(7));
    let samples = vec![0; TAKE_LIMIT + 1];
    assert_eq!(write(CD, &samples, 0), Err(7));
    assert_eq!(write(CD, &samples[1..], 0), Err(25));
    let bytes = 2 * samples.len();
    drop(samples);
    let mut file = vec![0; 44 + bytes];
    file[..44].copy_from_slice(&header(CD, 1).unwrap());
    let file = with_word(file, 4, 36 + bytes as u32);
    let file = with_word(file, 40, bytes as u32);
    let count = TAKE_LIMIT as u64 + 1;
    let (hertz, at) = (CD, 44);
    assert_eq!(take(&file), Ok(Take { hertz, at, count }));
}

#[test]
fn writing_at_an_unknown_rate_is_16_before_7() {
    for hertz in [0, 22_050, 44_099, 44_101, 47_999, 48_001, u32::MAX] {
        assert_eq!(header(hertz, u64::MAX), Err(16));
        assert_eq!(write(hertz, &SAMPLES, 0), Err(16));
    }
}
