//! The table's rule at either sample rate, by twelfth powers, and its
//! neighbours.

use independent::rules::{is_half, raw_rate, raw_rate_in_bounds, wanted_note, wanted_period};
use independent::table::{compare_with_twice_the_period, is_rate, notes_at, period_of, CD, FILM};
use std::cmp::Ordering::{Equal, Greater, Less};

const RATES: [u32; 2] = [CD, FILM];

/// p is nearest to v when 2p - 1 <= 2v <= 2p + 1.
fn is_nearest(p: i64, hertz: u32, note: usize) -> bool {
    let twice = u32::try_from(2 * p).unwrap();
    compare_with_twice_the_period(twice - 1, hertz, note) != Greater
        && compare_with_twice_the_period(twice + 1, hertz, note) != Less
}

#[test]
fn entries_are_nearest_and_their_neighbours_not() {
    for hertz in RATES {
        for note in notes_at(hertz) {
            let p = period_of(hertz, note);
            assert!(is_nearest(p, hertz, note), "note {note}: {p}");
            assert!(!is_nearest(p - 1, hertz, note), "note {note}: {p} - 1");
            assert!(!is_nearest(p + 1, hertz, note), "note {note}: {p} + 1");
        }
    }
}

#[test]
fn comparing_is_right_where_it_is_plain() {
    // 2v of note 69 is 51316.36.., of note 81 half of that, 25658.18..
    assert_eq!(compare_with_twice_the_period(51_316, CD, 69), Less);
    assert_eq!(compare_with_twice_the_period(51_317, CD, 69), Greater);
    assert_eq!(compare_with_twice_the_period(25_658, CD, 81), Less);
    assert_eq!(compare_with_twice_the_period(25_659, CD, 81), Greater);
    // At 48,000 it is 55854.54.. and 27927.27..
    assert_eq!(compare_with_twice_the_period(55_854, FILM, 69), Less);
    assert_eq!(compare_with_twice_the_period(55_855, FILM, 69), Greater);
    assert_eq!(compare_with_twice_the_period(27_927, FILM, 81), Less);
    assert_eq!(compare_with_twice_the_period(27_928, FILM, 81), Greater);
    for hertz in RATES {
        assert!((1..100_000).all(|twice| compare_with_twice_the_period(twice, hertz, 69) != Equal));
    }
}

#[test]
fn entries_fall_and_octaves_double() {
    for hertz in RATES {
        let periods: Vec<i64> = notes_at(hertz).map(|note| period_of(hertz, note)).collect();
        assert!(periods.windows(2).all(|pair| pair[0] > pair[1]));
        let mut octaves = periods.iter().zip(&periods[12..]);
        assert!(octaves.all(|(low, high)| (low - 2 * high).abs() <= 1));
    }
    let at_cd = [32, 60, 100].map(|note| period_of(CD, note));
    assert_eq!(at_cd, [217_471, 43_152, 4_281]);
    let at_film = [33, 60, 69, 100, 101, 102].map(|note| period_of(FILM, note));
    assert_eq!(at_film, [223_418, 46_968, 27_927, 4_660, 4_398, 4_151]);
}

/// A table holds the notes whose periods lie from 4,096 to 225,280, and no
/// other: the notes beside it have 2v past those bounds.
#[test]
fn a_table_holds_the_notes_that_can_be_tracked() {
    assert_eq!(notes_at(CD), 32..=100);
    assert_eq!(notes_at(FILM), 33..=102);
    for hertz in RATES {
        let notes = notes_at(hertz);
        let can_be_tracked = |note| (4_096..=225_280).contains(&period_of(hertz, note));
        assert!(notes.clone().all(can_be_tracked));
        let (below, above) = (notes.start() - 1, notes.end() + 1);
        assert_eq!(
            compare_with_twice_the_period(2 * 225_280 + 1, hertz, below),
            Less
        );
        assert_eq!(
            compare_with_twice_the_period(2 * 4_096 - 1, hertz, above),
            Greater
        );
    }
}

#[test]
fn two_rates_are_known() {
    let unknown = [0, 1, 22_050, 44_099, 44_101, 47_999, 48_001, 96_000];
    assert!(RATES.into_iter().all(is_rate));
    assert!(!unknown.into_iter().chain([u32::MAX]).any(is_rate));
}

/// The raw rate lies from 32,768 to 131,072, whichever scale: one note alone
/// is the worst that a scale can be.
#[test]
fn raw_rates_keep_their_bounds() {
    for (hertz, class) in RATES
        .iter()
        .flat_map(|&hertz| (0..12).map(move |c| (hertz, c)))
    {
        for period in 4_096..=225_280 {
            let wanted = period_of(hertz, wanted_note(hertz, 1 << class, period));
            let raw = raw_rate(period, wanted);
            assert!((32_768..=131_072).contains(&raw));
            assert_eq!(raw_rate_in_bounds(period, wanted), raw);
        }
    }
}

/// No entry makes a half in the raw rate.
#[test]
fn raw_rates_are_never_halves() {
    for hertz in RATES {
        for wanted in notes_at(hertz).map(|note| period_of(hertz, note)) {
            assert!((4_096..=225_280).all(|period| !is_half(period * 65_536, wanted)));
        }
    }
}

/// The raw rates to a key of the periods just below a bound and just within it.
fn around(hertz: u32, key: usize, periods: [i64; 2]) -> [i64; 2] {
    periods.map(|period| raw_rate_in_bounds(period, wanted_period(hertz, Some(key))))
}

/// A key may be anywhere: the bounds are tested on the rounded raw rate.
#[test]
fn raw_rates_of_keys_are_held_in_their_bounds() {
    // Key 32 has 217471: half of that is 108735.5.
    assert_eq!(around(CD, 32, [108_736, 108_737]), [32_768; 2]);
    assert_eq!(around(CD, 32, [108_734, 108_735]), [32_768; 2]);
    assert_eq!(around(CD, 32, [108_733, 108_734]), [65_536, 32_768]);
    assert_eq!(raw_rate(108_733, 217_471), 32_767);
    // Key 69 has 25658: half of that is 12829, and twice it 51316.
    assert_eq!(around(CD, 69, [12_828, 12_829]), [65_536, 32_768]);
    assert_eq!(around(CD, 69, [51_316, 51_317]), [131_072, 65_536]);
    assert_eq!(raw_rate(51_317, 25_658), 131_075);
    // Key 44 has 108736: twice it is 217472.
    assert_eq!(around(CD, 44, [217_472, 217_473]), [131_072, 65_536]);
    assert_eq!(raw_rate(217_473, 108_736), 131_073);
    // At 48,000 key 33 has 223418: half of that is 111709.
    assert_eq!(around(FILM, 33, [111_707, 111_708]), [65_536, 32_768]);
    assert_eq!(raw_rate(111_708, 223_418), 32_768);
    // Key 45 has 111709 there and key 102 has 4151.
    assert_eq!(around(FILM, 45, [223_418, 223_419]), [131_072, 65_536]);
    assert_eq!(around(FILM, 102, [8_302, 8_303]), [131_072, 65_536]);
}

/// No key and a key outside the table have no period.
#[test]
fn wanted_periods_of_keys() {
    for hertz in RATES {
        assert_eq!(wanted_period(hertz, None), 0);
        for key in 0..=127 {
            let right = match notes_at(hertz).contains(&key) {
                true => period_of(hertz, key),
                false => 0,
            };
            assert_eq!(wanted_period(hertz, Some(key)), right);
        }
    }
    let ends = [31, 32, 33, 100, 101, 102, 103].map(Some);
    let at_cd = ends.map(|key| wanted_period(CD, key));
    assert_eq!(at_cd, [0, 217_471, 205_265, 4_281, 0, 0, 0]);
    let at_film = ends.map(|key| wanted_period(FILM, key));
    assert_eq!(at_film, [0, 0, 223_418, 4_660, 4_398, 4_151, 0]);
    assert_eq!(raw_rate_in_bounds(4_096, 0), 65_536);
    assert_eq!(raw_rate_in_bounds(225_280, 0), 65_536);
}

/// The same period wants another note at the other rate.
#[test]
fn each_rate_has_its_own_nearest_note() {
    let a_alone = 1 << (69 % 12);
    assert_eq!(wanted_note(FILM, a_alone, 26_000), 69);
    assert_eq!(raw_rate(26_000, period_of(FILM, 69)), 61_014);
    // Note 69 has 27927 and note 57 has 55855: they meet at 41891.
    assert_eq!(wanted_note(FILM, a_alone, 41_891), 69);
    assert_eq!(wanted_note(FILM, a_alone, 41_892), 57);
    assert_eq!(wanted_note(CD, 4_095, 24_576), 70);
    assert_eq!(wanted_note(FILM, 4_095, 24_576), 71);
    // Past the ends of a table its last note is wanted.
    assert_eq!(
        [CD, FILM].map(|hertz| wanted_note(hertz, 4_095, 4_096)),
        [100, 102]
    );
    assert_eq!(
        [CD, FILM].map(|hertz| wanted_note(hertz, 4_095, 225_280)),
        [32, 33]
    );
}
