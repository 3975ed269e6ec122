//! Document 01's twelve worked numbers, number 11 as document 02's K12 has
//! it, and what it says of D.

use independent::history::History;
use independent::rules::*;
use independent::table::{period_of, CD};

/// E, H and D of lag 2 over four samples.
fn sums(samples: [i16; 4]) -> (i64, i64, i64) {
    let history = History::of(&samples);
    (
        energy(&history, 2),
        correlation(&history, 2),
        difference(&history, 2),
    )
}

#[test]
fn number_1() {
    assert_eq!(sums([3, 5, 3, 5]), (68, 34, 0));
}

#[test]
fn number_2() {
    assert_eq!(sums([1, 2, 3, 4]), (30, 11, 8));
}

#[test]
fn number_3() {
    assert_eq!(sums([1, -1, -1, 1]), (4, -2, 8));
}

#[test]
fn number_4() {
    let minus_one = History::of(&[9, 9, -1, 0, 0, 0, 0, 0, 0, 0]);
    assert_eq!(eighth_rate_sample(&minus_one), -1);
    let seven = History::of(&[9, 10, -3, 0, 0, 0, 0, 0, 0]);
    assert_eq!(eighth_rate_sample(&seven), 0);
    assert_eq!(eighth_rate_sample(&History::of(&[i16::MIN; 8])), i16::MIN);
    assert_eq!(eighth_rate_sample(&History::of(&[i16::MAX; 8])), i16::MAX);
}

fn measured(lag: usize, energy: i64, difference: i64) -> Measured {
    Measured {
        lag,
        energy,
        difference,
    }
}

#[test]
fn number_5() {
    assert!(meets_eps(&measured(24, 1_024, 200), 200));
    assert!(!meets_eps(&measured(24, 1_024, 202), 200));
    assert!(!meets_eps(&measured(24, 1_024, 201), 200));
}

#[test]
fn number_6() {
    assert!(meets_floor(&measured(24, 4_800, 0), 100));
    assert!(!meets_floor(&measured(24, 4_799, 0), 100));
}

#[test]
fn number_7() {
    let offset = |d1, d2, d3| Vertex { d1, d2, d3 }.offset();
    assert_eq!(offset(6, 2, 10), -43);
    assert_eq!(offset(8, 2, 2), 128);
}

#[test]
fn number_8() {
    assert_eq!(period_of(CD, 69), 25_658);
    assert_eq!(period_of(CD, 33), 205_265);
}

#[test]
fn number_9() {
    let a_alone = 1 << (69 % 12);
    assert_eq!(wanted_note(CD, a_alone, 26_000), 69);
    assert_eq!(raw_rate(26_000, period_of(CD, 69)), 66_410);
    assert_eq!(wanted_note(CD, a_alone, 38_487), 69);
    assert_eq!(wanted_note(CD, a_alone, 38_488), 57);
}

#[test]
fn number_10() {
    assert_eq!(smoothed_rate(128, 65_536, 66_410, 0), (65_973, 0));
    assert_eq!(smoothed_rate(128, 65_536, 66_410, 255), (65_973, 255));
}

#[test]
fn number_11() {
    assert_eq!(through([10, 10, 13, 13], 2_048), 11);
    assert_eq!(through([-10, -10, -13, -13], 2_048), -12);
    assert_eq!(read_steps(3 * POSITION_UNIT + 32_768), 2_048);
}

#[test]
fn number_12() {
    let samples = |halves: i64| halves * 32_768;
    let input = input_position(1_000);
    let period = Some(100 * PERIOD_UNIT);
    assert_eq!(
        turn(samples(2_001), input, period),
        (samples(1_801), Cycle::Repeated)
    );
    assert_eq!(
        turn(samples(2_000), input, period),
        (samples(2_000), Cycle::Kept)
    );
    // The other side: more than 1,000 behind, not just 1,000.
    assert_eq!(turn(0, input, period), (0, Cycle::Kept));
    assert_eq!(
        turn(-1, input, period),
        (100 * POSITION_UNIT - 1, Cycle::Dropped)
    );
}

/// D is the sum of (x[j] - x[j-L]) squared over the newest L samples.
#[test]
fn difference_is_a_sum_of_squares() {
    let mut samples: Vec<i16> = (0..2_000u64).map(|at| (at * at * 40_503) as i16).collect();
    samples.extend([i16::MIN; 600]);
    samples.extend([i16::MAX; 600]);
    let history = History::of(&samples);
    for lag in [2, 16, 109, 110, 599, 600, 601, 880] {
        let last = samples.len();
        let squares = (last - lag..last).map(|at| {
            let apart = i64::from(samples[at]) - i64::from(samples[at - lag]);
            apart * apart
        });
        assert_eq!(difference(&history, lag), squares.sum(), "lag {lag}");
    }
    assert_eq!(difference(&history, 600), 600 * 65_535 * 65_535);
}

/// Samples before the first count as 0.
#[test]
fn silence_before_the_take() {
    let history = History::of(&[5, -7]);
    assert_eq!(energy(&history, 880), 74);
    assert_eq!(correlation(&history, 1), -35);
    assert_eq!(correlation(&history, 2), 0);
    assert_eq!(difference(&history, 880), 74);
    assert_eq!([-1_005, -1, 0, 1].map(|at| history.at(at)), [0, 0, 5, -7]);
}

#[test]
fn halves_go_up() {
    let halves = [(-5, 2), (-3, 2), (-1, 2), (1, 2), (3, 2)];
    assert_eq!(halves.map(|(a, b)| nearest(a, b)), [-2, -1, 0, 1, 2]);
    assert!(halves.iter().all(|&(a, b)| is_half(a, b)));
    assert_eq!(nearest(-51, 100), -1);
    assert_eq!(nearest(49, 100), 0);
    assert!(!is_half(49, 100) && !is_half(2, 1));
}

#[test]
fn cutting_a_recording() {
    let recording: Vec<i16> = (0..1_100).collect();
    assert_eq!(cut(&recording, 0), &recording[..512]);
    assert_eq!(cut(&recording, 1), &recording[512..1_024]);
    assert_eq!(cut(&recording, 2), &recording[1_024..]);
    assert!(std::ptr::eq(&cut(&recording, 2)[0], &recording[1_024]));
    for k in [3, 4, usize::MAX / 512, usize::MAX] {
        assert!(cut(&recording, k).is_empty());
    }
    assert!(cut(&[], 0).is_empty());
}
