//! Lows, findings and tracking steps at their edges.

use independent::history::History;
use independent::rules::*;
use independent::settings::Settings;

/// Settings under which whatever sounds passes, if it repeats well.
const WILLING: Settings = Settings::of([4_095, 409, 0, 1]);

/// A sound of `count` samples that repeats after `cycle`, and no sooner.
fn cycling(cycle: usize, count: usize) -> Vec<i16> {
    let sample = |at: usize| (at % cycle * 200 / cycle) as i16 - 100;
    (0..count).map(sample).collect()
}

fn low_lags(cycle: usize) -> Vec<usize> {
    let eighths = History::of(&cycling(cycle, 500));
    let lows = lows(&eighths, &WILLING);
    lows.iter().map(|low| low.lag).collect()
}

#[test]
fn lows_lie_from_3_to_109() {
    assert_eq!(low_lags(37), [37, 74]);
    assert_eq!(low_lags(109), [109]);
    assert!(low_lags(110).is_empty());
    assert_eq!(low_lags(3)[..3], [3, 6, 9]);
    assert_eq!(low_lags(2)[..2], [4, 6]);
}

/// Both tests use the eighth-rate lag and energy, unscaled.
#[test]
fn lows_pass_eps_and_floor() {
    let eighths = History::of(&cycling(40, 500));
    let floor = |floor| Settings { floor, ..WILLING };
    let energy = energy(&eighths, 40);
    assert_eq!((energy / 80, energy % 80), (3_337, 40));
    assert_eq!(lows(&eighths, &floor(3_337)).len(), 2);
    assert!(lows(&eighths, &floor(3_338)).is_empty());
    let exact = Settings { eps: 0, ..WILLING };
    assert_eq!(lows(&eighths, &exact).len(), 2);
    let mut samples = cycling(40, 500);
    samples[499] += 1;
    assert!(lows(&History::of(&samples), &exact).is_empty());
}

/// Pulses of 20 and 22 samples fit equally well at lags 40, 41 and 42.
#[test]
fn the_first_of_a_level_row_is_the_low() {
    let pulses = [&[0; 90][..], &[90; 20], &[0; 20], &[90; 22], &[0; 8]].concat();
    let eighths = History::of(&pulses);
    let differences = [39, 40, 41, 42, 43].map(|lag| difference(&eighths, lag) / 8_100);
    assert_eq!(differences, [4, 2, 2, 2, 4]);
    let lows = lows(&eighths, &Settings::DEFAULT);
    let only = Low {
        lag: 40,
        level_with_next: true,
    };
    assert_eq!(lows, [only]);
}

fn low(lag: usize) -> Low {
    Low {
        lag,
        level_with_next: false,
    }
}

#[test]
fn findings() {
    let cycle_of_160 = History::of(&cycling(160, 2_000));
    assert_eq!(find(&cycle_of_160, &[]), Finding::NoLow);
    assert_eq!(find(&cycle_of_160, &[low(54)]), Finding::NoSecondLow);
    // From 55 on neither a second low nor the full rate is looked at.
    assert_eq!(find(&cycle_of_160, &[low(55)]), Finding::LongLow(440));
    assert_eq!(
        find(&cycle_of_160, &[low(55), low(60)]),
        Finding::LongLow(440)
    );
    let lows = [low(10), low(20), low(40)];
    assert_eq!(find(&cycle_of_160, &lows), Finding::SecondLow(160));
    let lows = [low(20), low(30)];
    assert_eq!(find(&cycle_of_160, &lows), Finding::FirstLow(160));
    let lows = [low(20), low(40)];
    assert_eq!(find(&cycle_of_160, &lows), Finding::FirstOfEqual(160));
    assert_eq!(Finding::NoLow.lag(), None);
    assert_eq!(Finding::SecondLow(160).lag(), Some(160));
    assert_eq!(lowest_around(160), 157);
}

#[test]
fn losses_and_jumps() {
    let take = History::of(&cycling(100, 1_000));
    let exact = Settings { eps: 0, ..WILLING };
    for last_best in [97, 100, 103] {
        let step = track(&take, 97, last_best, &exact).unwrap();
        assert_eq!((step.best, step.best_is_tied), (100, false));
    }
    assert_eq!(track(&take, 97, 104, &exact), Err(Loss::Jump));
    assert_eq!(track(&take, 100, 104, &exact), Err(Loss::Jump));
    assert_eq!(track(&take, 101, 104, &exact), Err(Loss::Eps));
    // The mean square of this sawtooth is a little over 3,333.
    let mut loud = exact;
    loud.floor = 3_334;
    assert!(track(&take, 97, 100, &loud).is_ok());
    loud.floor = 3_335;
    assert_eq!(track(&take, 97, 100, &loud), Err(Loss::Floor));
    assert_eq!(track(&History::fresh(), 97, 100, &exact), Err(Loss::Floor));
}

#[test]
fn the_vertex_is_left_out_at_the_ends_of_the_eight() {
    let take = History::of(&cycling(100, 1_000));
    for (lowest, within) in [(93, false), (94, true), (99, true), (100, false)] {
        let step = track(&take, lowest, 100, &WILLING).unwrap();
        assert_eq!(step.best, 100);
        assert_eq!(step.vertex.is_some(), within);
        if !within {
            assert_eq!(step.period(), 25_600);
        }
    }
    let vertex = Vertex {
        d1: 6,
        d2: 2,
        d3: 10,
    };
    let step = Step {
        lowest: 97,
        best: 100,
        best_is_tied: false,
        vertex: Some(vertex),
    };
    assert_eq!(step.period(), 25_557);
}

#[test]
fn the_shortest_of_equal_lags_is_best() {
    // Silence but for the floor, which one loud sample far back meets.
    let mut samples = vec![0; 400];
    samples[399 - 150] = 1_000;
    let take = History::of(&samples);
    // That sample stands within the newest 2L of each lag, and in the older
    // half: every D is the same.
    let eight = [97, 98, 99, 100, 101, 102, 103, 104];
    assert!(eight.iter().all(|&lag| difference(&take, lag) == 1_000_000));
    assert_eq!(track(&take, 97, 97, &WILLING), Err(Loss::Eps));
    let still = History::of(&[50; 400]);
    let step = track(&still, 97, 100, &WILLING).unwrap();
    assert_eq!((step.best, step.best_is_tied), (97, true));
    assert_eq!(track(&still, 97, 101, &WILLING), Err(Loss::Jump));
}

#[test]
fn the_eight_lags_move() {
    use Move::*;
    let moves = |lowest: usize| {
        let step = |place| Step {
            lowest,
            best: lowest + place,
            best_is_tied: false,
            vertex: None,
        };
        [0, 1, 2, 3, 4, 5, 6, 7].map(|place| (step(place).moving(), step(place).next_lowest()))
    };
    let between = moves(100);
    assert_eq!(between[..3], [(Down, 99); 3]);
    assert_eq!(between[3..5], [(Stay, 100); 2]);
    assert_eq!(between[5..], [(Up, 101); 3]);
    let lowest = moves(16);
    assert_eq!(lowest[..3], [(StoppedAtLowest, 16); 3]);
    assert_eq!(lowest[5..], [(Up, 17); 3]);
    assert_eq!(moves(17)[0], (Down, 16));
    let highest = moves(873);
    assert_eq!(highest[..3], [(Down, 872); 3]);
    assert_eq!(highest[5..], [(StoppedAtHighest, 873); 3]);
    assert_eq!(moves(872)[7], (Up, 873));
}
