//! Smoothing with what rounding cut off: under an unchanged raw rate the rate
//! never passes it, never moves away from it, and reaches it.

use independent::rules::{smoothed_rate, GREATEST_RAW_RATE, LEAST_RAW_RATE};

/// How many smoothings it takes from this rate to the raw one.
fn steps(decay: u32, mut rate: i64, raw: i64, mut kept: i64) -> u32 {
    let mut steps = 0;
    while rate != raw {
        (rate, kept) = smoothed_rate(decay, rate, raw, kept);
        steps += 1;
    }
    steps
}

#[test]
fn the_rate_and_what_is_kept() {
    // 255 x 65,536 + 66,410 = 65,539 x 256 + 106.
    assert_eq!(smoothed_rate(255, 65_536, 66_410, 0), (65_539, 106));
    assert_eq!(smoothed_rate(255, 65_536, 66_410, 149), (65_539, 255));
    assert_eq!(smoothed_rate(255, 65_536, 66_410, 150), (65_540, 0));
    assert_eq!(smoothed_rate(255, 65_536, 66_410, 255), (65_540, 105));
    // At decay 0 the rate is the raw one, and what was kept stays.
    for kept in 0..256 {
        assert_eq!(smoothed_rate(0, 131_072, 32_768, kept), (32_768, kept));
    }
}

/// Once there it stays, with what is kept.
#[test]
fn a_goal_that_is_reached_is_held() {
    for (decay, kept) in (0..256).flat_map(|decay| (0..256).map(move |kept| (decay, kept))) {
        for raw in [LEAST_RAW_RATE, 65_536, 66_410, GREATEST_RAW_RATE] {
            assert_eq!(smoothed_rate(decay, raw, raw, kept), (raw, kept));
        }
    }
}

/// All that decides is how far the rate is from the raw one.
#[test]
fn the_rate_never_passes_the_raw_one_nor_moves_away() {
    let far = [1_000, 4_095, 32_767, 65_535, 65_536, 98_303, 98_304];
    for apart in (0..600).chain(far) {
        for (decay, kept) in (0..256).flat_map(|decay| (0..256).map(move |kept| (decay, kept))) {
            let low = LEAST_RAW_RATE;
            let (up, rest) = smoothed_rate(decay, low, low + apart, kept);
            assert!((low..=low + apart).contains(&up), "{decay} {apart} {kept}");
            assert!((0..256).contains(&rest));
            let (down, rest) = smoothed_rate(decay, low + apart, low, kept);
            assert!((low..=low + apart).contains(&down));
            assert!((0..256).contains(&rest));
        }
    }
}

/// Both ways take as long, whatever is kept.
#[test]
fn the_longest_ways() {
    let (least, greatest) = (LEAST_RAW_RATE, GREATEST_RAW_RATE);
    for kept in 0..256 {
        assert_eq!(steps(255, greatest, least, kept), 3_085);
        assert_eq!(steps(255, least, greatest, kept), 3_085);
    }
    // At other decays it is half as long at most.
    let most = |decay| steps(decay, greatest, least, 255).max(steps(decay, least, greatest, 0));
    assert_eq!((0..255).map(most).max(), Some(1_540));
}

/// Every rate with every remainder, at decay 255: one smoothing comes to a state
/// whose way is known.
#[test]
fn no_way_is_longer() {
    let (least, greatest) = (LEAST_RAW_RATE, GREATEST_RAW_RATE);
    let apart = greatest - least;
    for (raw, far, away) in [(least, greatest, 1), (greatest, least, -1)] {
        // By how far off the rate is; what is kept comes nearer first.
        let mut ways: Vec<[u16; 256]> = vec![[0; 256]];
        for off in 1..=apart {
            let rate = raw + away * off;
            ways.push([0; 256]);
            let places = 0..256i64;
            let order: Vec<i64> = match away {
                1 => places.collect(),
                _ => places.rev().collect(),
            };
            for kept in order {
                let (next, rest) = smoothed_rate(255, rate, raw, kept);
                let known = ways[(away * (next - raw)) as usize][rest as usize];
                assert!((next, rest) != (rate, kept));
                ways[off as usize][kept as usize] = known + 1;
            }
        }
        assert_eq!(raw + away * apart, far);
        let longest = ways.iter().flatten().max();
        assert_eq!(longest, Some(&3_085));
    }
}

/// The old rule, without what is kept: how many smoothings until it moves no
/// more, and how far from the raw rate it then is.
fn halts(decay: u32, mut rate: i64, raw: i64) -> (u32, i64) {
    let mut steps = 0;
    loop {
        let (next, _) = smoothed_rate(decay, rate, raw, 0);
        if next == rate {
            return (steps, raw - rate);
        }
        (rate, steps) = (next, steps + 1);
    }
}

/// The fault: a flat singer was never brought all the way up.
#[test]
fn the_old_rule_halted_below_its_goal() {
    // Document 01's raw rate at decay 255, and one from which nothing moved.
    assert_eq!(halts(255, 65_536, 66_410), (419, 255));
    assert_eq!(halts(255, 65_536, 65_791), (0, 255));
    assert_eq!(halts(200, 65_536, 66_410).1, 4);
    assert_eq!(halts(128, 65_536, 66_410).1, 1);
    // Now it is, and stays.
    assert_eq!(steps(255, 65_536, 66_410, 0), 1_879);
    assert_eq!(steps(255, 65_536, 65_791, 0), 1_564);
    for decay in 200..256 {
        assert!(halts(decay, 65_536, 66_410).1 > 0);
        assert!(steps(decay, 65_536, 66_410, 0) <= 3_085);
    }
    // From above rounding down helped, and the way is now longer.
    assert_eq!(halts(255, 131_072, 32_768), (1_669, 0));
}
