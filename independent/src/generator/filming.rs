//! Beside a film: lines that follow a block, with starts at either sample rate,
//! those that are refused among them, and with keys at the ends of the tables.

use super::player::struck;
use super::random::Random;
use super::script::Moment;
use crate::table::{CD, FILM};

/// Settings under which whatever sounds is tracked.
const WILLING: &str = "4095\t409\t0\t1";

/// What may stand behind a start's settings: no rate, or one that there is.
pub const RATES: &[&str] = &["", "\t44100", "\t48000", "\t48000"];
/// Rates that there are not.
pub const UNKNOWN_RATES: &[&str] = &["\t0", "\t44099", "\t44101", "\t48001", "\t4294967295"];

/// One or the other.
pub fn any_rate(random: &mut Random) -> &'static str {
    let rates = random.one_of(&[RATES, UNKNOWN_RATES]);
    random.one_of(rates)
}

/// A start at one of the rates, so that a script goes from each to each.
fn start(random: &mut Random) -> String {
    format!("start\t{WILLING}{}", random.one_of(RATES))
}

/// Such a start, and keyboard mode again.
pub fn played_start(random: &mut Random) -> Vec<u8> {
    format!("{}\nmode\t1", start(random)).into_bytes()
}

/// Starts, changes, resets and keys, among starts that are refused and lines that
/// would have to be read wrongly to alter the rate.
pub fn switches(random: &mut Random, moment: &Moment) -> Option<Vec<u8>> {
    let other = if moment.hertz == CD { FILM } else { CD };
    let line = match random.whole(0, 199) {
        0..=2 => start(random),
        3 => format!("start\t4095\t409\t{}\t1\t{other}", random.whole(0, 255)),
        4..=5 => {
            let settings = ["0\t409\t0\t1", "1\t410\t0\t1", "1\t0\t256\t1", "1\t0\t0\t0"];
            let settings = random.one_of(&settings);
            format!("start\t{settings}{}", any_rate(random))
        }
        6..=7 => format!("start\t{WILLING}{}", random.one_of(UNKNOWN_RATES)),
        8 => format!("start\t{WILLING}\t"),
        9 => format!("start\t{WILLING}\t{}", (1u64 << 32) + u64::from(other)),
        10 => format!("change\t{WILLING}\t{other}"),
        11..=12 => "reset".to_string(),
        13..=20 => format!("change\t{}\t409\t0\t1", random.whole(1, 4_095)),
        21..=24 => return Some(struck(random.whole(0, 127) as u8, random)),
        25 => random.one_of(&["mode\t0", "mode\t1"]).to_string(),
        _ => return None,
    };
    Some(line.into_bytes())
}

/// Keys inside and outside the tables' ends, most often of the end near which it
/// is sung, and now and then a start.
pub fn ends(random: &mut Random, moment: &Moment) -> Option<Vec<u8>> {
    match random.whole(0, 99) {
        0..=1 => Some(played_start(random)),
        2..=24 => {
            let low = random.one_of(&[31, 32, 32, 33, 33, 34]);
            let high = random.one_of(&[99, 100, 101, 102, 103, 103]);
            let near = if moment.period > 100.0 { low } else { high };
            Some(struck(random.one_of(&[low, high, near, near]), random))
        }
        _ => None,
    }
}
