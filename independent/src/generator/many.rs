//! For the report: takes in great number.

use super::filming::{RATES, UNKNOWN_RATES};
use super::random::Random;
use super::script::Moment;

/// Of so many blocks the last ones begin takes; the others are left to one that
/// is long enough to be sung in.
const BLOCKS: usize = 40;
const SUNG: usize = 34;

/// So many takes has a script in all, if it is long enough: as many as a report
/// takes, one less or one more, by the seed.
fn most(seed: u64) -> usize {
    999 + (seed % 3) as usize
}

/// Lines that begin takes, often several behind one another, so that there are
/// takes without samples; and lines that would have to be read wrongly, or taken
/// against the rules, to begin one.
pub fn takes(random: &mut Random, moment: &Moment) -> Option<Vec<u8>> {
    let left = most(moment.seed).saturating_sub(moment.takes);
    let begun = match moment.place % BLOCKS < SUNG {
        true => 0,
        false => random.whole(0, 8).min(left),
    };
    let mut lines = Vec::new();
    for _ in 0..begun {
        lines.push(beginning(random));
        lines.extend(random.chance(100).then(|| in_vain(random)));
    }
    lines.extend(random.chance(50).then(|| in_vain(random)));
    (!lines.is_empty()).then(|| lines.join("\n").into_bytes())
}

/// A start to be taken, or a reset.
fn beginning(random: &mut Random) -> String {
    let decay = random.one_of(&[0, 128, 230, 255]);
    let scale = random.one_of(&[4_095, 4_095, 2_741, 512]);
    match random.chance(500) {
        true => "reset".to_string(),
        false => format!("start\t{scale}\t409\t{decay}\t1{}", random.one_of(RATES)),
    }
}

/// What begins no take.
fn in_vain(random: &mut Random) -> String {
    let unknown = random.one_of(UNKNOWN_RATES);
    random
        .one_of(&[
            "start\t0\t409\t0\t1",
            "start\t4095\t410\t0\t1",
            "start\t4095\t409\t256\t1",
            "start\t4095\t409\t0\t0\t48000",
            "start\t4095\t409\t0",
            "start\t4095\t409\t0\t1\t",
            "start\t4294967296\t409\t0\t1",
            "change\t4095\t409\t0\t1",
            "change\t4095\t409\t0\t1\t44100",
            "reset\t",
            "reset\t0",
            "Reset",
            "mode\t0",
            &format!("start\t4095\t409\t0\t1{unknown}"),
        ])
        .to_string()
}
