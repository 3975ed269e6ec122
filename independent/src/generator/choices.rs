//! Settings to start with and to change to, each good or bad, and at a start a
//! rate: every choice of good and bad fields in turn.

use super::filming::{RATES, UNKNOWN_RATES};
use super::random::Random;
use super::script::Moment;

/// The values of a field that are good, and those that are bad.
type Field = (&'static [u32], &'static [u32]);

/// Scale, eps, decay and floor, at and around their bounds. Those under which
/// singing is tracked come more often.
const FIELDS: [Field; 4] = [
    (&[1, 2_741, 4_095], &[0, 4_096, 8_191, u32::MAX]),
    (&[0, 100, 409, 409, 409, 409], &[410, 411, 65_536, u32::MAX]),
    (&[0, 128, 255], &[256, 257, 65_536, u32::MAX]),
    (&[1, 1, 1, 1, 999_999, 1_000_000], &[0, 1_000_001, u32::MAX]),
];

/// A change, then a start, with each of the 16 choices of bad settings, and a
/// start with each both at a rate that there is and at one that there is not.
pub fn choice_line(random: &mut Random, moment: &Moment) -> Option<Vec<u8>> {
    let (word, choice) = (["change", "start"][moment.place % 2], moment.place / 2);
    let is_bad = |field: usize| choice >> field & 1 == 1;
    let mut line = word.to_string();
    for (field, (good, bad)) in FIELDS.iter().enumerate() {
        let value = random.one_of(if is_bad(field) { bad } else { good });
        line += &format!("\t{value}");
    }
    if word == "start" {
        let at_unknown = is_bad(FIELDS.len());
        line += random.one_of(if at_unknown { UNKNOWN_RATES } else { RATES });
    }
    Some(line.into_bytes())
}
