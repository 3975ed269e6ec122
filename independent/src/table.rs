//! The sample rates, and at each of them the periods of MIDI notes, reckoned
//! in whole numbers.
//!
//! Entry p of note n at the rate r is the whole number nearest to
//! v = r x 256 / (440 x 2^((n - 69) / 12)). With twelfth powers nothing
//! irrational is left: 2p - 1 <= 2v exactly when
//! (2p - 1)^12 x 440^12 x 2^n <= (2 x r x 256)^12 x 2^69.

use std::cmp::Ordering;
use std::ops::RangeInclusive;
use std::sync::OnceLock;

/// The sample rates, in samples a second: that of discs, which holds unless
/// another is given, and that of films.
pub const CD: u32 = 44_100;
pub const FILM: u32 = 48_000;

pub fn is_rate(hertz: u32) -> bool {
    [CD, FILM].contains(&hertz)
}

/// The notes of the table at this rate: those whose periods can be tracked.
pub fn notes_at(hertz: u32) -> RangeInclusive<usize> {
    match hertz {
        CD => 32..=100,
        FILM => 33..=102,
        _ => panic!("there is no table at {hertz}"),
    }
}

/// The period of a note of the table at this rate, in 1/256 sample.
pub fn period_of(hertz: u32, note: usize) -> i64 {
    static AT_CD: OnceLock<Vec<i64>> = OnceLock::new();
    static AT_FILM: OnceLock<Vec<i64>> = OnceLock::new();
    let notes = notes_at(hertz);
    let place = note - notes.start();
    let table = if hertz == CD { &AT_CD } else { &AT_FILM };
    table.get_or_init(|| notes.map(|note| nearest_period(hertz, note)).collect())[place]
}

/// How `twice`, a whole number, compares with 2v of this note at this rate.
pub fn compare_with_twice_the_period(twice: u32, hertz: u32, note: usize) -> Ordering {
    let left = Natural::one()
        .times_power(twice, 12)
        .times_power(440, 12)
        .times_power(2, note);
    let right = Natural::one()
        .times_power(2 * hertz * 256, 12)
        .times_power(2, 69);
    left.compare(&right)
}

/// The greatest p with 2p - 1 <= 2v. No 2v is an odd whole number, so it is
/// the one nearest to v, whichever way halves went.
fn nearest_period(hertz: u32, note: usize) -> i64 {
    let (mut low, mut high) = (1u32, 1 << 20);
    while high - low > 1 {
        let middle = (low + high) / 2;
        match compare_with_twice_the_period(2 * middle - 1, hertz, note) {
            Ordering::Greater => high = middle,
            _ => low = middle,
        }
    }
    i64::from(low)
}

/// A natural number of any size, least digit first, in base 2^32, without
/// leading zeros.
struct Natural(Vec<u32>);

impl Natural {
    fn one() -> Natural {
        Natural(vec![1])
    }

    fn times(mut self, factor: u32) -> Natural {
        let mut carry = 0u64;
        for digit in &mut self.0 {
            let product = u64::from(*digit) * u64::from(factor) + carry;
            *digit = (product & 0xFFFF_FFFF) as u32;
            carry = product >> 32;
        }
        if carry > 0 {
            self.0.push(carry as u32);
        }
        self
    }

    fn times_power(self, factor: u32, power: usize) -> Natural {
        (0..power).fold(self, |number, _| number.times(factor))
    }

    fn compare(&self, other: &Natural) -> Ordering {
        let by_length = self.0.len().cmp(&other.0.len());
        by_length.then_with(|| self.0.iter().rev().cmp(other.0.iter().rev()))
    }
}

#[cfg(test)]
mod tests {
    use super::*;

    #[test]
    fn naturals_carry_and_compare() {
        let long = Natural::one().times_power(0xFFFF_FFFF, 3);
        // (2^32 - 1)^3 = 2^96 - 3 x 2^64 + 3 x 2^32 - 1
        assert_eq!(long.0, [0xFFFF_FFFF, 2, 0xFFFF_FFFD]);
        let power = Natural::one().times_power(2, 64);
        assert_eq!(power.0, [0, 0, 1]);
        assert_eq!(power.compare(&long), Ordering::Less);
        assert_eq!(long.compare(&power), Ordering::Greater);
        let again = Natural::one().times_power(16, 16);
        assert_eq!(power.compare(&again), Ordering::Equal);
    }
}
