//! Document 01's rules, in its words and its order, with those that document
//! 02 added.
//!
//! Whole numbers are i64. The greatest are 256 x a difference: an energy is at
//! most 1760 x 2^30 < 2^41, a difference at most 880 x 2^32 < 2^42, so 2^50
//! in the vertex and 2^52 in the test of eps. Positions stay below
//! 10^9 x 2^16 < 2^46. The four terms of a reading, with factors of at most
//! 12 x 2^15, stay below 24 x 2^15 x 2^36 < 2^56.

use crate::history::{History, SILENCE_BEFORE};
use crate::settings::Settings;
use crate::table::{notes_at, period_of};

/// The lags that the eight may hold.
pub const LOWEST_LAG: usize = 16;
pub const HIGHEST_LAG: usize = 880;
/// How many lags are tracked.
pub const TRACKED: usize = 8;

/// The longest energy does not reach back beyond the silence before a take.
const _: () = assert!(2 * HIGHEST_LAG <= SILENCE_BEFORE);

/// Period units (1/256 sample) and position units (1/65536) in a sample.
pub const PERIOD_UNIT: i64 = 256;
pub const POSITION_UNIT: i64 = 65_536;
/// Steps in a sample at which it is read.
pub const READ_UNIT: i64 = 4_096;
/// The rate of a fresh tuner, and while there is no period.
pub const LEVEL_RATE: i64 = 65_536;

// Energies and correlations

/// The sum of the products of samples that stand at equal places.
///
/// A product of two samples is at most 2^30 and fits i32; 1760 of them fit
/// i64. So nothing wraps; it is only said this way to keep the loop plain
/// enough for the machine to take many samples at once.
fn sum_of_products(left: &[i16], right: &[i16]) -> i64 {
    left.iter().zip(right).fold(0i64, |sum, (&a, &b)| {
        sum.wrapping_add(i64::from(i32::from(a).wrapping_mul(i32::from(b))))
    })
}

/// E(L): the sum of squares of the newest 2L samples.
pub fn energy(history: &History, lag: usize) -> i64 {
    let newest = history.newest(2 * lag);
    sum_of_products(newest, newest)
}

/// H(L): the sum, over the newest L samples, of each times the one L before it.
pub fn correlation(history: &History, lag: usize) -> i64 {
    sum_of_products(history.newest(lag), history.newest_before(lag, lag))
}

/// A lag with its energy and difference.
#[derive(Clone, Copy, Debug)]
pub struct Measured {
    pub lag: usize,
    pub energy: i64,
    pub difference: i64,
}

/// D(L) = E(L) - 2H(L).
pub fn measure(history: &History, lag: usize) -> Measured {
    let energy = energy(history, lag);
    Measured {
        lag,
        energy,
        difference: energy - 2 * correlation(history, lag),
    }
}

/// D(L) alone.
pub fn difference(history: &History, lag: usize) -> i64 {
    measure(history, lag).difference
}

/// The sum of the newest eight, divided by 8 and rounded down.
pub fn eighth_rate_sample(history: &History) -> i16 {
    let sum: i32 = history.newest(8).iter().map(|&x| i32::from(x)).sum();
    // The mean of eight samples lies among them.
    sum.div_euclid(8) as i16
}

/// 1024 x D(L) <= eps x E(L).
pub fn meets_eps(at: &Measured, eps: u32) -> bool {
    1024 * at.difference <= i64::from(eps) * at.energy
}

/// E(L) >= floor x 2L.
pub fn meets_floor(at: &Measured, floor: u32) -> bool {
    at.energy >= i64::from(floor) * 2 * at.lag as i64
}

pub fn passes(at: &Measured, settings: &Settings) -> bool {
    meets_eps(at, settings.eps) && meets_floor(at, settings.floor)
}

// Finding a period

/// A low of the eighth rate.
#[derive(Clone, Copy, Debug, PartialEq, Eq)]
pub struct Low {
    pub lag: usize,
    /// D(L) = D(L+1).
    pub level_with_next: bool,
}

/// The lags L from 3 to 109 with D(L-1) > D(L) <= D(L+1) that pass, upwards.
pub fn lows(eighths: &History, settings: &Settings) -> Vec<Low> {
    let measured: [Measured; 109] = std::array::from_fn(|place| measure(eighths, 2 + place));
    measured
        .windows(3)
        .filter(|near| {
            near[0].difference > near[1].difference
                && near[1].difference <= near[2].difference
                && passes(&near[1], settings)
        })
        .map(|near| Low {
            lag: near[1].lag,
            level_with_next: near[1].difference == near[2].difference,
        })
        .collect()
}

#[derive(Clone, Copy, Debug, PartialEq, Eq)]
pub enum Finding {
    NoLow,
    NoSecondLow,
    /// 8 x L1, for L1 >= 55.
    LongLow(usize),
    /// 8 x L1, of the smaller full-rate D.
    FirstLow(usize),
    /// 8 x L2, of the smaller full-rate D.
    SecondLow(usize),
    /// 8 x L1, the shorter on equality.
    FirstOfEqual(usize),
}

impl Finding {
    /// The lag found, if one is.
    pub fn lag(self) -> Option<usize> {
        match self {
            Finding::NoLow | Finding::NoSecondLow => None,
            Finding::LongLow(lag)
            | Finding::FirstLow(lag)
            | Finding::SecondLow(lag)
            | Finding::FirstOfEqual(lag) => Some(lag),
        }
    }
}

/// The finding that these lows, upwards, give over the full-rate samples.
pub fn find(take: &History, lows: &[Low]) -> Finding {
    let Some(first) = lows.first() else {
        return Finding::NoLow;
    };
    let shorter = 8 * first.lag;
    if first.lag >= 55 {
        return Finding::LongLow(shorter);
    }
    let Some(second) = lows.get(1) else {
        return Finding::NoSecondLow;
    };
    let longer = 8 * second.lag;
    match difference(take, shorter).cmp(&difference(take, longer)) {
        std::cmp::Ordering::Less => Finding::FirstLow(shorter),
        std::cmp::Ordering::Equal => Finding::FirstOfEqual(shorter),
        std::cmp::Ordering::Greater => Finding::SecondLow(longer),
    }
}

/// The lowest of the eight lags when a lag was found.
pub fn lowest_around(found: usize) -> usize {
    found - 3
}

// Tracking

/// Why tracking was lost: the first of document 01's tests that fails.
#[derive(Clone, Copy, Debug, PartialEq, Eq)]
pub enum Loss {
    Eps,
    Floor,
    Jump,
}

/// The differences below, at and above the best lag.
#[derive(Clone, Copy, Debug, PartialEq, Eq)]
pub struct Vertex {
    pub d1: i64,
    pub d2: i64,
    pub d3: i64,
}

impl Vertex {
    /// 128(D1 - D3) / (D1 - 2D2 + D3), nearest, halves up. The divisor is
    /// above 0: best is the shortest of the least, so D1 > D2 <= D3.
    pub fn offset(&self) -> i64 {
        let (above, below) = self.fraction();
        nearest(above, below)
    }

    pub fn is_exact_half(&self) -> bool {
        let (above, below) = self.fraction();
        is_half(above, below)
    }

    fn fraction(&self) -> (i64, i64) {
        let Vertex { d1, d2, d3 } = self;
        (128 * (d1 - d3), d1 - 2 * d2 + d3)
    }
}

/// How the eight lags move.
#[derive(Clone, Copy, Debug, PartialEq, Eq)]
pub enum Move {
    Stay,
    Down,
    Up,
    StoppedAtLowest,
    StoppedAtHighest,
}

/// What a successful tracking step saw.
#[derive(Clone, Copy, Debug, PartialEq, Eq)]
pub struct Step {
    pub lowest: usize,
    pub best: usize,
    /// Another of the eight has the same least D.
    pub best_is_tied: bool,
    /// None when best is the first or last of the eight.
    pub vertex: Option<Vertex>,
}

/// Steps 1 and 2 of tracking over the eight lags from `lowest`.
pub fn track(
    take: &History,
    lowest: usize,
    last_best: usize,
    settings: &Settings,
) -> Result<Step, Loss> {
    let eight: [Measured; TRACKED] = std::array::from_fn(|place| measure(take, lowest + place));
    let least = eight.iter().map(|at| at.difference).min().unwrap();
    let place = eight.iter().position(|at| at.difference == least).unwrap();
    let best = eight[place];
    if !meets_eps(&best, settings.eps) {
        return Err(Loss::Eps);
    }
    if !meets_floor(&best, settings.floor) {
        return Err(Loss::Floor);
    }
    if best.lag.abs_diff(last_best) > 3 {
        return Err(Loss::Jump);
    }
    let within = (1..TRACKED - 1).contains(&place);
    Ok(Step {
        lowest,
        best: best.lag,
        best_is_tied: eight[place + 1..].iter().any(|at| at.difference == least),
        vertex: within.then(|| Vertex {
            d1: eight[place - 1].difference,
            d2: least,
            d3: eight[place + 1].difference,
        }),
    })
}

impl Step {
    /// Step 3: the period in 1/256 sample.
    pub fn period(&self) -> i64 {
        PERIOD_UNIT * self.best as i64 + self.vertex.map_or(0, |vertex| vertex.offset())
    }

    /// Step 4: how the eight lags move.
    pub fn moving(&self) -> Move {
        let highest = self.lowest + TRACKED - 1;
        match self.best - self.lowest {
            0..=2 if self.lowest == LOWEST_LAG => Move::StoppedAtLowest,
            0..=2 => Move::Down,
            5..=7 if highest == HIGHEST_LAG => Move::StoppedAtHighest,
            5..=7 => Move::Up,
            _ => Move::Stay,
        }
    }

    /// The lowest lag after the move.
    pub fn next_lowest(&self) -> usize {
        match self.moving() {
            Move::Down => self.lowest - 1,
            Move::Up => self.lowest + 1,
            Move::Stay | Move::StoppedAtLowest | Move::StoppedAtHighest => self.lowest,
        }
    }
}

// Note, rate, reading

/// The notes of the table at this rate that the scale holds, downwards.
pub fn notes_of(hertz: u32, scale: u32) -> impl Iterator<Item = usize> {
    notes_at(hertz)
        .rev()
        .filter(move |note| scale >> (note % 12) & 1 == 1)
}

pub fn distance(hertz: u32, note: usize, period: i64) -> i64 {
    (period_of(hertz, note) - period).abs()
}

/// The note of the scale with least distance in period, the higher on
/// equality: `min_by_key` gives the first of the least, and notes come
/// downwards. A table holds notes of all twelve sorts, so there is one.
pub fn wanted_note(hertz: u32, scale: u32, period: i64) -> usize {
    notes_of(hertz, scale)
        .min_by_key(|&note| distance(hertz, note, period))
        .expect("a scale in range holds a note")
}

/// The period of the wanted note; 0 where there is none, or where it is
/// outside the table.
pub fn wanted_period(hertz: u32, note: Option<usize>) -> i64 {
    match note {
        Some(note) if notes_at(hertz).contains(&note) => period_of(hertz, note),
        _ => 0,
    }
}

/// The bounds of the raw rate, which the scale's note keeps by itself.
pub const LEAST_RAW_RATE: i64 = 32_768;
pub const GREATEST_RAW_RATE: i64 = 131_072;

/// The raw rate, level where there is no wanted period and where it would be
/// out of its bounds.
pub fn raw_rate_in_bounds(period: i64, wanted_period: i64) -> i64 {
    if wanted_period == 0 {
        return LEVEL_RATE;
    }
    match raw_rate(period, wanted_period) {
        raw @ LEAST_RAW_RATE..=GREATEST_RAW_RATE => raw,
        _ => LEVEL_RATE,
    }
}

/// Period x 65536 / wanted period, nearest, halves up.
pub fn raw_rate(period: i64, wanted_period: i64) -> i64 {
    nearest(period * LEVEL_RATE, wanted_period)
}

/// The most that rounding cuts off, in 1/256 of a rate's unit.
pub const MOST_KEPT: i64 = 255;

/// (decay x rate + (256 - decay) x raw + kept) / 256, rounded down; and what
/// rounding cut off, which is kept for the next smoothing.
pub fn smoothed_rate(decay: u32, rate: i64, raw: i64, kept: i64) -> (i64, i64) {
    let decay = i64::from(decay);
    let total = decay * rate + (256 - decay) * raw + kept;
    (total.div_euclid(256), total.rem_euclid(256))
}

/// Where the input stands after n samples.
pub fn input_position(n: usize) -> i64 {
    n as i64 * POSITION_UNIT
}

/// The farthest that reading may stay behind the input.
pub const FARTHEST_BEHIND: i64 = 1_000 * POSITION_UNIT;

/// What became of the cycle at this sample.
#[derive(Clone, Copy, Debug, PartialEq, Eq)]
pub enum Cycle {
    Kept,
    Repeated,
    Dropped,
}

/// The read position, already grown, after a period was taken off or put on.
///
/// Without a period the rate is level, so the position stays as far behind
/// as it was and neither happens.
pub fn turn(position: i64, input: i64, period: Option<i64>) -> (i64, Cycle) {
    let Some(period) = period else {
        return (position, Cycle::Kept);
    };
    let cycle = period * (POSITION_UNIT / PERIOD_UNIT);
    if position > input {
        (position - cycle, Cycle::Repeated)
    } else if input - position > FARTHEST_BEHIND {
        (position + cycle, Cycle::Dropped)
    } else {
        (position, Cycle::Kept)
    }
}

/// The index of the sample at or before the place read: 5 samples before the
/// position.
pub fn read_index(position: i64) -> i64 {
    position.div_euclid(POSITION_UNIT) - 5
}

/// How far the place read lies beyond that sample, in steps of 1/4096: the
/// upper 12 bits of the fraction.
pub fn read_steps(position: i64) -> i64 {
    position.rem_euclid(POSITION_UNIT) / (POSITION_UNIT / READ_UNIT)
}

/// The value read at this position, before it is held within 16 bits.
pub fn read(take: &History, position: i64) -> i64 {
    let index = read_index(position);
    let neighbours = [-1, 0, 1, 2].map(|place| take.at(index + place));
    through(neighbours, read_steps(position))
}

/// Half of 2a + (b - p)v + (2p - 5a + 4b - q)v^2 + (3a - p - 3b + q)v^3, where
/// p, a, b, q are the neighbours and v = u/4096, rounded down.
pub fn through(neighbours: [i16; 4], u: i64) -> i64 {
    let [p, a, b, q] = neighbours.map(i64::from);
    let by_power = [
        2 * a,
        b - p,
        2 * p - 5 * a + 4 * b - q,
        3 * a - p - 3 * b + q,
    ];
    let over_4096_cubed: i64 = (0..)
        .zip(by_power)
        .map(|(power, factor)| factor * u.pow(power) * READ_UNIT.pow(3 - power))
        .sum();
    over_4096_cubed.div_euclid(2 * READ_UNIT.pow(3))
}

/// Held within -32768 to 32767.
pub fn held(value: i64) -> i16 {
    value.clamp(i16::MIN.into(), i16::MAX.into()) as i16
}

// Rounding

/// above / below to the nearest whole number, halves up: floor(v + 1/2).
/// `below` is above 0.
pub fn nearest(above: i64, below: i64) -> i64 {
    (2 * above + below).div_euclid(2 * below)
}

/// Whether above / below is a whole number and a half.
pub fn is_half(above: i64, below: i64) -> bool {
    (2 * above + below).rem_euclid(2 * below) == 0
}

// Cutting

/// The most samples in a block.
pub const LONGEST_BLOCK: usize = 512;

/// The k-th stretch of 512 samples, counted from 0; past the end it is empty.
pub fn cut(recording: &[i16], k: usize) -> &[i16] {
    recording.chunks(LONGEST_BLOCK).nth(k).unwrap_or(&[])
}
