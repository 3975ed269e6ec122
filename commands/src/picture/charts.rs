//! The two charts at the head of a page: how long each of the twelve notes was
//! sung, and how far the singing was from the wanted note.

use super::figures::FAR;
use super::heard::Heard;
use super::page::{Sheet, BLUE, FAINT, RED, SOFT};
use super::svg::{Path, Rect, Svg};
use crate::seconds;
use words::scales::NAMES;

/// Their widths and their height.
pub const BARS: f64 = 12.0 * BAR;
pub const CENTS: f64 = 250.0;
pub const HEIGHT: f64 = OVER + TALL + UNDER;
/// A bar's width, and the heights of the words over what is drawn, of that, and of the words under it.
const BAR: f64 = 26.0;
const OVER: f64 = 22.0;
const TALL: f64 = 88.0;
const UNDER: f64 = 34.0;

/// What a chart is about.
fn about(svg: &mut Svg, left: f64, top: f64, words: &str) {
    let soft = format!(" font-size=\"11\" fill=\"{SOFT}\"");
    svg.words(left, top + 4.0, &soft, words);
}

// ---- the twelve notes

/// A bar for each of the twelve notes.
pub fn twelve(svg: &mut Svg, sheet: &Sheet, left: f64, top: f64) {
    let (heard, twelve) = (sheet.heard, &sheet.figures.twelve);
    let not = match heard.keys.is_some() {
        true => "seconds sung at each note; striped, ×: not a key",
        false => "seconds sung at each note; striped, ×: not in the scale",
    };
    about(svg, left, top, not);
    let most = twelve.iter().max().copied().unwrap_or(0).max(1);
    svg.group("font-size=\"11\" text-anchor=\"middle\"", |svg| {
        for (note, sung) in twelve.iter().enumerate() {
            let (x, base) = (left + BAR * note as f64, top + OVER + TALL);
            let tall = TALL * *sung as f64 / most as f64;
            bar(
                svg,
                heard,
                (note, *sung),
                Rect(x + 3.0, base - tall, BAR - 6.0, tall),
            );
            under(svg, heard, note, x + BAR / 2.0, base);
        }
    });
}

fn bar(svg: &mut Svg, heard: &Heard, (note, sung): (usize, u64), at: Rect) {
    let long = sung as f64 / f64::from(heard.hertz);
    let title = format!(
        "{}: {} s, {sung} samples",
        NAMES[note],
        seconds(sung, heard.hertz)
    );
    let paint = match heard.wants(note as i64) {
        true => format!(" fill=\"{BLUE}\""),
        false => format!(" fill=\"url(#not) {RED}\" stroke=\"{RED}\""),
    };
    svg.titled(at, &paint, &title);
    if at.3 > 1.0 {
        let decimals = if long < 1.0 { 2 } else { 1 };
        let long = format!("{long:.decimals$}");
        svg.words(at.0 + at.2 / 2.0, at.1 - 3.0, " font-size=\"9\"", &long);
    }
}

/// A note's name, and a cross where it is not wanted.
fn under(svg: &mut Svg, heard: &Heard, note: usize, middle: f64, base: f64) {
    if heard.wants(note as i64) {
        svg.words(middle, base + 14.0, " font-weight=\"bold\"", NAMES[note]);
    } else {
        let soft = format!(" fill=\"{SOFT}\"");
        svg.words(middle, base + 14.0, &soft, NAMES[note]);
        let red = format!(" fill=\"{RED}\" font-weight=\"bold\"");
        svg.words(middle, base + 27.0, &red, "×");
    }
}

// ---- cents

/// Bins of so many cents, from this far below the wanted note to as far above it.
const BIN: f64 = 10.0;
const FARTHEST: f64 = 100.0;
const BINS: usize = 20;
/// The cents that are named.
const NAMED: [(f64, &str); 5] = [
    (-FARTHEST, "≤ -100"),
    (-FAR, "-60"),
    (0.0, "0"),
    (FAR, "+60"),
    (FARTHEST, "≥ +100"),
];

/// How many of these cents are in each bin; those that are farther are in the last one.
fn bins(cents: impl Iterator<Item = f64>) -> [u64; BINS] {
    let mut bins = [0; BINS];
    for cents in cents {
        let bin = ((cents + FARTHEST) / BIN).floor();
        bins[bin.clamp(0.0, BINS as f64 - 1.0) as usize] += 1;
    }
    bins
}

/// How often the singing was how far from the wanted note.
pub fn cents(svg: &mut Svg, heard: &Heard, left: f64, top: f64) {
    about(svg, left, top, "cents from the wanted note");
    let base = top + OVER + TALL;
    let x = |cents: f64| left + CENTS * (cents + FARTHEST) / (2.0 * FARTHEST);
    let bins = bins(heard.points.iter().filter_map(|point| point.cents()));
    let most = bins.iter().max().copied().unwrap_or(0).max(1);
    for (at, count) in bins.iter().enumerate().filter(|bin| *bin.1 > 0) {
        let from = BIN * at as f64 - FARTHEST;
        let far = (from + BIN / 2.0).abs() > FAR;
        let tall = TALL * *count as f64 / most as f64;
        let at = Rect(x(from) + 1.0, base - tall, CENTS / BINS as f64 - 2.0, tall);
        svg.rect(at, &format!(" fill=\"{}\"", if far { RED } else { BLUE }));
    }
    let mut fars = Path::default();
    for far in [-FAR, FAR] {
        fars.curve(&[(x(far), base), (x(far), base - TALL)]);
    }
    let dashed = format!(" fill=\"none\" stroke=\"{SOFT}\" stroke-dasharray=\"3\"");
    svg.path(&fars, &dashed);
    svg.rect(Rect(left, base, CENTS, 1.0), &format!(" fill=\"{FAINT}\""));
    let soft = format!("font-size=\"11\" text-anchor=\"middle\" fill=\"{SOFT}\"");
    svg.group(&soft, |svg| {
        for (cents, name) in NAMED {
            svg.words(x(cents), base + 14.0, "", name);
        }
    });
}

#[cfg(test)]
mod tests {
    use super::*;

    /// Ten cents are a bin, and what is farther than a hundred is in the last.
    #[test]
    fn cents_in_bins() {
        let cents = [
            -2000.0, -100.0, -90.1, -0.1, 0.0, 9.9, 60.0, 99.9, 100.0, 777.0,
        ];
        let mut right = [0; BINS];
        for (bin, count) in [(0, 3), (9, 1), (10, 2), (16, 1), (19, 3)] {
            right[bin] = count;
        }
        assert_eq!(bins(cents.into_iter()), right);
    }
}
