//! The page: what stands on it, how large it is, and its colours. Each thing has
//! a mark beside its colour, so that it is told without colours too: what is not
//! of the scale is striped and crossed, what is far lies beyond a dashed line,
//! what is loud without a pitch is hatched.

use super::figures::Figures;
use super::head;
use super::heard::Heard;
use super::strip;
use super::svg::{escaped, px, Svg};

/// What is drawn.
pub struct Sheet<'a> {
    pub file: String,
    /// The name of the MIDI file.
    pub song: Option<String>,
    pub heard: &'a Heard,
    pub figures: &'a Figures,
    /// The samples that are drawn: from the first, and to the one before the second.
    pub part: (u64, u64),
    pub width: f64,
}

/// Room at the left of what is drawn, for names, and at its right.
pub const LEFT: f64 = 52.0;
pub const RIGHT: f64 = 20.0;
/// About so many seconds are a row.
const ROW: f64 = 15.0;

pub const INK: &str = "#1a1a1a";
pub const SOFT: &str = "#666";
pub const FAINT: &str = "#d8d8d8";
pub const RED: &str = "#c2181b";
pub const BLUE: &str = "#0b5cad";

/// The patterns: red stripes, for a note that is not wanted, and grey ones, for what is loud without a pitch. A viewer without patterns
/// draws the colour behind them.
const PATTERNS: &str = r##"<defs>
<pattern id="not" width="5" height="5" patternUnits="userSpaceOnUse" patternTransform="rotate(45)"><rect width="5" height="5" fill="#fff"/><rect width="3" height="5" fill="#c2181b"/></pattern>
<pattern id="lost" width="4" height="4" patternUnits="userSpaceOnUse" patternTransform="rotate(-45)"><rect width="4" height="4" fill="#fff"/><rect width="1.6" height="4" fill="#c2181b"/></pattern>
</defs>"##;

/// The page as text.
pub fn svg(sheet: &Sheet) -> String {
    let mut head = Svg::default();
    let mut y = head::draw(&mut head, sheet);
    let mut strips = Svg::default();
    for span in spans(sheet) {
        y = strip::draw(&mut strips, sheet, span, y);
    }
    let (width, height) = (px(sheet.width), px(y.ceil()));
    let mut page = Svg::default();
    page.line(format_args!(
        "<svg xmlns=\"http://www.w3.org/2000/svg\" width=\"{width}\" height=\"{height}\" viewBox=\"0 0 {width} {height}\" font-family=\"DejaVu Sans,Verdana,Arial,sans-serif\" font-size=\"12\" fill=\"{INK}\">"
    ));
    page.line(format_args!("<title>{}</title>", escaped(&sheet.file)));
    page.line(PATTERNS);
    // paper of its own, so that a dark viewer does not swallow the ink
    page.line("<rect width=\"100%\" height=\"100%\" fill=\"#fff\"/>");
    page.text += &head.text;
    page.text += &strips.text;
    page.line("</svg>");
    page.text
}

/// A row of the page: its samples, and how many pixels a sample has.
#[derive(Clone, Copy)]
pub struct Span {
    pub from: u64,
    pub to: u64,
    scale: f64,
}

impl Span {
    /// The place of a sample, from the row's left on.
    pub fn x(&self, sample: u64) -> f64 {
        (sample as f64 - self.from as f64) * self.scale
    }

    /// The row's own width.
    pub fn width(&self) -> f64 {
        self.x(self.to)
    }

    /// A stretch of samples as far as it lies in the row: left, and width.
    pub fn within(&self, from: u64, to: u64) -> Option<(f64, f64)> {
        let (from, to) = (from.max(self.from), to.min(self.to));
        (from < to).then(|| (self.x(from), self.x(to) - self.x(from)))
    }
}

/// The rows: each of the same whole number of seconds, and about as long as a row should be.
fn spans(sheet: &Sheet) -> Vec<Span> {
    let (from, to) = sheet.part;
    let hertz = f64::from(sheet.heard.hertz);
    let seconds = (to - from) as f64 / hertz;
    let rows = (seconds / ROW).round().max(1.0);
    let length = (seconds / rows).ceil().max(1.0);
    let samples = (length * hertz) as u64;
    let scale = (sheet.width - LEFT - RIGHT) / samples as f64;
    let firsts = (from..to.max(from + 1)).step_by(samples as usize);
    let span = |first: u64| Span {
        from: first,
        to: (first + samples).min(to),
        scale,
    };
    firsts.map(span).collect()
}

/// Minutes and seconds, with so many decimals.
pub fn clock(seconds: f64, decimals: usize) -> String {
    let tick = 10f64.powi(decimals as i32);
    let ticks = (seconds * tick).round();
    let (minutes, rest) = (
        (ticks / tick / 60.0).floor(),
        ticks.rem_euclid(60.0 * tick) / tick,
    );
    let width = if decimals == 0 { 2 } else { 3 + decimals };
    format!("{minutes}:{rest:0width$.decimals$}")
}

#[cfg(test)]
mod tests {
    use super::*;

    #[test]
    fn times_on_a_clock() {
        for (seconds, decimals, text) in [
            (0.0, 0, "0:00"),
            (65.0, 0, "1:05"),
            (59.96, 1, "1:00.0"),
            (9.5, 1, "0:09.5"),
            (3600.0, 0, "60:00"),
        ] {
            assert_eq!(clock(seconds, decimals), text);
        }
    }
}
