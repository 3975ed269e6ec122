//! SVG as text. Numbers have one decimal at most, so that a page is the same on
//! every run, and small.

use std::fmt::Display;

/// Tenths of a pixel.
fn tenths(pixels: f64) -> i64 {
    (10.0 * pixels).round() as i64
}

/// So many tenths, as few letters as there can be: 1.5, -.2, 3.
fn written(tenths: i64) -> String {
    let sign = if tenths < 0 { "-" } else { "" };
    match (tenths.abs() / 10, tenths.abs() % 10) {
        (whole, 0) => format!("{sign}{whole}"),
        (0, part) => format!("{sign}.{part}"),
        (whole, part) => format!("{sign}{whole}.{part}"),
    }
}

pub fn px(pixels: f64) -> String {
    written(tenths(pixels))
}

/// Text that stands between tags, or in an attribute.
pub fn escaped(text: &str) -> String {
    let mut safe = String::new();
    for letter in text.chars() {
        match letter {
            '&' => safe += "&amp;",
            '<' => safe += "&lt;",
            '>' => safe += "&gt;",
            '"' => safe += "&quot;",
            '\u{FFFE}' | '\u{FFFF}' => safe.push('\u{FFFD}'),
            letter => safe.push(letter),
        }
    }
    safe
}

/// Elements, one behind the other. What they look like is said by the group that they stand in, or by their last attributes.
#[derive(Default)]
pub struct Svg {
    pub text: String,
}

impl Svg {
    /// A line of its own.
    pub fn line(&mut self, line: impl Display) {
        self.text += &format!("{line}\n");
    }

    /// A group with these attributes, around what is drawn within.
    pub fn group(&mut self, attributes: &str, within: impl FnOnce(&mut Svg)) {
        let mut inner = Svg::default();
        within(&mut inner);
        if !inner.text.is_empty() {
            self.line(format_args!("<g {attributes}>"));
            self.text += &inner.text;
            self.line("</g>");
        }
    }

    pub fn rect(&mut self, at: Rect, attributes: &str) {
        self.line(format_args!("<rect {at}{attributes}/>"));
    }

    /// A rectangle that says something to a pointer.
    pub fn titled(&mut self, at: Rect, attributes: &str, title: &str) {
        let title = escaped(title);
        self.line(format_args!(
            "<rect {at}{attributes}><title>{title}</title></rect>"
        ));
    }

    pub fn words(&mut self, x: f64, y: f64, attributes: &str, words: &str) {
        let (x, y, words) = (px(x), px(y), escaped(words));
        self.line(format_args!(
            "<text x=\"{x}\" y=\"{y}\"{attributes}>{words}</text>"
        ));
    }

    /// Nothing where the path has nothing.
    pub fn path(&mut self, path: &Path, attributes: &str) {
        if !path.d.is_empty() {
            self.line(format_args!("<path d=\"{}\"{attributes}/>", path.d));
        }
    }
}

/// Left, top, width and height.
#[derive(Clone, Copy)]
pub struct Rect(pub f64, pub f64, pub f64, pub f64);

impl Display for Rect {
    fn fmt(&self, text: &mut std::fmt::Formatter) -> std::fmt::Result {
        let [x, y, width, height] = [self.0, self.1, self.2, self.3].map(px);
        write!(
            text,
            "x=\"{x}\" y=\"{y}\" width=\"{width}\" height=\"{height}\""
        )
    }
}

/// A path in steps of a tenth of a pixel, each from the last, so that nothing drifts.
#[derive(Default)]
pub struct Path {
    d: String,
    at: (i64, i64),
}

impl Path {
    pub fn go(&mut self, x: f64, y: f64) {
        self.at = (tenths(x), tenths(y));
        let (x, y) = self.at;
        self.d += &format!("M{}{}", written(x), behind(y));
    }

    pub fn line(&mut self, x: f64, y: f64) {
        let to = (tenths(x), tenths(y));
        let (dx, dy) = (to.0 - self.at.0, to.1 - self.at.1);
        self.at = to;
        self.d += &match (dx, dy) {
            (0, 0) => String::new(),
            (dx, 0) => format!("h{}", written(dx)),
            (0, dy) => format!("v{}", written(dy)),
            (dx, dy) => format!("l{}{}", written(dx), behind(dy)),
        };
    }

    /// A line through points from left to right, without those that nobody would miss.
    pub fn curve(&mut self, points: &[(f64, f64)]) {
        let mut kept = thin(points).into_iter();
        if let Some((x, y)) = kept.next() {
            self.go(x, y);
        }
        kept.for_each(|(x, y)| self.line(x, y));
    }

    /// The same, filled down or up to a height.
    pub fn area(&mut self, points: &[(f64, f64)], base: f64) {
        if let (Some(first), Some(last)) = (points.first(), points.last()) {
            self.go(first.0, base);
            thin(points).into_iter().for_each(|(x, y)| self.line(x, y));
            self.line(last.0, base);
            self.d += "z";
        }
    }
}

/// A number behind another one.
fn behind(tenths: i64) -> String {
    let blank = if tenths < 0 { "" } else { " " };
    format!("{blank}{}", written(tenths))
}

/// How far a point that is left out may lie above or below the line, in pixels.
const MISSED: f64 = 0.2;

/// Points from left to right, without those that lie on the line between the others. From the last one kept, each point narrows the
/// slopes of lines that pass all since then; one that no such line comes to ends the line at the point before it.
fn thin(points: &[(f64, f64)]) -> Vec<(f64, f64)> {
    let mut kept: Vec<(f64, f64)> = points.first().copied().into_iter().collect();
    let mut slopes = (f64::NEG_INFINITY, f64::INFINITY);
    for pair in points.windows(2) {
        let (last, point) = (pair[0], pair[1]);
        let mut from = kept[kept.len() - 1];
        let steep = |from: (f64, f64), by: f64| (point.1 + by - from.1) / (point.0 - from.0);
        if steep(from, 0.0) < slopes.0 || steep(from, 0.0) > slopes.1 {
            kept.push(last);
            (from, slopes) = (last, (f64::NEG_INFINITY, f64::INFINITY));
        }
        let (least, most) = (steep(from, -MISSED), steep(from, MISSED));
        slopes = (slopes.0.max(least), slopes.1.min(most));
    }
    kept.extend(points.last().filter(|_| points.len() > 1));
    kept
}

#[cfg(test)]
mod tests {
    use super::*;

    #[test]
    fn numbers_are_short() {
        for (pixels, text) in [
            (0.0, "0"),
            (-0.04, "0"),
            (0.05, ".1"),
            (-0.2, "-.2"),
            (12.0, "12"),
            (-12.34, "-12.3"),
        ] {
            assert_eq!(px(pixels), text);
        }
    }

    #[test]
    fn text_is_safe() {
        assert_eq!(
            escaped("a<b>&\"c\u{FFFF}"),
            "a&lt;b&gt;&amp;&quot;c\u{FFFD}"
        );
    }

    #[test]
    fn a_path_does_not_drift() {
        let mut path = Path::default();
        path.go(0.0, 5.0);
        (1..=100).for_each(|at| path.line(0.14 * f64::from(at), 5.0));
        path.line(14.0, -2.5);
        let steps: f64 = path.d[4..]
            .split(['h', 'v'])
            .filter_map(|step| step.parse::<f64>().ok())
            .filter(|step| *step > 0.0)
            .sum();
        assert!((steps - 14.0).abs() < 1e-6, "{}", path.d);
        assert!(
            path.d.starts_with("M0 5h.1h.2") && path.d.ends_with("v-7.5"),
            "{}",
            path.d
        );
    }

    /// Every point that is left out lies as near to the line as is said, and a straight line has two points.
    #[test]
    fn what_is_left_out_is_not_missed() {
        let wave = |x: f64| 20.0 * (x / 9.0).sin() + if x > 300.0 { 50.0 } else { 0.0 };
        let points: Vec<(f64, f64)> = (0..2000)
            .map(|at| 0.3 * f64::from(at))
            .map(|x| (x, wave(x)))
            .collect();
        let kept = thin(&points);
        assert!(kept.len() < points.len() / 4, "{}", kept.len());
        for (x, y) in &points {
            let at = kept.partition_point(|point| point.0 < *x).max(1);
            let (from, to) = (kept[at - 1], kept[at]);
            let line = from.1 + (to.1 - from.1) * (x - from.0) / (to.0 - from.0);
            assert!((line - y).abs() <= MISSED + 1e-9, "{x}");
        }
        let straight: Vec<(f64, f64)> = (0..50).map(f64::from).map(|x| (x, 2.0 * x)).collect();
        assert_eq!(thin(&straight), [(0.0, 0.0), (49.0, 98.0)]);
        assert_eq!(thin(&straight[..1]), [(0.0, 0.0)]);
        assert_eq!(thin(&[]), []);
    }
}
