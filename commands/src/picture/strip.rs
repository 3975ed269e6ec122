//! A row of the page: notes over time, and below them cents, level and cycles.

use super::figures::{lost, rank, FAR};
use super::heard::{Heard, Point};
use super::page::{clock, Sheet, Span, BLUE, FAINT, INK, LEFT, RED, SOFT};
use super::svg::{Path, Rect, Svg};
use crate::rows::Row;
use crate::seconds;
use words::scales::name;

/// The height of a semitone where there is room, where there is little, and of all notes before it becomes less.
const SEMITONE: f64 = 14.0;
const LEAST: f64 = 6.0;
const TALL: f64 = 380.0;
/// A row of one note has neighbours: so many semitones at least.
const FEWEST: i64 = 8;
/// The heights of a row's other parts.
const NOTHING: f64 = 22.0;
const CENTS: f64 = 44.0;
const LEVEL: f64 = 26.0;
const TICK: f64 = 5.0;
const GAP: f64 = 6.0;
/// The width of a letter of a note's name.
const LETTER: f64 = 6.8;
const AXIS: f64 = 34.0;
/// Notes shorter than so many seconds do not widen a row, nor do the lowest and the highest points, so many percent of either.
const SHORT: f64 = 0.05;
const ENDS: usize = 5;
/// A key that is held shorter does not widen it either.
const SHORT_KEY: f64 = 0.3;
/// The highest note there is.
const HIGHEST: i64 = 127;
/// A step of more semitones than this from one point to the next is no line.
const LEAP: f64 = 1.5;
/// The cents at which a row's curve of them ends, and the softest level drawn, in decibels.
const MOST: f64 = 100.0;
const SOFTEST: f64 = 60.0;

/// A thing that is drawn, and looks the same in the legend.
#[derive(Clone, Copy, PartialEq)]
pub enum Mark {
    Band,
    Sung,
    Wanted,
    Given,
    Key,
    Voice,
    Far,
    Lost,
    Cycle,
}

impl Mark {
    /// Its attributes.
    fn paint(self) -> String {
        let line = |colour: &str, width: f64| {
            format!(" fill=\"none\" stroke=\"{colour}\" stroke-width=\"{width}\" stroke-linejoin=\"round\"")
        };
        match self {
            Mark::Band => " fill=\"#e6ece6\"".to_string(),
            Mark::Sung => line(BLUE, 1.3),
            Mark::Wanted => " fill=\"#ffd465\" stroke=\"#a87400\" stroke-width=\".6\"".to_string(),
            Mark::Given => line(INK, 2.0),
            Mark::Key => line(INK, 0.8) + " stroke-dasharray=\"2 1.5\"",
            Mark::Voice => " fill=\"#8a4fb0\"".to_string(),
            Mark::Far => format!(" fill=\"{RED}\""),
            Mark::Lost => format!(" fill=\"url(#lost) {RED}\""),
            Mark::Cycle => line(INK, 0.8),
        }
    }

    /// One of it for the legend, 20 pixels wide, around a height.
    pub fn sample(self, svg: &mut Svg, x: f64, y: f64) {
        let tall = match self {
            Mark::Band | Mark::Far | Mark::Lost => 11.0,
            Mark::Wanted => 8.0,
            Mark::Key => 10.0,
            Mark::Voice => 3.0,
            Mark::Sung | Mark::Given | Mark::Cycle => 0.0,
        };
        let mut path = Path::default();
        match self {
            Mark::Sung | Mark::Given => path.curve(&[(x, y), (x + 20.0, y)]),
            Mark::Cycle => {
                path.curve(&[(x + 6.0, y), (x + 6.0, y - TICK)]);
                path.curve(&[(x + 13.0, y), (x + 13.0, y + TICK)]);
            }
            _ => svg.rect(Rect(x, y - tall / 2.0, 20.0, tall), &self.paint()),
        }
        svg.path(&path, &self.paint());
    }
}

/// Draws it from a height on, and says where it ends.
pub fn draw(svg: &mut Svg, sheet: &Sheet, span: Span, top: f64) -> f64 {
    let heard = sheet.heard;
    let mut y = top;
    match Notes::of(heard, span) {
        Some(notes) => {
            notes.names(svg, heard, y);
            within(svg, span, y, notes.tall(), |svg| {
                notes.draw(svg, heard, span)
            });
            y += notes.tall();
        }
        None => {
            let soft = format!(" font-size=\"11\" fill=\"{SOFT}\"");
            svg.words(LEFT, y + 14.0, &soft, "no pitch");
            y += NOTHING;
        }
    }
    y += GAP;
    side(svg, "cents", y + CENTS / 2.0 + 4.0);
    within(svg, span, y, CENTS, |svg| cents(svg, heard, span));
    y += CENTS + GAP;
    side(svg, "cycles", y + TICK + 4.0);
    within(svg, span, y, 2.0 * TICK + 1.0, |svg| {
        cycles(svg, heard, span)
    });
    y += 2.0 * TICK + GAP;
    side(svg, "level", y + LEVEL / 2.0 + 4.0);
    within(svg, span, y, LEVEL, |svg| level(svg, heard, span));
    y += LEVEL;
    axis(svg, heard, span, y);
    y + AXIS
}

/// A panel of the row, which is cut off at its edges. Within it a row begins at 0.
fn within(svg: &mut Svg, span: Span, top: f64, tall: f64, draw: impl FnOnce(&mut Svg)) {
    let at = Rect(LEFT, top, span.width().max(1.0), tall);
    svg.line(format_args!("<svg {at}>"));
    draw(svg);
    svg.line("</svg>");
}

fn side(svg: &mut Svg, word: &str, y: f64) {
    let soft = format!(" font-size=\"10\" text-anchor=\"end\" fill=\"{SOFT}\"");
    svg.words(LEFT - 6.0, y, &soft, word);
}

// ---- notes

/// The notes of a row: the lowest and the highest line of its grid.
struct Notes {
    low: i64,
    high: i64,
    semitone: f64,
}

impl Notes {
    /// Around what was sung, but for a little at either end, and around all notes that last. None where there is nothing.
    fn of(heard: &Heard, span: Span) -> Option<Notes> {
        let points = &heard.points[heard.points_within(span.from, span.to)];
        let mut sung: Vec<f64> = points
            .iter()
            .filter_map(|point| point.sung(heard.hertz))
            .collect();
        sung.sort_by(f64::total_cmp);
        let mut all = Vec::new();
        if !sung.is_empty() {
            all.extend([rank(&sung, ENDS), rank(&sung, 100 - ENDS)]);
        }
        let lasts = |from: u64, to: u64, long: f64| {
            let here = from < span.to && to > span.from;
            here && (to - from) as f64 > long * f64::from(heard.hertz)
        };
        let rows = heard.rows.iter();
        for row in rows.filter(|row| lasts(row.first, row.end(), SHORT)) {
            let voices = heard.voices.iter();
            let voices = voices.filter_map(|voice| heard.voice(row.note, *voice));
            all.extend(voices.chain([row.note]).map(f64::from));
        }
        let keys = heard.keys.iter().flatten();
        let keys = keys.filter(|held| lasts(held.from, held.to, SHORT_KEY));
        all.extend(keys.map(|held| f64::from(held.key)));
        let low = all.iter().copied().reduce(f64::min)?.round() as i64 - 2;
        let high = all.iter().copied().reduce(f64::max)?.round() as i64 + 2;
        let more = (FEWEST - (high - low)).max(0);
        let (low, high) = (low - more / 2, high + more - more / 2);
        let semitone = (TALL / (high - low) as f64).clamp(LEAST, SEMITONE);
        Some(Notes {
            low,
            high,
            semitone,
        })
    }

    fn tall(&self) -> f64 {
        self.semitone * (self.high - self.low) as f64
    }

    fn y(&self, note: f64) -> f64 {
        self.semitone * (self.high as f64 - note)
    }

    /// The notes that have a whole band.
    fn lanes(&self) -> std::ops::Range<i64> {
        (self.low + 1).max(0)..self.high.min(HIGHEST + 1)
    }

    /// At the left of the grid. Where there is little room, every fourth.
    fn names(&self, svg: &mut Svg, heard: &Heard, top: f64) {
        let room = self.semitone >= 10.0;
        svg.group("font-size=\"10\" text-anchor=\"end\"", |svg| {
            for note in self.lanes().filter(|note| room || note % 4 == 0) {
                let paint = match heard.wants(note) {
                    true => " font-weight=\"bold\"".to_string(),
                    false => format!(" fill=\"{SOFT}\""),
                };
                svg.words(
                    LEFT - 6.0,
                    top + self.y(note as f64) + 3.5,
                    &paint,
                    &name(note as u32),
                );
            }
        });
    }

    fn draw(&self, svg: &mut Svg, heard: &Heard, span: Span) {
        for note in self.lanes().filter(|note| heard.wants(*note)) {
            let y = self.y(note as f64) - self.semitone / 2.0;
            let lane = Rect(0.0, y + 0.5, span.width(), self.semitone - 1.0);
            svg.rect(lane, &Mark::Band.paint());
        }
        seconds_of(svg, heard, span, self.tall());
        self.keys(svg, heard, span);
        self.voices(svg, heard, span);
        self.wanted(svg, heard, span);
        self.wanted_names(svg, heard, span);
        for (mark, note) in [
            (Mark::Given, Point::given as fn(&Point, u32) -> Option<f64>),
            (Mark::Sung, Point::sung),
        ] {
            let mut path = Path::default();
            for line in lines(heard, span, |point| note(point, heard.hertz)) {
                let points: Vec<(f64, f64)> = line
                    .into_iter()
                    .map(|(x, note)| (x, self.y(note)))
                    .collect();
                path.curve(&points);
            }
            svg.path(&path, &mark.paint());
        }
    }

    /// A bar around a note.
    fn bar(&self, note: u8, tall: f64, (x, width): (f64, f64)) -> Rect {
        Rect(x, self.y(f64::from(note)) - tall / 2.0, width, tall)
    }

    fn keys(&self, svg: &mut Svg, heard: &Heard, span: Span) {
        svg.group(Mark::Key.paint().trim_start(), |svg| {
            for held in heard.keys.iter().flatten() {
                if let Some(at) = span.within(held.from, held.to) {
                    let title = format!("key {}", name(held.key.into()));
                    svg.titled(self.bar(held.key, self.semitone - 2.0, at), "", &title);
                }
            }
        });
    }

    fn voices(&self, svg: &mut Svg, heard: &Heard, span: Span) {
        svg.group(Mark::Voice.paint().trim_start(), |svg| {
            for row in &heard.rows {
                let Some(at) = span.within(row.first, row.end()) else {
                    continue;
                };
                for voice in &heard.voices {
                    if let Some(note) = heard.voice(row.note, *voice) {
                        let title = format!("voice {voice:+}: {}", name(note.into()));
                        svg.titled(self.bar(note, 3.0, at), "", &title);
                    }
                }
            }
        });
    }

    fn wanted(&self, svg: &mut Svg, heard: &Heard, span: Span) {
        let tall = (self.semitone - 3.0).min(9.0);
        svg.group(Mark::Wanted.paint().trim_start(), |svg| {
            for row in &heard.rows {
                if let Some(at) = span.within(row.first, row.end()) {
                    svg.titled(self.bar(row.note, tall, at), "", &title(heard, row));
                }
            }
        });
    }

    /// Above each bar that is as long as its name.
    fn wanted_names(&self, svg: &mut Svg, heard: &Heard, span: Span) {
        svg.group("font-size=\"10\"", |svg| {
            for row in &heard.rows {
                let name = name(row.note.into());
                let fits = |at: &(f64, f64)| at.1 >= LETTER * name.len() as f64;
                if let Some((x, _)) = span.within(row.first, row.end()).filter(fits) {
                    let y = self.y(f64::from(row.note)) - 0.75 * self.semitone;
                    svg.words(x + 1.0, y, "", &name);
                }
            }
        });
    }
}

/// What a pointer on a note is shown.
fn title(heard: &Heard, row: &Row) -> String {
    let at = |sample: u64| seconds(sample, heard.hertz);
    let points = &heard.points[heard.points_within(row.first, row.end())];
    let mut cents: Vec<f64> = points.iter().filter_map(Point::cents).collect();
    cents.sort_by(f64::total_cmp);
    let median = (!cents.is_empty())
        .then(|| format!(", median {:+.0} cents", rank(&cents, 50).round() + 0.0));
    format!(
        "{}, {} s to {} s, {} samples from {} on{}",
        name(row.note.into()),
        at(row.first),
        at(row.end()),
        row.length,
        row.first,
        median.unwrap_or_default()
    )
}

/// The points of a row that have a value, from one leap or gap to the next.
fn lines(heard: &Heard, span: Span, of: impl Fn(&Point) -> Option<f64>) -> Vec<Vec<(f64, f64)>> {
    let mut lines: Vec<Vec<(f64, f64)>> = vec![Vec::new()];
    for at in heard.points_within(span.from, span.to) {
        let (value, line) = (of(&heard.points[at]), lines.len() - 1);
        let last = lines[line].last().map(|point| point.1);
        if value.is_none_or(|value| last.is_some_and(|last| (value - last).abs() > LEAP)) {
            lines.push(Vec::new());
        }
        let line = lines.len() - 1;
        lines[line].extend(value.map(|value| (span.x(heard.end(at)), value)));
    }
    lines
}

// ---- below the notes

/// How far above or below the wanted note: red where it is far.
fn cents(svg: &mut Svg, heard: &Heard, span: Span) {
    let middle = CENTS / 2.0;
    let y = |cents: f64| middle - middle * cents.clamp(-MOST, MOST) / MOST;
    let mut fars = Path::default();
    for cents in [-FAR, FAR] {
        fars.curve(&[(0.0, y(cents)), (span.width(), y(cents))]);
    }
    svg.path(
        &fars,
        &format!(" stroke=\"{SOFT}\" stroke-width=\".6\" stroke-dasharray=\"3\""),
    );
    svg.rect(
        Rect(0.0, middle - 0.3, span.width(), 0.6),
        &format!(" fill=\"{FAINT}\""),
    );
    let (mut near, mut far) = (Path::default(), Path::default());
    for run in runs(heard, span, |point| {
        point.cents().map(|cents| (cents.abs() > FAR, y(cents)))
    }) {
        let path = if run.0 { &mut far } else { &mut near };
        path.area(&run.1, middle);
    }
    svg.path(&near, " fill=\"#7fb0dc\"");
    svg.path(&far, &Mark::Far.paint());
}

/// Areas of the same sort: whether it is the one or the other, and its points, from the beginning of its first stretch on.
type Run = (bool, Vec<(f64, f64)>);

fn runs(heard: &Heard, span: Span, of: impl Fn(&Point) -> Option<(bool, f64)>) -> Vec<Run> {
    let mut runs: Vec<Run> = Vec::new();
    let mut open = false;
    for at in heard.points_within(span.from, span.to) {
        let Some((sort, y)) = of(&heard.points[at]) else {
            open = false;
            continue;
        };
        if !open || runs.last().is_none_or(|run| run.0 != sort) {
            let begins = at.checked_sub(1).map_or(0, |before| heard.end(before));
            runs.push((sort, vec![(span.x(begins.max(span.from)), y)]));
        }
        open = true;
        if let Some(run) = runs.last_mut() {
            run.1.push((span.x(heard.end(at)), y));
        }
    }
    runs
}

/// A tick for each stretch in which cycles were repeated, up, or dropped, down.
fn cycles(svg: &mut Svg, heard: &Heard, span: Span) {
    let mut path = Path::default();
    for at in heard.points_within(span.from, span.to) {
        let (point, x) = (&heard.points[at], span.x(heard.end(at)));
        for (count, end) in [(point.repeated, 0.0), (point.dropped, 2.0 * TICK)] {
            if count > 0 {
                path.go(x, TICK);
                path.line(x, end);
            }
        }
    }
    svg.path(&path, &Mark::Cycle.paint());
}

/// The level in decibels, and where it is loud without a pitch.
fn level(svg: &mut Svg, heard: &Heard, span: Span) {
    let y = |level: f32| {
        let decibels = 20.0 * f64::from(level).max(1e-9).log10();
        LEVEL * (-decibels / SOFTEST).clamp(0.0, 1.0)
    };
    let mut path = Path::default();
    for (_, points) in runs(heard, span, |point| Some((true, y(point.level)))) {
        path.area(&points, LEVEL);
    }
    svg.path(&path, " fill=\"#b9c2cc\"");
    let ground = Rect(0.0, LEVEL - 0.6, span.width(), 0.6);
    svg.rect(ground, &format!(" fill=\"{FAINT}\""));
    for (_, points) in runs(heard, span, |point| lost(point).then_some((true, 0.0))) {
        let (from, to) = (points[0].0, points[points.len() - 1].0);
        svg.rect(Rect(from, 0.0, to - from, LEVEL), &Mark::Lost.paint());
    }
}

// ---- time

/// The decimals of a row's times, and the times: one a second, or ten where there is room.
fn ticks(heard: &Heard, span: Span) -> (usize, Vec<f64>) {
    let hertz = f64::from(heard.hertz);
    let pixels = span.x(span.from + u64::from(heard.hertz));
    let (step, decimals) = if pixels >= 400.0 { (0.1, 1) } else { (1.0, 0) };
    let (from, to) = (
        span.from as f64 / hertz / step,
        span.to as f64 / hertz / step,
    );
    let ticks = (from.ceil() as u64..=to.floor() as u64).map(|tick| step * tick as f64);
    (decimals, ticks.collect())
}

/// Lines through the notes.
fn seconds_of(svg: &mut Svg, heard: &Heard, span: Span, tall: f64) {
    let mut path = Path::default();
    for second in ticks(heard, span).1 {
        let x = span.x((second * f64::from(heard.hertz)).round() as u64);
        path.go(x, 0.0);
        path.line(x, tall);
    }
    svg.path(&path, &format!(" stroke=\"{FAINT}\" stroke-width=\".7\""));
}

fn axis(svg: &mut Svg, heard: &Heard, span: Span, top: f64) {
    let (decimals, ticks) = ticks(heard, span);
    svg.group(
        &format!("font-size=\"10\" text-anchor=\"middle\" fill=\"{SOFT}\""),
        |svg| {
            for second in ticks {
                let x = span.x((second * f64::from(heard.hertz)).round() as u64);
                svg.words(LEFT + x, top + 13.0, "", &clock(second, decimals));
            }
        },
    );
}
