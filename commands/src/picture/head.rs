//! The head of a page: the take, its settings and figures, whether the scale
//! fits, the charts, and what each mark on the page is.

use super::charts::{self, BARS, CENTS};
use super::figures::{percent, Figures, Verdict};
use super::page::{clock, Sheet, INK, LEFT, RED, RIGHT, SOFT};
use super::strip::Mark;
use super::svg::{Rect, Svg};
use crate::tune::late;
use crate::{grouped, seconds};
use words::scales::{sets, NAMES};

/// The left of the text, the room for the word before it, and the pixels of a letter, of a large one and of a line.
const TEXT: f64 = 16.0;
const WORD: f64 = 66.0;
const LETTER: f64 = 6.9;
const LARGE: f64 = 11.5;
const LINE: f64 = 18.0;
/// Between the charts, and beside them.
const GAP: f64 = 34.0;
/// The charts stand beside the text on a page as wide as this, and otherwise below it.
const WIDE: f64 = 1100.0;

/// Draws it, and says where it ends.
pub fn draw(svg: &mut Svg, sheet: &Sheet) -> f64 {
    let beside = sheet.width >= WIDE;
    let charts = BARS + GAP + CENTS;
    let room = match beside {
        true => sheet.width - charts - RIGHT - TEXT - 2.0 * GAP,
        false => sheet.width - RIGHT - TEXT,
    };
    let mut y = texts(svg, sheet, room);
    y = verdict(svg, sheet, y, room);
    let (left, top) = match beside {
        true => (sheet.width - RIGHT - GAP / 2.0 - charts, 14.0),
        false => (LEFT, y + 14.0),
    };
    charts::twelve(svg, sheet, left, top);
    charts::cents(svg, sheet.heard, left + BARS + GAP, top);
    let bottom = top + charts::HEIGHT;
    legend(svg, sheet, y.max(bottom) + 8.0)
}

/// A name of so many letters at most: the middle of a longer one is left out.
fn fitted(name: &str, most: f64) -> String {
    let letters: Vec<char> = name.chars().collect();
    let (most, all) = (most as usize, letters.len());
    if all <= most {
        return name.to_string();
    }
    let (first, last) = (most / 2, most - most / 2 - 1);
    let [first, last] =
        [&letters[..first], &letters[all - last..]].map(|part| part.iter().collect::<String>());
    format!("{first}\u{2026}{last}")
}

/// Lines of words, as wide as there is room.
fn wrapped(text: &str, room: f64) -> Vec<String> {
    let most = (room / LETTER) as usize;
    let mut lines = vec![String::new()];
    for word in text.split(' ') {
        let last = lines.len() - 1;
        let line = &mut lines[last];
        match line.is_empty() || line.chars().count() + 1 + word.chars().count() <= most {
            true if line.is_empty() => line.push_str(word),
            true => *line += &format!(" {word}"),
            false => lines.push(word.to_string()),
        }
    }
    lines
}

/// The take's name, and under it what is said of it, each with a word before it.
fn texts(svg: &mut Svg, sheet: &Sheet, room: f64) -> f64 {
    let large = " font-size=\"17\" font-weight=\"bold\"";
    svg.words(TEXT, 28.0, large, &fitted(&sheet.file, room / LARGE));
    let soft = format!(" fill=\"{SOFT}\"");
    let mut y = 34.0;
    for (word, text) in said(sheet) {
        svg.words(TEXT, y + LINE, &soft, word);
        for line in wrapped(&text, room - WORD) {
            y += LINE;
            svg.words(TEXT + WORD, y, "", &line);
        }
    }
    y
}

fn said(sheet: &Sheet) -> Vec<(&'static str, String)> {
    let (heard, figures) = (sheet.heard, sheet.figures);
    let set = &heard.settings;
    let notes = match &sheet.song {
        Some(song) => format!("the keys of {song}"),
        None => scale(set.scale),
    };
    let hertz = grouped(heard.hertz.into());
    let (eps, decay, floor) = (set.eps, set.decay, set.floor);
    let [mean, most] = heard.latency.map(|samples| late(samples, heard.hertz));
    let (repeated, dropped) = (figures.repeated, figures.dropped);
    let lost = seconds(figures.lost, heard.hertz);
    let voices = heard.voices.iter().map(|voice| format!("{voice:+}"));
    let voices = voices.collect::<Vec<_>>().join(", ");
    let mut said = vec![
        ("wanted", notes),
        ("voices", voices),
        (
            "settings",
            format!("eps {eps}, decay {decay}, floor {floor}; {hertz} samples a second"),
        ),
        ("take", found(sheet)),
        ("no pitch", format!("{lost} s of what is loud")),
        ("singing", off(figures)),
        ("cycles", format!("{repeated} repeated, {dropped} dropped")),
        ("latency", format!("{mean} on average, {most} at most")),
        ("drawn", part(sheet)),
    ];
    said.retain(|(_, text)| !text.is_empty());
    said
}

/// The notes of a scale, and its name where it has one.
pub fn scale(mask: u32) -> String {
    if mask == crate::octave::ALL {
        return "all twelve notes".to_string();
    }
    let notes = (0..12).filter(|note| mask >> note & 1 == 1);
    let notes: Vec<&str> = notes.map(|note| NAMES[note]).collect();
    let name = sets().into_iter().find(|set| set.mask == mask);
    let name = name.map(|set| format!(" ({})", set.name));
    format!("{}{}", notes.join(" "), name.unwrap_or_default())
}

fn found(sheet: &Sheet) -> String {
    let (heard, pitched) = (sheet.heard, sheet.figures.pitched);
    let long = seconds(heard.samples, heard.hertz);
    let share = percent(pitched, heard.samples);
    format!(
        "{long} s, {} samples, pitched {pitched} ({share} %)",
        heard.samples
    )
}

/// How far the singing was from the wanted notes.
fn off(figures: &Figures) -> String {
    match figures.off {
        None => String::new(),
        Some([median, most]) => {
            format!(
                "{median:.0} cents off in the median, at most {most:.0} cents for 95 % of the time"
            )
        }
    }
}

/// What of the take is drawn, where that is not all.
fn part(sheet: &Sheet) -> String {
    let (from, to) = sheet.part;
    if (from, to) == (0, sheet.heard.samples) {
        return String::new();
    }
    let at = |sample: u64| clock(sample as f64 / f64::from(sheet.heard.hertz), 1);
    format!(
        "{} to {}; the figures are those of the whole take",
        at(from),
        at(to)
    )
}

/// A banner where the scale is wrong, and a line where it is not.
fn verdict(svg: &mut Svg, sheet: &Sheet, mut y: f64, room: f64) -> f64 {
    let verdict = sheet.figures.verdict(sheet.heard);
    let lines = wrapped(&verdict.words(), room - 24.0);
    let wrong = matches!(verdict, Verdict::Wrong(..));
    let (inside, attributes) = match wrong {
        true => {
            let tall = LINE * lines.len() as f64 + 10.0;
            let at = Rect(TEXT, y + 8.0, room, tall);
            svg.rect(at, &format!(" rx=\"4\" fill=\"{RED}\""));
            (12.0, " font-weight=\"bold\" fill=\"#fff\"")
        }
        false => (0.0, " font-weight=\"bold\""),
    };
    y += inside / 2.0;
    for line in lines {
        y += LINE;
        svg.words(TEXT + inside, y + 2.0, attributes, &line);
    }
    y + 4.0 + inside
}

/// What the marks on the page are called.
const MARKS: [(Mark, &str); 9] = [
    (Mark::Band, "note of the scale"),
    (Mark::Sung, "sung"),
    (Mark::Wanted, "wanted note"),
    (Mark::Given, "given out"),
    (Mark::Key, "key held"),
    (Mark::Voice, "voice"),
    (Mark::Far, "over 60 cents off"),
    (Mark::Lost, "loud without a pitch"),
    (Mark::Cycle, "cycle repeated (up), dropped (down)"),
];

/// What each thing on the page is, one behind the other, and on a narrow page in several lines.
fn legend(svg: &mut Svg, sheet: &Sheet, y: f64) -> f64 {
    let (keys, voices) = (sheet.heard.keys.is_some(), !sheet.heard.voices.is_empty());
    let (mut x, mut y) = (LEFT, y + 8.0);
    for (mark, name) in MARKS {
        if (mark == Mark::Key && !keys) || (mark == Mark::Voice && !voices) {
            continue;
        }
        let name = match mark == Mark::Band && keys {
            true => "note of a key",
            false => name,
        };
        let wide = 44.0 + LETTER * name.chars().count() as f64;
        if x + wide > sheet.width - RIGHT {
            (x, y) = (LEFT, y + LINE);
        }
        mark.sample(svg, x, y);
        svg.words(
            x + 26.0,
            y + 4.0,
            &format!(" font-size=\"11\" fill=\"{INK}\""),
            name,
        );
        x += wide;
    }
    y + 20.0
}

#[cfg(test)]
mod tests {
    use super::*;

    #[test]
    fn words_fill_lines() {
        let room = 10.0 * LETTER;
        assert_eq!(wrapped("one two three", room), ["one two", "three"]);
        assert_eq!(wrapped("one two th", room), ["one two th"]);
        assert_eq!(wrapped("aVeryLongWord b", room), ["aVeryLongWord", "b"]);
    }

    #[test]
    fn a_long_name_loses_its_middle() {
        assert_eq!(fitted("take.wav", 8.9), "take.wav");
        assert_eq!(fitted("a-long-take.wav", 9.0), "a-lo\u{2026}.wav");
        assert_eq!(fitted("a-long-take.wav", 9.0).chars().count(), 9);
    }
}
