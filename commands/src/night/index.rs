//! OUT_DIR/index.html: the night's figures, what to look at first, and every take
//! with its picture. It has no figure that the report has not, nothing of how fast
//! it was, and so the same bytes for the same night. It is text and pictures
//! alone: no script, and nothing from elsewhere.

use super::record::State;
use super::room::{self, settings, Room, NOT_ITS_OWN};
use super::summary::{look_at, size, why_undrawn, Entry, Report, MENDED, SUSPICIOUS, UNDRAWN};
use super::{removed, version};
use crate::picture::{escaped, scale};
use std::fs;
use std::path::{Path, PathBuf};
use words::coded::coded;
use words::end::{no, shown, End};
use words::request::Night;

const STYLE: &str = include_str!("index.css");

fn place(room: &Room) -> PathBuf {
    room.to.join("index.html")
}

/// Where this is there, index.html is the night's own.
fn own(room: &Room) -> PathBuf {
    room.kept("index")
}

/// Writes it, for a night with pictures or one that has written it before, so that it is never of an earlier run. What failed of that.
pub fn write(request: &Night, room: &Room, report: &Report) -> Option<End> {
    let wanted = request.pictures || own(room).exists();
    let written = || {
        let place = place(room);
        if !own(room).exists() && fs::symlink_metadata(&place).is_ok() {
            return Err(no(&place, NOT_ITS_OWN));
        }
        room::write(room, &own(room), "index.html\n")?;
        room::write(room, &place, &page(request, room, report))
    };
    wanted.then(written).and_then(Result::err)
}

/// Removes it, where the night has made it.
pub fn remove(room: &Room) -> Result<(), End> {
    match own(room).exists() {
        true => removed(&place(room)).and_then(|()| removed(&own(room))),
        false => Ok(()),
    }
}

fn page(request: &Night, room: &Room, report: &Report) -> String {
    let from = escaped(&shown(room.from.as_os_str()));
    let takes = report.takes().iter();
    let takes: String = takes.map(|take| card(room, take)).collect();
    let (set, figures) = (escaped(&set(request)), figures(report));
    let first = first(room, report);
    format!(
        r##"<!DOCTYPE html>
<html lang="en">
<head>
<meta charset="utf-8">
<meta name="viewport" content="width=device-width, initial-scale=1">
<title>A night over {from}</title>
<style>
{STYLE}</style>
</head>
<body>
<header>
<h1>A night over <span class="name">{from}</span></h1>
<p>{set}</p>
<dl>
{figures}</dl>
</header>
{first}<main>
<h2>Every take</h2>
<ul class="takes">
{takes}</ul>
</main>
</body>
</html>
"##
    )
}

/// The settings in a line, with the notes of the scale.
fn set(request: &Night) -> String {
    let text = settings(request, &version());
    let lines = text.lines().map(|line| match line.starts_with("scale ") {
        true => format!("tuned to {}", scale(request.take.scale)),
        false => line.to_string(),
    });
    lines.collect::<Vec<_>>().join(", ")
}

fn figures(report: &Report) -> String {
    let figures = report.figures().into_iter();
    let figures = figures
        .map(|(what, figure)| format!("<div><dt>{what}</dt><dd>{}</dd></div>\n", escaped(&figure)));
    figures.collect()
}

/// What a producer looks at first, as in the report: each name leads to its take.
fn first(room: &Room, report: &Report) -> String {
    let named = |take: &Entry, why: &str| {
        let (at, name, why) = (take.at, name(take), escaped(why));
        format!("<li><a href=\"#take-{at}\">{name}</a>: {why}</li>\n")
    };
    let with = |state| {
        let takes = report.with(state);
        takes.map(|take| named(take, &said(room, take).join("; ")))
    };
    let look = report.suspicious();
    let look = look.map(|(take, why)| named(take, &why));
    let undrawn = report.undrawn();
    let undrawn = undrawn.map(|take| named(take, why_undrawn(&take.record)));
    let mended = report.mended();
    let mended = mended.map(|take| named(take, &take.record.mended));
    [
        part(SUSPICIOUS, look.collect()),
        part("Refused", with(State::Refused).collect()),
        part("Failed", with(State::Failed).collect()),
        part(UNDRAWN, undrawn.collect()),
        part(MENDED, mended.collect()),
    ]
    .concat()
}

fn part(title: &str, items: String) -> String {
    match items.is_empty() {
        true => items,
        false => format!("<section>\n<h2>{title}</h2>\n<ul>\n{items}</ul>\n</section>\n"),
    }
}

/// A take's name as text, whichever way it is written.
fn name(take: &Entry) -> String {
    format!("<bdi class=\"name\">{}</bdi>", escaped(&take.name))
}

/// A take with its picture, or with what was said of it.
fn card(room: &Room, take: &Entry) -> String {
    let (at, name) = (take.at, name(take));
    let (picture, lines) = (picture(room, take), lines(room, take));
    format!("<li id=\"take-{at}\">\n{picture}<h3>{name}</h3>\n{lines}</li>\n")
}

/// A thumbnail that leads to the picture; or a word for why there is none.
fn picture(room: &Room, take: &Entry) -> String {
    if !take.drawn {
        let word = match take.record.state {
            State::Done => "no picture",
            State::Begun => "not done yet",
            state => state.name(),
        };
        return format!("<div class=\"none\">{word}</div>\n");
    }
    let file = room::picture(Path::new(""), &take.take, room.voices);
    let (file, name) = (coded(&file), escaped(&take.name));
    let size = size(&take.record);
    format!("<a href=\"{file}\"><img src=\"{file}\" alt=\"Picture of {name}: {size}\" loading=\"lazy\" width=\"1280\" height=\"800\"></a>\n")
}

/// What was said of a take that is not tuned, without its file, which is named above it.
fn said(room: &Room, take: &Entry) -> Vec<String> {
    let file = format!("{}: ", shown(room.from.join(&take.take).as_os_str()));
    let lines = take.record.said.iter();
    let lines = lines.map(|line| line.strip_prefix(&file).unwrap_or(line));
    lines.map(str::to_string).collect()
}

/// The lines under a take's name: its figures, and what is wrong with it.
fn lines(room: &Room, take: &Entry) -> String {
    let record = &take.record;
    let (size, bad) = match record.state {
        State::Done => (
            Some(size(record)),
            vec![look_at(record), record.undrawn.clone()],
        ),
        _ => (None, said(room, take)),
    };
    let size = size.iter().map(|size| format!("<p>{size}</p>\n"));
    let bad = bad.iter().filter(|line| !line.is_empty());
    let bad = bad.map(|line| format!("<p class=\"bad\">{}</p>\n", escaped(line)));
    size.chain(bad).collect()
}
