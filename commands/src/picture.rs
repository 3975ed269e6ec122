//! `daxfolin picture`: a take as a page, with what was sung, what was wanted and
//! what was given. Nothing of a take is worked out here: what is drawn comes from
//! the proved calls (`heard`), figures for the eye are taken over that
//! (`figures`), and the rest is paper and ink.

mod charts;
mod figures;
mod head;
mod heard;
mod page;
mod png;
mod strip;
mod svg;

use crate::place::{finish, places_of, Output};
use crate::song::Song;
use crate::source::Source;
use figures::Figures;
pub(crate) use head::scale;
use heard::{Heard, Started};
use page::Sheet;
use std::path::{Path, PathBuf};
pub(crate) use svg::escaped;
use words::end::{no, shown, End};
use words::request::{Page, Picture};
use words::signals::note_all;
use words::standard::print;

pub const PROGRAM: &str = "daxfolin picture";

pub fn run(request: &Picture) -> Result<(), End> {
    note_all();
    print(&write(PROGRAM, request)?)
}

/// The picture of one take in its place, whole or not at all; and a line about it.
pub fn write(program: &'static str, request: &Picture) -> Result<String, End> {
    let song = request.song.as_ref().map(Song::of).transpose()?;
    let source = Source::of(&request.from)?;
    let started = Started::of(&source, &request.take, song.as_ref())?;
    let read: Vec<&Source> = song
        .iter()
        .map(|song| &song.source)
        .chain([&source])
        .collect();
    let beside = request.png.then(|| request.to.with_extension("png"));
    let converter = beside.as_deref().map(png::converter).transpose()?;
    let names = [Some(request.to.clone()), beside.clone()];
    let places = places_of(names.into_iter().flatten(), &read, request.force)?;
    let drawn = draw(program, &source, started, song.as_ref(), &request.page)?;
    let picture = converter.zip(beside.as_deref());
    let picture = picture.map(|(converter, to)| converter.picture(&drawn.svg, to));
    let picture = picture.transpose()?;
    let pages = [Some(drawn.svg.as_bytes()), picture.as_deref()];
    let outputs = places.into_iter().zip(pages.into_iter().flatten());
    let outputs = outputs.map(|(place, page)| Output::at(place, page));
    finish(program, outputs.collect::<Result<_, _>>()?)?;
    Ok(format!(
        "{}: {}\n",
        shown(request.to.as_os_str()),
        drawn.says
    ))
}

/// A page, and what it says in a line.
struct Drawn {
    svg: String,
    says: String,
}

/// The page of a take that is started.
fn draw(
    program: &'static str,
    source: &Source,
    started: Started,
    song: Option<&Song>,
    page: &Page,
) -> Result<Drawn, End> {
    let part = part(source, &started, page)?;
    let heard = started.hear(program, source, song)?;
    let figures = Figures::of(&heard);
    let song = song.map(|song| file_name(&song.source.name));
    let sheet = Sheet {
        file: file_name(&source.name),
        song,
        heard: &heard,
        figures: &figures,
        part,
        width: f64::from(page.width),
    };
    Ok(Drawn {
        svg: page::svg(&sheet),
        says: says(&heard, &figures),
    })
}

/// The samples that are drawn.
fn part(source: &Source, started: &Started, page: &Page) -> Result<(u64, u64), End> {
    let (hertz, samples) = (started.take.hertz, started.take.count);
    let sample = |seconds: f64| (seconds * f64::from(hertz)).round() as u64;
    let from = sample(page.from);
    let to = page.to.map_or(samples, sample).min(samples);
    match from < to || (from, samples) == (0, 0) {
        true => Ok((from, to)),
        false => {
            let end = crate::seconds(samples, hertz);
            let why = format!("it ends at {end} s, and nothing of it is between --from and --to");
            Err(no(&source.name, &why))
        }
    }
}

fn file_name(path: &Path) -> String {
    let name = path.file_name().map(PathBuf::from).unwrap_or_default();
    shown(name.as_os_str())
}

/// The line of a picture.
fn says(heard: &Heard, figures: &Figures) -> String {
    let seconds = crate::seconds(heard.samples, heard.hertz);
    let pitched = figures::percent(figures.pitched, heard.samples);
    let scale = figures.verdict(heard).words();
    format!("{seconds} s, pitched {pitched} %. {scale}")
}
