//! Why a file is refused, in words: what it has, and what to do.

use crate::chunks::{self, Chunk, Format};
use crate::grouped;
use crate::source::Source;
use daxfolin::wave::{FMT_WRONG, NOT_RIFF_WAVE, NO_GOOD_FMT, RUNS_PAST};
use std::os::unix::fs::FileExt;
use words::end::{shown, End};

/// What a take has.
const A_TAKE: &str = "a take is 16-bit mono PCM at 44,100 or 48,000";

/// A refused file: its number, and the words.
pub fn of(source: &Source, number: u32) -> End {
    let why = why(source, number)
        .unwrap_or_else(|| format!("{}. {}", daxfolin::words(number), daxfolin::remedy(number)));
    End::Refused(number, format!("{}: {number}, {why}", source.shown()))
}

fn why(source: &Source, number: u32) -> Option<String> {
    if number == NOT_RIFF_WAVE {
        return Some(other_sort(source));
    }
    if let Some(sizes) = bad_sizes(source) {
        let file = quoted(source);
        return Some(format!(
            "{sizes}, which the file has not: it was cut off; mend it: daxfolin mend {file}"
        ));
    }
    let chunks = chunks::all(&source.file, source.was.len()).ok()?;
    match number {
        FMT_WRONG => wrong_format(source, &chunks),
        NO_GOOD_FMT => {
            let has = sort(&chunks::format(&source.file, &chunks)?);
            Some(format!(
                "this take is {has}; only takes are mended, and {A_TAKE}"
            ))
        }
        RUNS_PAST => {
            let end = source.was.len();
            let chunk = chunks
                .iter()
                .find(|chunk| chunk.end() > end)
                .or(chunks.last())?;
            let (name, at) = (chunk.title(), chunk.at);
            Some(format!(
                "its chunk '{name}' at byte {at} runs past the end; export it anew: sox {} OUT.wav",
                quoted(source)
            ))
        }
        _ => None,
    }
}

/// The sizes that mending would alter, by the proved call.
fn bad_sizes(source: &Source) -> Option<String> {
    let (riff, data) = source.mending().ok()?;
    let named = [("RIFF", riff), ("data", data)];
    let bad = named.iter().filter(|(_, size)| size.old != size.new);
    let bad: Vec<String> = bad
        .map(|(name, size)| format!("its {name} size is {}", size.old))
        .collect();
    (!bad.is_empty()).then(|| bad.join(" and "))
}

// ---- 22

fn wrong_format(source: &Source, chunks: &[Chunk]) -> Option<String> {
    let Some(format) = chunks::format(&source.file, chunks) else {
        return Some("its fmt chunk has under 16 bytes. Export it anew".to_string());
    };
    let Format { tag, block, .. } = format;
    let plain = tag == 1 && format.channels == 1 && format.bits == 16 && known(format.hertz);
    if !plain {
        let has = sort(&format);
        let command = sox(source, &format);
        return Some(format!("this take is {has}; {A_TAKE}; {command}"));
    }
    let rate = u64::from(format.bytes_a_second);
    if block != 2 || rate != 2 * u64::from(format.hertz) {
        let right = 2 * format.hertz;
        return Some(format!(
            "its fmt chunk says {rate} bytes a second in blocks of {block}, and not {right} in blocks of 2. Export it anew: sox {} OUT.wav",
            quoted(source)
        ));
    }
    let data = chunks.iter().find(|chunk| chunk.name == *b"data")?;
    Some(format!(
        "its data size, {}, is odd, so its last sample is cut in two. Export it anew: sox {} OUT.wav",
        data.size,
        quoted(source)
    ))
}

fn known(hertz: u32) -> bool {
    [daxfolin::CD, daxfolin::FILM].contains(&hertz)
}

/// As an engineer calls it: 24-bit stereo at 96,000.
fn sort(format: &Format) -> String {
    let channels = match format.channels {
        1 => "mono".to_string(),
        2 => "stereo".to_string(),
        count => format!("{count}-channel"),
    };
    let coding = match format.tag {
        1 => "",
        2 | 17 => " ADPCM",
        3 => " float",
        6 => " A-law",
        7 => " mu-law",
        85 => " MP3",
        65_534 => " WAVE_FORMAT_EXTENSIBLE",
        _ => " (unknown coding)",
    };
    let hertz = grouped(u64::from(format.hertz));
    format!("{}-bit{coding} {channels} at {hertz}", format.bits)
}

/// The command that makes a take of it.
fn sox(source: &Source, format: &Format) -> String {
    let coding = if format.tag == 1 { "" } else { " -e signed" };
    let rate = match format.hertz {
        hertz if known(hertz) => String::new(),
        hertz if hertz % 11_025 == 0 => " -r 44100".to_string(),
        _ => " -r 48000".to_string(),
    };
    let mono = if format.channels == 1 { "" } else { " remix 1" };
    let dither = if format.bits > 16 { " dither -s" } else { "" };
    format!(
        "convert it: sox {} -b 16{coding}{rate} OUT.wav{mono}{dither}",
        quoted(source)
    )
}

// ---- 20

/// How files of other sorts begin.
const SORTS: [(&[u8], usize, &str); 10] = [
    (b"RF64", 0, "an RF64 file"),
    (b"BW64", 0, "a BW64 file"),
    (b"RIFX", 0, "a RIFX file, which has its high bytes first"),
    (b"riff\x2E\x91\xCF\x11", 0, "a Wave64 file"),
    (b"AIF", 8, "an AIFF file"),
    (b"fLaC", 0, "a FLAC file"),
    (b"OggS", 0, "an Ogg file"),
    (b"ID3", 0, "an MP3 file"),
    (b"ftyp", 4, "an MP4 file"),
    (b"caff", 0, "a Core Audio file"),
];

fn other_sort(source: &Source) -> String {
    let mut bytes = [0; 16];
    let length = source.was.len().min(16) as usize;
    let begins = &mut bytes[..length];
    if length < 12 || source.file.read_exact_at(begins, 0).is_err() {
        let length = source.was.len();
        return format!(
            "it has {length} bytes, and no WAVE file has under 12. Look for another copy"
        );
    }
    let is = |(letters, at, _): &&(&[u8], usize, &str)| begins[*at..].starts_with(letters);
    let mp3 = begins[0] == 255 && begins[1] & 0xE0 == 0xE0;
    let sort = match SORTS.iter().find(is) {
        Some((_, _, sort)) => sort,
        None if mp3 => "an MP3 file",
        None => return format!("{}; {A_TAKE}", daxfolin::words(NOT_RIFF_WAVE)),
    };
    let file = quoted(source);
    format!(
        "this is {sort}; {A_TAKE}; convert it: sox {file} -b 16 -r 48000 OUT.wav remix 1 dither -s"
    )
}

/// The file's name as a shell takes it.
fn quoted(source: &Source) -> String {
    let name = source.shown();
    let plain = |letter: char| letter.is_alphanumeric() || "._-/+,=@%".contains(letter);
    match name.starts_with("$'") || name.chars().all(plain) {
        true => name,
        false => format!(
            "'{}'",
            shown(source.name.as_os_str()).replace('\'', "'\\''")
        ),
    }
}

#[cfg(test)]
mod tests {
    use super::*;

    #[test]
    fn sorts_of_takes() {
        let format = |tag, channels, hertz, bits| Format {
            tag,
            channels,
            hertz,
            bytes_a_second: 0,
            block: 0,
            bits,
        };
        for (format, right) in [
            (format(1, 2, 96_000, 24), "24-bit stereo at 96,000"),
            (format(3, 1, 44_100, 32), "32-bit float mono at 44,100"),
            (
                format(65_534, 6, 48_000, 16),
                "16-bit WAVE_FORMAT_EXTENSIBLE 6-channel at 48,000",
            ),
            (format(7, 1, 8_000, 8), "8-bit mu-law mono at 8,000"),
        ] {
            assert_eq!(sort(&format), right);
        }
    }
}
