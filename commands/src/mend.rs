//! `daxfolin mend`: the two sizes of a recording that was left, in place.

use crate::source::Source;
use daxfolin::wave::{Seek, Size};
use std::fs::{File, OpenOptions};
use std::io;
use std::os::unix::fs::FileExt;
use words::end::{failed, no, reason, End};
use words::request::Mend;
use words::signals::{ended, note_all};
use words::standard::print;

pub const PROGRAM: &str = "daxfolin mend";

/// What a disk writes at once, whatever happens: no disk has less.
const SECTOR: u64 = 512;

pub fn run(request: &Mend) -> Result<(), End> {
    // what may only be read is looked at all the same: there may be nothing to write
    let mut unwritable = None;
    let name = &request.file;
    let source = Source::open(name, |name| {
        if request.dry {
            return File::open(name);
        }
        let both = OpenOptions::new().read(true).write(true).open(name);
        both.or_else(|error| {
            unwritable = Some(error);
            File::open(name)
        })
    })?;
    let seek = source.walk(Seek::mending(source.was.len()))?;
    let sizes = seek.found_mending();
    let (riff, data) = sizes.map_err(|number| source.refused(number))?;
    source.unchanged()?;

    let changed: Vec<Size> = [riff, data]
        .into_iter()
        .filter(|size| size.old != size.new)
        .collect();
    if !request.dry && !changed.is_empty() {
        if let Some(error) = unwritable {
            return Err(failed(name, &error));
        }
        // from here on a signal waits until both sizes are stored and told
        note_all();
        let unstored = |error: io::Error| {
            let why = reason(&error);
            no(
                name,
                &format!("{why}; run it again, and it is mended to the same"),
            )
        };
        store(&source.file, &changed).map_err(unstored)?;
    }
    print(&changed.iter().map(line).collect::<String>())?;
    ended()
}

fn line(size: &Size) -> String {
    format!("{}\t{}\t{}\n", size.at, size.old, size.new)
}

/// Both sizes of most recordings lie in the first sector, and go there by one write: they are both old or both new, whatever happens, and
/// the next run tells what the recorder left. Where they lie apart, they are stored in halves.
fn store(file: &File, sizes: &[Size]) -> io::Result<()> {
    match in_one_sector(sizes) {
        true => store_at_once(file, sizes),
        false => store_each(file, &halves(sizes)),
    }
}

fn in_one_sector(sizes: &[Size]) -> bool {
    let sectors = sizes
        .iter()
        .flat_map(|size| [size.at / SECTOR, (size.at + 3) / SECTOR]);
    let sectors: Vec<u64> = sectors.collect();
    sectors.windows(2).all(|pair| pair[0] == pair[1])
}

/// The bytes between them are written as they are.
fn store_at_once(file: &File, sizes: &[Size]) -> io::Result<()> {
    let from = sizes.iter().map(|size| size.at).min().unwrap_or_default();
    let end = sizes
        .iter()
        .map(|size| size.at + 4)
        .max()
        .unwrap_or_default();
    let mut bytes = vec![0; (end - from) as usize];
    file.read_exact_at(&mut bytes, from)?;
    for size in sizes {
        bytes[(size.at - from) as usize..][..4].copy_from_slice(&size.new.to_le_bytes());
    }
    file.write_all_at(&bytes, from)?;
    file.sync_data()
}

/// Halves of sizes, each with its place.
type Halves = Vec<(u64, [u8; 2])>;

/// What is stored, one half after the other. Wherever it ends, the file is one that a second run mends to the
/// same, and that is refused as a take (the test below tries it).
///
/// Which sizes are bad, and what they become, hangs on the file's length and on the two sizes alone. A mended data size is not bad any more,
/// and RIFF's is held to it whether it is stored yet or not; a mended RIFF size is not bad any more, and the data's does not look at it. So
/// either could be stored first. The data's is, since RIFF's stays bad meanwhile; with RIFF's right and a data size of 0 left behind it, the
/// file could be taken for an empty take.
///
/// Four bytes may lie in two sectors of a disk, of which a power cut lets one alone be written. Two bytes at an even place cannot, and chunks
/// stand at even places. So a size is stored in halves: first 65535 as the upper one, which makes it run past the end of every file that is
/// mended, whatever the lower half is; then the lower half; and last the upper one.
fn halves(sizes: &[Size]) -> Halves {
    let last_first = sizes.iter().rev();
    last_first
        .flat_map(|size| {
            let [a, b, c, d] = size.new.to_le_bytes();
            [
                (size.at + 2, [255, 255]),
                (size.at, [a, b]),
                (size.at + 2, [c, d]),
            ]
        })
        .collect()
}

/// Each half is on the disk before the next.
fn store_each(file: &File, halves: &Halves) -> io::Result<()> {
    halves.iter().try_for_each(|(place, half)| {
        file.write_all_at(half, *place)?;
        file.sync_data()
    })
}

#[cfg(test)]
mod tests {
    use super::{halves, in_one_sector, Halves};
    use daxfolin::wave::{mend, read, Size};

    #[test]
    fn sizes_in_one_sector() {
        let size = |at| Size { at, old: 0, new: 1 };
        for (places, right) in [
            (&[4, 40][..], true),
            (&[4], true),
            (&[40], true),
            (&[508], true),
            (&[510], false),
            (&[4, 508], true),
            (&[4, 510], false),
            (&[4, 512], false),
            (&[1024], true),
        ] {
            let sizes: Vec<Size> = places.iter().map(|at| size(*at)).collect();
            assert_eq!(in_one_sector(&sizes), right, "{places:?}");
        }
    }

    /// A file: RIFF's size, chunks that may stand before the data, the data's size, and what follows.
    fn file(riff: u32, before: &[&[u8]], size: u32, body: &[u8]) -> Vec<u8> {
        let chunks = [
            &riff.to_le_bytes(),
            b"WAVE".as_slice(),
            &before.concat(),
            b"data",
            &size.to_le_bytes(),
            body,
        ];
        [b"RIFF".as_slice(), &chunks.concat()].concat()
    }

    fn stored(file: &[u8], halves: &[(u64, [u8; 2])]) -> Vec<u8> {
        let mut bytes = file.to_vec();
        for (place, half) in halves {
            bytes[*place as usize..][..2].copy_from_slice(half);
        }
        bytes
    }

    fn mended(file: &[u8]) -> Option<(Vec<u8>, Halves)> {
        let (riff, data) = mend(file).ok()?;
        let changed = [riff, data].into_iter().filter(|size| size.old != size.new);
        let halves = halves(&changed.collect::<Vec<_>>());
        Some((stored(file, &halves), halves))
    }

    #[test]
    fn a_mending_that_is_broken_off() {
        let format = b"fmt \x10\0\0\0\x01\0\x01\0\x44\xAC\0\0\x88\x58\x01\0\x02\0\x10\0";
        let padded = b"odd \x01\0\0\0?\0";
        let list = b"LIST\x04\0\0\0INFO";
        let mut filler = b"junk\xC2\x01\0\0".to_vec();
        filler.resize(8 + 450, 7);
        let befores: [&[&[u8]]; 5] = [
            &[format],
            &[format, padded],
            &[list, format, list],
            &[format, &filler],
            &[padded, &filler, format],
        ];
        let silence = vec![0; 70_000];
        let noise: Vec<u8> = (0..70_000u32)
            .map(|at| (at.wrapping_mul(2_654_435_761) >> 13) as u8)
            .collect();
        let tail = [&noise[..40], b"LIST\x04\0\0\0INFO"].concat();
        let bodies = [
            &[],
            &noise[..1],
            &noise[..2],
            &noise[..3],
            &silence[..40],
            &noise[..40],
            &noise[..41],
            &tail,
            &silence,
            &noise,
            &noise[..65_535],
            &noise[..65_536],
        ];
        let (mut changed, mut broken_off) = (0, 0);
        for before in befores {
            for body in bodies {
                let length = file(0, before, 0, body).len() as u32;
                let data = length - body.len() as u32;
                let rest = length - data;
                let sizes = |marks: &[u32]| -> Vec<u32> {
                    let near = marks
                        .iter()
                        .flat_map(|mark| mark.saturating_sub(2)..=mark.saturating_add(2));
                    near.collect()
                };
                let bad = [0, 1, 65_535, 65_536, 1 << 31, u32::MAX];
                for riff in sizes(&[&bad[..], &[data - 8, length - 8, length]].concat()) {
                    for size in sizes(&[&bad[..], &[rest, rest / 2, length]].concat()) {
                        let left = file(riff, before, size, body);
                        let (whole, halves) = mended(&left).expect("nothing of it is refused");
                        assert_eq!(
                            mended(&whole),
                            Some((whole.clone(), vec![])),
                            "mended twice"
                        );
                        changed += usize::from(!halves.is_empty());
                        for count in 1..halves.len() {
                            broken_off += 1;
                            let half = stored(&left, &halves[..count]);
                            assert_eq!(
                                mended(&half).expect("nothing of it is refused").0,
                                whole,
                                "{riff} {size} {length} {count}"
                            );
                            assert!(
                                read(&half, &mut vec![0; half.len()]).is_err(),
                                "{riff} {size} {length} {count}"
                            );
                        }
                    }
                }
            }
        }
        println!("{changed} files mended, broken off at {broken_off} places");
        assert!(changed > 10_000 && broken_off > 3 * changed);
    }
}
