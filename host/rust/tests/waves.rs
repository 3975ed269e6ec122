//! Takes as WAVE files: the proved calls answer every case as the independent
//! program does, and seeks stand what no file in memory has. DAXFOLIN_WAVES says
//! how many cases, DAXFOLIN_SEED which.

mod proved;

use daxfolin::wave::{self, Seek};
use daxfolin::{CD, FILM, LONGEST_TAKE, RATE_UNKNOWN, TAKE_FULL};
use independent::generator::files::Files;
use independent::waves::{hex, Case, Independent};
use proved::{sought, Proved};

#[test]
fn cases_are_answered_as_by_the_independent_program() {
    let told = |name, unless| std::env::var(name).map_or(unless, |n| n.parse().unwrap());
    let cases = told("DAXFOLIN_WAVES", 8_000);
    let mut source = Files::seeded(told("DAXFOLIN_SEED", 20_261_115));
    for number in 0..cases {
        let case = source.case();
        let (right, got) = (case.answer(&Independent), case.answer(&Proved));
        assert!(
            right == got,
            "case {number}: {}\nright {right}\ngot   {got}",
            hex(&case.bytes())
        );
    }
}

/// The samples are as the kernel gives them, never touched, and so take no room.
#[test]
fn a_take_over_its_limit_is_not_written() {
    let limit = LONGEST_TAKE as usize;
    let samples = vec![0; limit + 1];
    let mut out = [0xA5; 100];
    assert_eq!(wave::write(CD, &samples, &mut out), Err(TAKE_FULL));
    assert_eq!(wave::write(CD + 1, &samples, &mut out), Err(RATE_UNKNOWN));
    // One sample less, and the output is too small.
    assert_eq!(wave::write(CD, &samples[1..], &mut out), Err(25));
    assert_eq!(out, [0xA5; 100]);
    assert_eq!(wave::header(FILM, limit as u64 + 1), Err(TAKE_FULL));
    let header = wave::header(FILM, limit as u64).unwrap();
    assert_eq!(header[40..], (2 * LONGEST_TAKE).to_le_bytes());
}

/// A file of a RIFF chunk that is as long as one can be: at each place the bytes
/// of the parts, and nothing between them.
struct MadeUp(Vec<(u64, Vec<u8>)>);

/// The bytes of a right fmt.
fn fmt(hertz: u32) -> Vec<u8> {
    wave::header(hertz, 0).unwrap()[20..36].to_vec()
}

fn opening(size: u32) -> Vec<u8> {
    [&b"RIFF"[..], &size.to_le_bytes(), b"WAVE"].concat()
}

fn chunk(name: &[u8; 4], size: u32) -> Vec<u8> {
    [&name[..], &size.to_le_bytes()].concat()
}

impl MadeUp {
    /// A long chunk, then fmt and the data, whose samples begin at this place and end with the RIFF chunk, or one byte before.
    fn with_samples_at(at: u64) -> MadeUp {
        let end = 8 + u64::from(u32::MAX);
        let size = ((end - at) & !1) as u32;
        let before = at - 8 - 24;
        MadeUp(vec![
            (0, opening(u32::MAX)),
            (12, chunk(b"LIST", (before - 20) as u32)),
            (before, chunk(b"fmt ", 16)),
            (before + 8, fmt(FILM)),
            (at - 8, chunk(b"data", size)),
        ])
    }

    fn bytes(&self, at: u64, count: usize) -> &[u8] {
        let mut parts = self.0.iter();
        let (_, part) = parts.find(|(place, _)| *place == at).expect("a part");
        assert_eq!(part.len(), count, "asked for at {at}");
        part
    }
}

#[test]
fn a_file_of_2_to_the_40_bytes_is_sought_like_any_other() {
    let length = 1 << 40;
    // Even places, the last ones over 4294967295.
    for at in [
        100,
        4_294_967_200,
        4_294_967_294,
        4_294_967_298,
        4_294_967_302,
    ] {
        let file = MadeUp::with_samples_at(at);
        let mut seek = Seek::take(length);
        while let Some((at, count)) = seek.wanted() {
            seek.give(file.bytes(at, count));
        }
        let take = seek.found().unwrap();
        assert_eq!((take.hertz, take.at), (FILM, at));
        assert_eq!(take.count, (4_294_967_303 - at) / 2);
        // The RIFF chunk runs past a file that is one byte shorter than it; at its very end it does not.
        for (length, number) in [(4_294_967_302, Some(24)), (4_294_967_303, None)] {
            let mut seek = Seek::take(length);
            while let Some((at, count)) = seek.wanted() {
                seek.give(file.bytes(at, count));
            }
            assert_eq!(seek.found().err(), number, "samples at {at}");
        }
        // Too long to be mended, once it is seen to be a RIFF WAVE file.
        let mut seek = Seek::mending(length);
        assert_eq!(seek.wanted(), Some((0, 12)));
        seek.give(file.bytes(0, 12));
        assert_eq!(seek.wanted(), None);
        assert_eq!(seek.found_mending().err(), Some(29));
        let mut seek = Seek::mending(length);
        seek.give(b"RIFX\0\0\0\0WAVE");
        assert_eq!(seek.wanted(), None);
        assert_eq!(seek.found_mending().err(), Some(20));
    }
}

#[test]
fn a_file_of_2147483648_bytes_is_too_long_to_be_mended() {
    let file = |at: u64| match at {
        0 => opening(0),
        12 => chunk(b"fmt ", 16),
        20 => fmt(CD),
        36 => chunk(b"data", 0),
        44 => chunk(b"LIST", u32::MAX),
        _ => unreachable!("there is no chunk at {at}"),
    };
    for (length, found) in [(2_147_483_647, true), (2_147_483_648, false)] {
        let mut seek = Seek::mending(length);
        while let Some((at, _)) = seek.wanted() {
            seek.give(&file(at));
        }
        match (seek.found_mending(), found) {
            (Ok((riff, data)), true) => {
                assert_eq!((riff.at, riff.old, riff.new), (4, 0, 2_147_483_639));
                assert_eq!((data.at, data.old, data.new), (40, 0, 2_147_483_602));
            }
            (Err(number), false) => assert_eq!(number, 29),
            _ => panic!("a file of {length} bytes"),
        }
    }
}

/// Chance that is the same on every machine.
struct Chance(u64);

impl Chance {
    fn below(&mut self, many: u64) -> u64 {
        self.0 = self.0.wrapping_mul(6_364_136_223_846_793_005);
        self.0 = self.0.wrapping_add(1_442_695_040_888_963_407);
        (self.0 >> 20) % many
    }

    /// So many bytes, often those of an opening, of a chunk's header or of a fmt; and often the size is what is left of the file.
    fn bytes(&mut self, count: usize, left: u64) -> Vec<u8> {
        let sizes = [0, 1, 2, 16, 17, 18, 4_294_967_294, 4_294_967_295];
        let any = self.0 as u32 >> self.below(32);
        let left = left.min(1 << 31) as u32;
        let size = [sizes[self.below(8) as usize], any, left, left][self.below(4) as usize];
        let names = [b"fmt ", b"data", b"LIST", b"data", b"fmt ", b"\0\0\0\0"];
        let bytes = match (count, self.below(20)) {
            (12, 1..) => opening(size.saturating_add(4)),
            (8, 1..=5) => chunk(b"fmt ", 16),
            (8, 6..) => chunk(names[self.below(6) as usize], size),
            (16, 1..) => fmt([CD, FILM][self.below(2) as usize]),
            _ => (0..count).map(|_| self.below(256) as u8).collect(),
        };
        assert_eq!(bytes.len(), count);
        bytes
    }
}

/// Whatever it is given, a seek asks inside the file, and finds samples and sizes inside it, or refuses.
#[test]
fn seeks_stand_any_bytes() {
    let mut chance = Chance(1);
    let (mut taken, mut mended) = (0, 0);
    for round in 0..40_000 {
        let length = chance.0 >> chance.below(64);
        let mending = round % 2 == 1;
        let mut seek = match mending {
            true => Seek::mending(length),
            false => Seek::take(length),
        };
        // Where every chunk is empty it may ask for an eighth of the file: so long is not waited.
        for _ in 0..1_000 {
            let Some((at, count)) = seek.wanted() else {
                break;
            };
            let left = length.checked_sub(at + count as u64);
            seek.give(&chance.bytes(count, left.expect("it asks inside the file")));
        }
        if seek.wanted().is_some() {
            continue;
        }
        match mending {
            false => match seek.found() {
                Ok(take) => {
                    assert!(take.at + 2 * take.count <= length);
                    assert!([CD, FILM].contains(&take.hertz));
                    taken += 1;
                }
                Err(number) => assert!((20..=24).contains(&number), "{number}"),
            },
            true => match seek.found_mending() {
                Ok((riff, data)) => {
                    assert!(riff.at == 4 && data.at + 4 <= length);
                    assert!(data.at + 4 + u64::from(data.new) <= length);
                    assert!(8 + u64::from(riff.new) <= length);
                    mended += 1;
                }
                Err(number) => assert!([20, 26, 27, 29].contains(&number), "{number}"),
            },
        }
    }
    assert!(
        taken > 100 && mended > 100,
        "{taken} taken, {mended} mended"
    );
}

/// Another number of bytes than was asked for changes nothing, and no more does anything once it asks no more.
#[test]
fn a_seek_given_a_wrong_number_of_bytes_is_as_it_was() {
    let mut source = Files::seeded(1);
    let files = (0..6_000).filter_map(|_| match source.case() {
        Case::SeekTake(file) => Some(file),
        _ => None,
    });
    for file in files {
        let length = file.len() as u64;
        for fresh in [Seek::take(length), Seek::mending(length)] {
            let mut seek = fresh;
            while let Some((at, count)) = seek.wanted() {
                let right = &file[at as usize..at as usize + count];
                let longer = [right, &[0]].concat();
                for wrong in [&[], &right[1..], &longer, &[0; 1_000][..]] {
                    seek.give(wrong);
                    assert_eq!(seek.wanted(), Some((at, count)));
                }
                seek.give(right);
            }
            for more in [8, 12, 16] {
                seek.give(&[0; 16][..more]);
                assert_eq!(seek.wanted(), None);
            }
            assert_eq!(told(seek), told(sought(fresh, &file)));
        }
    }
}

/// All that a seek says.
fn told(seek: Seek) -> String {
    let take = seek.found().map(|take| (take.hertz, take.at, take.count));
    let sizes = seek
        .found_mending()
        .map(|(riff, data)| [riff, data].map(|size| (size.at, size.old, size.new)));
    format!("{take:?} {sizes:?}")
}

/// As many whole samples are moved as both have, and nothing else is touched.
#[test]
fn samples_are_moved_to_bytes_and_back() {
    let samples: Vec<i16> = vec![1, -1, 258, i16::MIN, i16::MAX];
    let bytes = [1, 0, 255, 255, 2, 1, 0, 128, 255, 127];
    for room in 0..=12 {
        for count in 0..=samples.len() {
            let mut out = vec![0xA5; room];
            let moved = wave::bytes(&samples[..count], &mut out);
            assert_eq!(moved, count.min(room / 2));
            assert_eq!(out[..2 * moved], bytes[..2 * moved]);
            assert_eq!(out[2 * moved..], vec![0xA5; room - 2 * moved]);
        }
    }
    for room in 0..=7 {
        for length in 0..=bytes.len() {
            let mut out = vec![-21_931; room];
            let moved = wave::samples(&bytes[..length], &mut out);
            assert_eq!(moved, room.min(length / 2));
            assert_eq!(out[..moved], samples[..moved]);
            assert_eq!(out[moved..], vec![-21_931; room - moved]);
        }
    }
}
