//! Takes as WAVE files through the wrapper: written and read back, refused with the output as it was, sought piece by piece, mended.

use daxfolin::wave::{
    self, Read, Seek, Size, Take, FILE_TOO_LONG, FMT_WRONG, NOT_RIFF_WAVE, NO_DATA,
    NO_DATA_REACHED, NO_FMT, NO_GOOD_FMT, NO_ROOM, RUNS_PAST,
};
use daxfolin::{CD, FILM, RATE_UNKNOWN, TAKE_FULL};

const SUNG: [i16; 7] = [0, 1, -1, 32_767, -32_768, 255, -256];

/// A file of these samples.
fn file(hertz: u32, samples: &[i16]) -> Vec<u8> {
    let mut out = vec![0; 44 + 2 * samples.len()];
    assert_eq!(wave::write(hertz, samples, &mut out), Ok(out.len()));
    out
}

/// A chunk, with its pad byte.
fn chunk(name: &[u8; 4], body: &[u8]) -> Vec<u8> {
    let size = (body.len() as u32).to_le_bytes();
    [&name[..], &size, body, &[0; 1][..body.len() % 2]].concat()
}

/// A RIFF WAVE file of these chunks.
fn riff(chunks: &[Vec<u8>]) -> Vec<u8> {
    chunk(b"RIFF", &[&b"WAVE"[..], &chunks.concat()].concat())
}

/// The fmt chunk of a take at 48,000, and with a longer body.
fn fmt(more: &[u8]) -> Vec<u8> {
    let fields = [1, 0, 1, 0, 128, 187, 0, 0, 0, 119, 1, 0, 2, 0, 16, 0];
    chunk(b"fmt ", &[&fields[..], more].concat())
}

/// A seek that is given what it wants of a file, which must lie there and come to an end in time.
fn sought(mut seek: Seek, file: &[u8]) -> Seek {
    let mut pieces = 0;
    while let Some((place, count)) = seek.wanted() {
        assert!(
            pieces < file.len() / 8 + 1,
            "more pieces than a file can have"
        );
        let before = seek;
        for other in [0, count - 1, count + 1] {
            seek.give(&[82; 17][..other]);
            assert!(seek == before, "a piece of another length was taken");
        }
        seek.give(&file[place as usize..][..count]);
        pieces += 1;
    }
    let end = seek;
    seek.give(&[]);
    assert!(seek == end, "no bytes were taken");
    seek
}

/// Files of every sort: taken, and refused by each number.
fn files() -> Vec<Vec<u8>> {
    let data = chunk(b"data", &[1, 2, 3, 4]);
    let list = chunk(b"LIST", &[7; 5]);
    let whole = riff(&[list.clone(), fmt(&[0, 0]), list.clone(), data.clone(), list]);
    let mut all = vec![
        file(CD, &SUNG),
        file(FILM, &[]),
        riff(&[]),
        riff(&[data.clone(), fmt(&[])]),
        riff(&[fmt(&[])]),
        riff(&[fmt(&[]), chunk(b"data", &[1, 2, 3])]),
        riff(&[chunk(b"fmt ", &[1; 15]), data.clone()]),
        riff(&[chunk(b"fmt ", &[1; 16]), data]),
        b"RIFX____WAVEfmt ".to_vec(),
    ];
    // cut anywhere, and with each byte of the sizes altered
    all.extend((0..whole.len()).map(|n| whole[..n].to_vec()));
    for (at, to) in (0..whole.len()).flat_map(|at| [0, 1, 255].map(|to| (at, to))) {
        let mut altered = whole.clone();
        altered[at] = to;
        all.push(altered);
    }
    all.push(whole);
    all
}

#[test]
fn written_and_read_back() {
    for hertz in [CD, FILM] {
        let bytes = file(hertz, &SUNG);
        let mut out = [23; 9];
        assert_eq!(wave::read(&bytes, &mut out), Ok(Read { count: 7, hertz }));
        assert_eq!((&out[..7], &out[7..]), (&SUNG[..], &[23; 2][..]));
    }
}

#[test]
fn refused_outputs_stay() {
    let bytes = file(CD, &SUNG);
    let mut out = [23; 6];
    assert_eq!(wave::read(&bytes, &mut out), Err(NO_ROOM));
    assert_eq!(wave::read(&bytes[1..], &mut out), Err(NOT_RIFF_WAVE));
    assert_eq!(wave::read(&bytes[..57], &mut out), Err(RUNS_PAST));
    assert_eq!(out, [23; 6]);
    let mut out = [23; 57];
    assert_eq!(wave::write(CD, &SUNG, &mut out), Err(NO_ROOM));
    assert_eq!(wave::write(44_101, &SUNG, &mut out), Err(RATE_UNKNOWN));
    assert_eq!(out, [23; 57]);
    assert_eq!(wave::header(44_101, 1 << 40), Err(RATE_UNKNOWN));
    assert_eq!(wave::header(FILM, 1_000_000_001), Err(TAKE_FULL));
}

#[test]
fn pieces_make_the_file() {
    let whole = file(FILM, &SUNG);
    let mut bytes = wave::header(FILM, 7).unwrap().to_vec();
    for part in SUNG.chunks(3) {
        let mut room = [9; 7];
        assert_eq!(wave::bytes(part, &mut room), part.len());
        bytes.extend_from_slice(&room[..2 * part.len()]);
        assert!(room[2 * part.len()..].iter().all(|b| *b == 9));
    }
    assert_eq!(bytes, whole);
    assert_eq!(
        wave::header(FILM, 1_000_000_000).unwrap()[40..],
        2_000_000_000u32.to_le_bytes()
    );
    let mut back = [5; 4];
    assert_eq!(wave::samples(&whole[44..51], &mut back), 3);
    assert_eq!(back, [SUNG[0], SUNG[1], SUNG[2], 5]);
    assert_eq!(wave::samples(&whole[44..], &mut back), 4);
    assert_eq!(back[..], SUNG[..4]);
}

#[test]
fn a_seek_finds_what_reading_finds() {
    let mut seen = [false; 30];
    for bytes in files() {
        let found = sought(Seek::take(bytes.len() as u64), &bytes).found();
        let mut out = vec![0; bytes.len()];
        let read = wave::read(&bytes, &mut out);
        seen[read.err().unwrap_or(0) as usize] = true;
        let taken = found.map(|Take { hertz, at, count }| {
            let mut samples = vec![0; count as usize];
            let data = &bytes[at as usize..][..2 * count as usize];
            assert_eq!(wave::samples(data, &mut samples), count as usize);
            assert_eq!(samples, out[..count as usize]);
            Read {
                count: count as usize,
                hertz,
            }
        });
        assert_eq!(taken, read);
    }
    for number in [0, NOT_RIFF_WAVE, NO_FMT, FMT_WRONG, NO_DATA, RUNS_PAST] {
        assert!(seen[number as usize], "no file was answered {number}");
    }
}

#[test]
fn a_seek_finds_what_mending_finds() {
    let mut seen = [false; 30];
    for bytes in files() {
        let found = sought(Seek::mending(bytes.len() as u64), &bytes).found_mending();
        seen[found.err().unwrap_or(0) as usize] = true;
        assert_eq!(found, wave::mend(&bytes));
    }
    for number in [0, NOT_RIFF_WAVE, NO_GOOD_FMT, NO_DATA_REACHED] {
        assert!(seen[number as usize], "no file was answered {number}");
    }
}

#[test]
fn mended() {
    let mut bytes = file(CD, &SUNG);
    bytes[4..8].fill(0);
    bytes[40..44].fill(255);
    let [riff, data] = [(4, 0, 50), (40, u32::MAX, 14)].map(|(at, old, new)| Size { at, old, new });
    assert_eq!(wave::mend(&bytes), Ok((riff, data)));
    for size in [riff, data] {
        bytes[size.at as usize..][..4].copy_from_slice(&size.new.to_le_bytes());
    }
    assert_eq!(bytes, file(CD, &SUNG));
}

#[test]
fn long_files() {
    // of 2,147,483,648 bytes and more: 29 after the first 12 bytes, 20 where these are others
    let head = &file(CD, &[])[..12];
    for length in [1 << 31, (1 << 63) - 1] {
        let mut seek = Seek::mending(length);
        assert_eq!(seek.wanted(), Some((0, 12)));
        seek.give(head);
        assert_eq!(
            (seek.wanted(), seek.found_mending()),
            (None, Err(FILE_TOO_LONG))
        );
        let mut seek = Seek::mending(length);
        seek.give(&[0; 12]);
        assert_eq!(
            (seek.wanted(), seek.found_mending()),
            (None, Err(NOT_RIFF_WAVE))
        );
        let mut seek = Seek::take(length);
        seek.give(head);
        assert_eq!(seek.wanted(), Some((12, 8)));
    }
    // no file is so long, and under 12 bytes is none
    for length in [1 << 63, u64::MAX, 11, 0] {
        let (take, mending) = (Seek::take(length), Seek::mending(length));
        assert_eq!((take.wanted(), mending.wanted()), (None, None));
        assert_eq!(take.found(), Err(NOT_RIFF_WAVE));
        assert_eq!(mending.found_mending(), Err(NOT_RIFF_WAVE));
    }
}
