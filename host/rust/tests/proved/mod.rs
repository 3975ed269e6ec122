//! The proved calls over WAVE files, as the independent program's protocol asks
//! for them; guards around every buffer stay as they were.

use daxfolin::wave::{self, Seek};
use independent::mend::Size;
use independent::wave::{Take, HEADER};
use independent::waves::Waves;
use std::fmt::Debug;

const GUARD: usize = 64;

/// These between guards.
fn guarded<T: Copy>(lent: &[T], guard: T) -> Vec<T> {
    [&[guard; GUARD], lent, &[guard; GUARD]].concat()
}

/// What a call over a lent output says; the output is then as the call left it.
fn over<T, R>(out: &mut [T], guard: T, call: impl FnOnce(&mut [T]) -> R) -> R
where
    T: Copy + Debug + PartialEq,
{
    let mut room = guarded(out, guard);
    let said = call(&mut room[GUARD..GUARD + out.len()]);
    out.copy_from_slice(&room[GUARD..GUARD + out.len()]);
    assert!(
        room == guarded(out, guard),
        "past the output something was touched"
    );
    said
}

/// A seek that was given all that it asked for, of a file in memory.
pub fn sought(mut seek: Seek, file: &[u8]) -> Seek {
    while let Some((at, count)) = seek.wanted() {
        let at = at as usize;
        seek.give(&file[at..at + count]);
    }
    seek
}

fn sizes((riff, data): (wave::Size, wave::Size)) -> [Size; 2] {
    [riff, data].map(|size| Size {
        place: size.at,
        old: size.old,
        new: size.new,
    })
}

pub struct Proved;

impl Waves for Proved {
    fn read(&self, file: &[u8], out: &mut [i16]) -> Result<(u32, usize), u32> {
        let read = over(out, 21_930, |out| wave::read(file, out))?;
        Ok((read.hertz, read.count))
    }

    fn write(&self, hertz: u32, samples: &[i16], out: &mut [u8]) -> Result<usize, u32> {
        over(out, 0x5A, |out| wave::write(hertz, samples, out))
    }

    fn mend(&self, file: &[u8]) -> Result<[Size; 2], u32> {
        wave::mend(file).map(sizes)
    }

    fn seek_take(&self, file: &[u8]) -> Result<Take, u32> {
        let found = sought(Seek::take(file.len() as u64), file).found()?;
        Ok(Take {
            hertz: found.hertz,
            at: found.at,
            count: found.count,
        })
    }

    fn seek_mending(&self, file: &[u8]) -> Result<[Size; 2], u32> {
        let sought = sought(Seek::mending(file.len() as u64), file);
        sought.found_mending().map(sizes)
    }

    fn header(&self, hertz: u32, samples: u64) -> Result<[u8; HEADER], u32> {
        wave::header(hertz, samples)
    }
}
