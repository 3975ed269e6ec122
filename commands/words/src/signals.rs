//! Signals that ask a command to end: each is noted, looked for between
//! blocks, and then the command ends as the signal would have ended it.

use crate::end::End;
use std::ffi::c_int;
use std::sync::atomic::{AtomicI32, Ordering::Relaxed};

extern "C" {
    fn signal(number: c_int, action: usize) -> usize;
    fn siginterrupt(number: c_int, flag: c_int) -> c_int;
    fn raise(number: c_int) -> c_int;
}

/// What a signal does of itself, and nothing.
const DEFAULT: usize = 0;
const IGNORED: usize = 1;
/// A file grew past the limit that the shell set (`ulimit -f`).
const TOO_LONG: c_int = 25;

/// All that end a program and can be caught, but for those that say that it did something undefined (4, 7, 8, 11), which it cannot go on
/// from, and for 13 and 25, which are errors of a write: HUP, INT, QUIT, TRAP, ABRT, USR1, USR2, ALRM, TERM, STKFLT, XCPU, VTALRM, PROF,
/// IO, PWR, SYS and the realtime ones.
fn ends() -> impl Iterator<Item = c_int> {
    [1, 2, 3, 5, 6, 10, 12, 14, 15, 16, 24, 26, 27, 29, 30, 31]
        .into_iter()
        .chain(34..=64)
}

static NOTED: AtomicI32 = AtomicI32::new(0);

extern "C" fn note(number: c_int) {
    NOTED.store(number, Relaxed);
}

/// From now on a signal is noted, unless whoever started the command had it ignored (`nohup`); and a write past the shell's limit fails
/// like any other. A call that waits is broken off by one, so that it is seen.
pub fn note_all() {
    for number in ends() {
        // SAFETY: `note` takes the signal's number, and only stores it.
        unsafe {
            if signal(number, note as *const () as usize) == IGNORED {
                signal(number, IGNORED);
            } else {
                siginterrupt(number, 1);
            }
        }
    }
    // SAFETY: ignoring a signal runs no code.
    unsafe { signal(TOO_LONG, IGNORED) };
}

/// The end, if a signal was noted.
pub fn ended() -> Result<(), End> {
    match NOTED.load(Relaxed) {
        0 => Ok(()),
        number => Err(End::Signal(number)),
    }
}

/// The end that the signal would have been, so that the caller sees which it was.
pub fn end_by(number: c_int) -> ! {
    // SAFETY: both take numbers alone.
    unsafe {
        signal(number, DEFAULT);
        raise(number);
    }
    std::process::exit(128 + number)
}
