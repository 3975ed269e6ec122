//! The night: one script through the program's opening, document 01's whole case
//! and all kinds, short enough to be stored.

use super::kinds::kind_named;
use super::script::script;
use std::io::{self, Write};

const WHOLE_CASE: &[u8] = include_bytes!("../../../examples/whole_case.txt");

/// Kinds that are not stored: of the list of the notes sung and of figures the
/// line program says nothing, and the lines of `endless` are too long.
pub const NOT_STORED: [&str; 5] = ["rests", "within", "rows", "takes", "endless"];

/// Each other kind, a seed and so many samples with which it reaches what it is
/// there for.
pub const NIGHT: &[(&str, u64, usize)] = &[
    ("opening", 3, 5_000),
    ("tones", 29, 8_000),
    ("glides", 192, 30_000),
    ("vibrato", 3, 2_000),
    ("hollow", 54, 8_000),
    ("noise", 86, 8_000),
    ("tails", 91, 8_000),
    ("squares", 11, 8_000),
    ("steps", 32, 8_000),
    ("pulses", 4, 8_000),
    ("soft", 2, 8_000),
    ("cycles", 3, 5_000),
    ("shifted", 73, 20_000),
    ("halves", 33, 8_000),
    ("level", 72, 8_000),
    ("brink", 30, 8_000),
    ("brim", 70, 8_000),
    ("settings", 16, 8_000),
    ("choices", 20, 5_000),
    ("ones", 17, 6_000),
    ("rough", 6, 16_000),
    ("unreadable", 52, 2_000),
    ("mixed", 70, 8_000),
    ("melody", 36, 5_000),
    ("played", 93, 10_000),
    ("octaves", 433, 6_000),
    ("outside", 1, 4_000),
    ("trill", 36, 2_000),
    ("pieces", 6, 7_000),
    ("bytes", 36, 5_000),
    ("goals", 19, 24_000),
    ("decays", 164, 8_000),
    ("keys", 48, 10_000),
    ("film", 9, 8_000),
    ("rates", 231, 10_000),
    ("ends", 236, 9_000),
    ("cuts", 2289, 6_000),
    ("hostile", 29, 9_400),
];

/// Stands before a script that does not start by itself: such a one was written
/// for decay 0, with which the program no longer opens, and so sends it.
pub const AT_ONCE: &str = "start\t4095\t100\t0\t100\n";

/// The script of a row, the last line with its end.
pub fn script_of(&(name, seed, samples): &(&str, u64, usize)) -> Vec<u8> {
    let kind = kind_named(name).expect("the night has kinds alone");
    let mut script = script(kind, seed, samples);
    if !script.ends_with(b"\n") {
        script.push(b'\n');
    }
    script
}

/// The first script has no start: it is sung under the settings with which the
/// program opens. Each of the others begins anew, and the last line lacks its end.
pub fn write_night(mut to: impl Write) -> io::Result<()> {
    let (opening, others) = NIGHT.split_first().expect("the night has an opening");
    to.write_all(&script_of(opening))?;
    to.write_all(WHOLE_CASE)?;
    for script in others.iter().map(script_of) {
        if !script.starts_with(b"start\t") {
            to.write_all(AT_ONCE.as_bytes())?;
        }
        to.write_all(&script)?;
    }
    write!(to, "reset\nblock\t0\t5\t-6\t7")?;
    to.flush()
}
