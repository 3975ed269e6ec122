//! The words of numbers, in the places where the constants of the calls have them.

use daxfolin::smf::TRACK_TOO_LONG;
use daxfolin::wave::{FILE_TOO_LONG, NOT_RIFF_WAVE, RUNS_PAST};
use daxfolin::{remedy, words, DECAY_OUT_OF_RANGE, TAKEN, TAKE_FULL, TOO_MANY_VOICES};

#[test]
fn each_number_has_words() {
    for (number, right) in [
        (TAKEN, "taken"),
        (TAKE_FULL, "the take has more than 1,000,000,000 samples"),
        (DECAY_OUT_OF_RANGE, "decay is 0 to 255"),
        (TOO_MANY_VOICES, "there are three voices at most"),
        (NOT_RIFF_WAVE, "this is no RIFF WAVE file"),
        (FILE_TOO_LONG, "the file has 2,147,483,648 bytes or more"),
        (
            TRACK_TOO_LONG,
            "a track has more than 281,474,976,710,656 ticks",
        ),
        (TRACK_TOO_LONG + 1, "an unknown number"),
        (u32::MAX, "an unknown number"),
    ] {
        assert_eq!(words(number), right);
    }
    assert_eq!(remedy(RUNS_PAST), "Mend it: daxfolin mend FILE.wav");
    assert!(
        (0..=TRACK_TOO_LONG).all(|number| !words(number).is_empty() && !remedy(number).is_empty())
    );
}
