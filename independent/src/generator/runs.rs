//! For the list of the notes sung: songs with rests, what falls within a note,
//! and a key before every step.

use super::player::{midi, struck, sung_key, NOTE_ON};
use super::random::Random;
use super::script::Moment;
use super::sound::{period_of_note, Passage, Wave};
use crate::table::CD;

/// Strengths of a plain voice.
fn voice() -> Wave {
    Wave::Partials(vec![0.6, 0.3, 0.1])
}

/// Each note twice with a rest between, most often long enough that it is lost;
/// then a rest, or the next note at once.
pub fn rests(random: &mut Random, place: usize) -> Passage {
    let note = 45 + 7 * (place / 4) % 40;
    let period = period_of_note(CD, note, 10.0);
    let tone = Passage::of(voice(), period, (6.0 * period) as usize);
    let tone = tone.loud(random.real(2_000.0, 20_000.0));
    let length = tone.length + random.whole(200, 1_500);
    let rest = random.one_of(&[0, 30, 300, 600, 900]);
    match place % 4 {
        0 | 2 => tone.lasting(length),
        1 => tone.lasting(rest.max(30)).loud(0.0),
        _ => tone.lasting(rest).loud(0.0),
    }
}

/// A note that is held, in tune.
pub fn held(random: &mut Random, place: usize) -> Passage {
    let note = 50 + 5 * place % 30;
    let period = period_of_note(CD, note, 0.0);
    Passage::of(voice(), period, random.whole(3_000, 9_000)).loud(8_000.0)
}

/// Settings, modes and keys that leave the wanted note as it is, most often;
/// at times a reset, a key of its own, or none.
pub fn within(random: &mut Random, moment: &Moment) -> Option<Vec<u8>> {
    let sung = sung_key(moment);
    let decay = random.one_of(&[0, 128, 255]);
    let line = match random.whole(0, 39) {
        0..=3 => format!("change\t4095\t409\t{decay}\t1").into_bytes(),
        4..=5 => [&struck(sung, random)[..], b"\nmode\t1"].concat(),
        6..=7 => b"mode\t0".to_vec(),
        8..=10 => struck(sung, random),
        // Struck and left, and the key sung again, before a step comes.
        11 => midi(&[NOTE_ON, 40, 90, sung, 90]),
        12 => midi(&[NOTE_ON, sung, 0]),
        13 => struck(random.one_of(&[0, 20, 110, 127]), random),
        14 => midi(&[NOTE_ON, sung, 0, sung, 90]),
        15 => b"reset".to_vec(),
        _ => return None,
    };
    Some(line)
}

/// The sound under a key before every step: nothing of it is to be lost.
pub fn steady(random: &mut Random, place: usize) -> Passage {
    let period = period_of_note(CD, 55 + 11 * place % 25, random.real(-20.0, 20.0));
    Passage::of(voice(), period, 24_000).loud(9_000.0)
}

/// So many blocks has a take of them: over 4,096 rows.
const TAKE: usize = 4_800;

/// Two keys in turn; now and then the same again, or one outside the table, or
/// none.
pub fn keys(random: &mut Random, moment: &Moment) -> Option<Vec<u8>> {
    if moment.place % TAKE == TAKE - 1 {
        return Some(b"reset".to_vec());
    }
    let sung = sung_key(moment);
    let pair = [sung, sung + 2];
    let (key, other) = (pair[moment.place % 2], pair[1 - moment.place % 2]);
    match random.whole(0, 299) {
        0 => Some(struck(other, random)),
        1 => Some(midi(&[NOTE_ON, other, 0])),
        2 => Some(struck(random.one_of(&[0, 31, 103, 127]), random)),
        _ => Some(struck(key, random)),
    }
}
