//! Beside notes that are held: lines that follow a block, with decays from 200
//! to 255, and with keys.

use super::player::{midi, struck, sung_key, NOTE_OFF, NOTE_ON};
use super::random::Random;
use super::script::Moment;

/// The highest most often: under it the way is longest.
fn decay(random: &mut Random) -> usize {
    let some = random.whole(200, 255);
    random.one_of(&[255, 255, 254, 250, 240, 200, some, some])
}

fn settings(word: &str, decay: usize) -> Vec<u8> {
    format!("{word}\t4095\t409\t{decay}\t1").into_bytes()
}

/// Another decay now and then, so that goals are reached.
pub fn seldom(random: &mut Random, _: &Moment) -> Option<Vec<u8>> {
    random.chance(15).then(|| settings("change", decay(random)))
}

/// Another decay on the way, at times the lowest ones; new scales, which want
/// another note; starts.
pub fn often(random: &mut Random, _: &Moment) -> Option<Vec<u8>> {
    match random.whole(0, 199) {
        0..=19 => Some(settings("change", decay(random))),
        20..=21 => Some(settings("change", random.one_of(&[0, 0, 1, 128]))),
        22..=25 => {
            let (scale, decay) = (random.whole(1, 4_095), decay(random));
            Some(format!("change\t{scale}\t409\t{decay}\t1").into_bytes())
        }
        26 => Some(settings("start", decay(random))),
        _ => None,
    }
}

/// Keys struck and released near what is sung, modes, channels and decays.
pub fn keys(random: &mut Random, moment: &Moment) -> Option<Vec<u8>> {
    let sung = sung_key(moment);
    let key = random.one_of(&[sung - 2, sung - 1, sung, sung, sung + 1, sung + 2]);
    let line = match random.whole(0, 99) {
        0..=7 => struck(key, random),
        8..=9 => midi(&[NOTE_ON, key, 0]),
        10 => midi(&[NOTE_OFF, key, 64]),
        // Struck and released at once; and released, whichever it is.
        11 => midi(&[NOTE_ON, key, 64, key, 0]),
        12 => {
            let near = (sung - 2..=sung + 2).flat_map(|key| [key, 0]);
            midi(&[NOTE_ON].into_iter().chain(near).collect::<Vec<u8>>())
        }
        13 => midi(&[NOTE_ON, random.one_of(&[0, 31, 101, 127]), 64]),
        14 => b"mode\t0".to_vec(),
        15..=16 => b"mode\t1".to_vec(),
        17 => b"channel\t1\nchannel\t0".to_vec(),
        18..=19 => settings("change", decay(random)),
        _ => return None,
    };
    Some(line)
}
