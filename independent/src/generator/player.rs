//! A player beside the singer: lines of keyboard bytes, modes and channels that
//! follow a block.

use super::random::Random;
use super::script::Moment;
use crate::rules::{wanted_note, PERIOD_UNIT};

pub const NOTE_OFF: u8 = 128;
pub const NOTE_ON: u8 = 144;

/// The line with these bytes.
pub fn midi(bytes: &[u8]) -> Vec<u8> {
    let fields = bytes.iter().map(|byte| format!("\t{byte}"));
    format!("midi{}", fields.collect::<String>()).into_bytes()
}

/// The key nearest to what is sung.
pub fn sung_key(moment: &Moment) -> u8 {
    let period = (PERIOD_UNIT as f64 * moment.period) as i64;
    wanted_note(moment.hertz, 4_095, period) as u8
}

/// A velocity of a note on.
pub fn velocity(random: &mut Random) -> u8 {
    random.one_of(&[1, 64, 100, 127])
}

/// The line that strikes this key.
pub fn struck(key: u8, random: &mut Random) -> Vec<u8> {
    midi(&[NOTE_ON, key, velocity(random)])
}

/// The melody's keys, so many blocks each, the last of them without the key.
pub const MELODY: [u8; 3] = [64, 55, 62];
pub const TONE: usize = 72;
const HELD: usize = 60;

/// Each key is struck, held and released, by the running status. Then comes as
/// long a rest: a reset forgets a key, the running status and a half message.
pub fn melody(_: &mut Random, moment: &Moment) -> Option<Vec<u8>> {
    let tone = moment.place / TONE % (MELODY.len() + 1);
    let Some(&key) = MELODY.get(tone) else {
        let lines = [
            &midi(&[NOTE_ON, 60, 100, 62])[..],
            b"\nreset\n",
            &midi(&[100]),
        ];
        return moment.place.is_multiple_of(TONE).then(|| lines.concat());
    };
    match moment.place % TONE {
        0 => Some(midi(&[NOTE_ON, key, 100])),
        HELD => Some(midi(&[key, 0])),
        _ => None,
    }
}

/// Keys near the singing, one over another, with changes of mode; for some
/// time on one channel, then on the next.
pub fn beside(random: &mut Random, moment: &Moment) -> Option<Vec<u8>> {
    let channel = [0, 5, 0, 15][moment.place / 40 % 4];
    if moment.place.is_multiple_of(40) {
        return Some(format!("channel\t{channel}").into_bytes());
    }
    let (on, off) = (NOTE_ON + channel, NOTE_OFF + channel);
    let sung = sung_key(moment);
    let key = sung + random.one_of(&[0, 1, 4, 7]) - 3;
    let velocity = velocity(random);
    let line = match random.whole(0, 59) {
        0..=11 => midi(&[on, key, velocity]),
        12..=15 => midi(&[key, velocity]),
        // The later of two keys is released, or the older.
        16..=17 => midi(&[on, sung, velocity, key, velocity, key, 0]),
        18..=19 => midi(&[on, sung, velocity, key, velocity, sung, 0]),
        20..=21 => midi(&[off, key, velocity]),
        22..=23 => midi(&[on, key, 0]),
        // Another channel, and messages that are not about keys.
        24..=25 => midi(&[on ^ 1, key, velocity, key, 0]),
        26..=27 => {
            let sorts = [176, 123, 0, 192, key, 224, 0, 64, 160, key, 9, 208, key];
            midi(&sorts.map(|byte| if byte < 128 { byte } else { byte + channel }))
        }
        28..=29 => b"mode\t0".to_vec(),
        30..=33 => b"mode\t1".to_vec(),
        // The same channel again; another and back, and then no running status.
        34 => format!("channel\t{channel}").into_bytes(),
        35 => {
            let away = format!("channel\t{}\nchannel\t{channel}\n", channel ^ 1);
            [away.as_bytes(), &midi(&[key, velocity])].concat()
        }
        36 => b"start\t4095\t409\t128\t1".to_vec(),
        _ => return None,
    };
    Some(line)
}

/// Keys an octave from the singing, and a little or much more: the raw rate is
/// at and around its bounds.
pub fn octaves(random: &mut Random, moment: &Moment) -> Option<Vec<u8>> {
    if !random.chance(100) {
        return None;
    }
    let sung = i32::from(sung_key(moment));
    let near = random.one_of(&[-24, -13, -11, 11, 13, 24]);
    let apart = random.one_of(&[-12, -12, 12, 12, near]);
    let key = (sung + apart).clamp(0, 127) as u8;
    Some(struck(key, random))
}

/// Keys outside the table and at its ends.
pub fn outside(random: &mut Random, _: &Moment) -> Option<Vec<u8>> {
    let key = random.one_of(&[0, 1, 30, 31, 32, 33, 99, 100, 101, 102, 126, 127]);
    match random.whole(0, 9) {
        0..=2 => Some(struck(key, random)),
        3 => Some(midi(&[NOTE_ON, key, 0])),
        _ => None,
    }
}

/// Few keys near the singing, struck and released several times between steps.
pub fn trill(random: &mut Random, moment: &Moment) -> Option<Vec<u8>> {
    let mut bytes = Vec::new();
    for _ in 0..random.whole(0, 4) {
        let key = sung_key(moment) + random.one_of(&[0, 2]);
        let status = random.one_of(&[NOTE_OFF, NOTE_ON, NOTE_ON]);
        bytes.extend([status, key, random.one_of(&[0, 64, 64, 127])]);
    }
    (!bytes.is_empty()).then(|| midi(&bytes))
}

/// Messages cut anywhere, with what may fall between their pieces.
pub fn pieces(random: &mut Random, moment: &Moment) -> Option<Vec<u8>> {
    let key = sung_key(moment) + random.one_of(&[0, 0, 2]);
    let velocity = velocity(random);
    let status = random.one_of(&[NOTE_ON, NOTE_ON, NOTE_OFF, NOTE_ON + 1, 160, 192]);
    let line = match random.whole(0, 19) {
        0..=1 => midi(&[status]),
        2..=4 => midi(&[NOTE_ON, key]),
        5 => midi(&[status, key]),
        6..=7 => midi(&[key]),
        8..=10 => midi(&[velocity]),
        11 => midi(&[0]),
        12 => midi(&[key, velocity]),
        13 => midi(&[NOTE_ON, 248, key, random.one_of(&[249, 250, 253, 254, 255])]),
        14 => midi(&[random.one_of(&[240, 241, 242, 243, 244, 245, 246, 247])]),
        15 => midi(&[240, key, velocity, 248, 0, 247]),
        16 => midi(&[240, key, velocity, NOTE_ON, key]),
        17 => b"mode\t1".to_vec(),
        18 => random.one_of(&[&b"channel\t0"[..], b"channel\t1"]).to_vec(),
        _ => return None,
    };
    Some(line)
}

/// Any bytes, modes and channels, those that are refused among them.
pub fn any_bytes(random: &mut Random, _: &Moment) -> Option<Vec<u8>> {
    let line = match random.whole(0, 19) {
        0..=11 => {
            // All bytes, or data bytes most of the time.
            let data = random.one_of(&[0, 900]);
            let length = random.one_of(&[1, 1, 2, 3, 12, 60]);
            let byte = |random: &mut Random| match random.chance(data) {
                true => random.whole(0, 127) as u8,
                false => random.next() as u8,
            };
            midi(&(0..length).map(|_| byte(random)).collect::<Vec<u8>>())
        }
        12..=13 => {
            let key = random.whole(0, 127) as u8;
            midi(&[NOTE_ON + random.whole(0, 15) as u8, key, velocity(random)])
        }
        14 => {
            let mode = random.one_of(&[0, 1, 1, 2, 255, 256, u32::MAX]);
            format!("mode\t{mode}").into_bytes()
        }
        15 => {
            let some = random.whole(0, 15) as u32;
            let channel = random.one_of(&[0, some, some, 16, 256, u32::MAX]);
            format!("channel\t{channel}").into_bytes()
        }
        _ => return None,
    };
    Some(line)
}
