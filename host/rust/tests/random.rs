//! Calls over tuners, with a list, with voices and without, good, damaged, of
//! other layouts and of any bytes, compared with the independent program: 9 and
//! nothing changed, or the right answer; guards around every buffer stay as they
//! were.
//! DAXFOLIN_CASES says how many calls, DAXFOLIN_SEED which.

mod lent;
mod theirs;

use daxfolin::{
    cut, no_voices, Answer, Meter, Settings, Tuner, CD, CHANNEL_OUT_OF_RANGE, DECAY_OUT_OF_RANGE,
    EPS_OUT_OF_RANGE, FILM, FLOOR_OUT_OF_RANGE, KEYBOARD_MODE, LAYOUT, MODE_UNKNOWN, RATE_UNKNOWN,
    RECORD_OUT_OF_RANGE, SCALE_OUT_OF_RANGE, TAKEN,
};
use independent::calls::{made, Call};
use independent::generator::cases::Cases;
use independent::generator::edges::fresh_of_version_2;
use lent::left_by;

/// What an output holds before a call.
const FILL: i16 = -23_131;

#[test]
fn calls_over_any_tuner_are_the_independent_program_s() {
    let told = |name, unless| std::env::var(name).map_or(unless, |n| n.parse().unwrap());
    let cases = told("DAXFOLIN_CASES", 1_000_000);
    let mut source = Cases::seeded(told("DAXFOLIN_SEED", 20_261_115));
    for case in 0..cases {
        let (bytes, call) = source.case();
        if let Call::Cut(..) = call {
            continue;
        }
        let right = made(&bytes, &call);
        let left = left_by(&bytes, &call);
        assert!(
            left == right,
            "case {case}: {call:?}\nleft {left:?}\nright {right:?}"
        );
    }
}

/// Every call over it is answered 9, and leaves it, the output and the store; a start asks nothing of it.
fn is_of_another_layout(bytes: &[u8; Tuner::SIZE]) {
    let mut tuner = Tuner::from_bytes(bytes);
    assert_ne!(tuner.layout(), LAYOUT);
    let (mut out, mut store) = ([FILL; 8], [7; 3]);
    let answer = tuner.block(0, &[1, 2, 3], &mut out);
    let refused = Answer {
        number: RECORD_OUT_OF_RANGE,
        // What stands there.
        rows: u32::from_le_bytes(bytes[248..252].try_into().unwrap()),
        left: u32::from_le_bytes(bytes[252..256].try_into().unwrap()),
        ..Answer::default()
    };
    assert_eq!((answer, out), (refused, [FILL; 8]));
    for size in [0, 2] {
        let night = tuner.night_with(0, size, &[1, 2, 3], &mut out, no_voices(), &mut store);
        assert_eq!((night.number, night.taken), (RECORD_OUT_OF_RANGE, 0));
        assert_eq!((out, store), ([FILL; 8], [7; 3]));
    }
    assert_eq!(tuner.change(Settings::default()), RECORD_OUT_OF_RANGE);
    let scale_0 = Settings {
        scale: 0,
        ..Settings::default()
    };
    assert_eq!(tuner.change(scale_0), RECORD_OUT_OF_RANGE);
    assert_eq!(tuner.midi(&[]), RECORD_OUT_OF_RANGE);
    assert_eq!(tuner.midi(&[144, 60, 100]), RECORD_OUT_OF_RANGE);
    assert_eq!(tuner.reset(&[]), RECORD_OUT_OF_RANGE);
    let with_list = tuner.block_with(0, &[1, 2, 3], &mut out, no_voices(), &mut store);
    assert_eq!((with_list, out), (refused, [FILL; 8]));
    assert_eq!((tuner.reset(&store), store), (RECORD_OUT_OF_RANGE, [7; 3]));
    assert_eq!(tuner.meter(), Meter::Refused);
    assert!(&tuner.to_bytes() == bytes, "the tuner was touched");
    assert_eq!(Tuner::start_default(), (TAKEN, Tuner::default()));
}

#[test]
fn a_tuner_of_another_layout_is_refused() {
    let mut tuner = Tuner::default();
    tuner.block(0, &[1_000, -1_000, 500], &mut [0; 3]);
    assert_eq!(tuner.layout(), LAYOUT);
    let good = tuner.to_bytes();
    for layout in [
        0,
        1,
        2,
        3,
        // Those of the tuners without voices and with them that there were before.
        20_006,
        30_001,
        LAYOUT - 1,
        LAYOUT + 1,
        LAYOUT | 1 << 32,
        u64::MAX,
    ] {
        let mut bytes = good;
        bytes[..8].copy_from_slice(&layout.to_le_bytes());
        is_of_another_layout(&bytes);
    }
    // Versions 1 and 2 had no such number: their records began with scale and eps.
    let old = fresh_of_version_2();
    assert_eq!(old[..8], [0xFF, 0x0F, 0, 0, 100, 0, 0, 0]);
    is_of_another_layout(&old);
}

/// The first bad setting is named: a start hands back the default tuner, a change leaves the tuner. An unknown rate is named before all.
#[test]
fn each_setting_has_its_own_refusal() {
    let refused = [
        (SCALE_OUT_OF_RANGE, [0, 410, 256, 0, 2, 16]),
        (EPS_OUT_OF_RANGE, [1, 410, 256, 0, 2, 16]),
        (DECAY_OUT_OF_RANGE, [1, 409, 256, 0, 2, 16]),
        (FLOOR_OUT_OF_RANGE, [1, 409, 255, 0, 2, 16]),
        (CHANNEL_OUT_OF_RANGE, [1, 409, 255, 1, 2, 16]),
        (MODE_UNKNOWN, [1, 409, 255, 1, 2, 15]),
    ];
    for (number, [scale, eps, decay, floor, mode, channel]) in refused {
        let settings = Settings {
            scale,
            eps,
            decay,
            floor,
            mode,
            channel,
        };
        for hertz in [CD, FILM] {
            assert_eq!(
                Tuner::start_plain(hertz, settings),
                (number, Tuner::default())
            );
        }
        let refused = (RATE_UNKNOWN, Tuner::default());
        assert_eq!(Tuner::start_plain(CD + 1, settings), refused);
        let mut tuner = Tuner::default();
        tuner.block(0, &[1_000, -1_000, 500], &mut [0; 3]);
        let before = tuner.clone();
        assert_eq!(tuner.change(settings), number);
        assert_eq!(tuner, before);
    }
}

/// A key is held through a change of mode, and forgotten by another channel and by a reset.
#[test]
fn bytes_of_a_keyboard() {
    let settings = |mode, channel| Settings {
        mode,
        channel,
        ..Settings::default()
    };
    let fresh = |mode, channel| Tuner::start_plain(CD, settings(mode, channel)).1;
    let mut tuner = Tuner::default();
    assert_eq!(tuner.midi(&[]), TAKEN);
    assert_eq!(tuner, Tuner::default());
    assert_eq!(tuner.midi(&[144, 60, 100, 62]), TAKEN);
    let (mut at_once, mut in_two) = (fresh(KEYBOARD_MODE, 0), fresh(KEYBOARD_MODE, 0));
    at_once.midi(&[144, 60, 100, 62]);
    in_two.midi(&[144, 60]);
    in_two.midi(&[100, 62]);
    assert_eq!(tuner.change(settings(KEYBOARD_MODE, 0)), TAKEN);
    assert!(tuner == at_once && tuner == in_two);
    assert_ne!(tuner, fresh(KEYBOARD_MODE, 0));
    assert_eq!(tuner.change(settings(KEYBOARD_MODE, 1)), TAKEN);
    assert_eq!(tuner, fresh(KEYBOARD_MODE, 1));
    assert_eq!(at_once.reset(&[]), TAKEN);
    assert_eq!(at_once, fresh(KEYBOARD_MODE, 0));
}

/// An unknown rate is refused, and the default tuner at 44,100 comes beside it; a change, bytes of a keyboard and a reset keep the rate.
#[test]
fn a_rate_is_a_start_s_alone() {
    let settings = Settings::default();
    let other = Settings {
        scale: 1,
        ..settings
    };
    assert_eq!(Tuner::start_plain(CD, settings), (TAKEN, Tuner::default()));
    let (number, film) = Tuner::start_plain(FILM, settings);
    assert_eq!(number, TAKEN);
    assert_ne!(film, Tuner::default());
    for hertz in [0, 44_099, 44_101, 47_999, 48_001, 96_000, u32::MAX] {
        let refused = (RATE_UNKNOWN, Tuner::default());
        assert_eq!(Tuner::start_plain(hertz, settings), refused);
    }
    let mut tuner = film.clone();
    assert_eq!(tuner.change(other), TAKEN);
    assert_eq!(tuner, Tuner::start_plain(FILM, other).1);
    assert_eq!(tuner.midi(&[144, 60, 100]), TAKEN);
    assert_eq!(tuner.block(0, &[1, 2, 3], &mut [0; 3]).number, TAKEN);
    assert_eq!(tuner.reset(&[]), TAKEN);
    assert_eq!(tuner.change(settings), TAKEN);
    assert_eq!(tuner, film);
}

/// A square wave of 96 samples is drawn to note 70 at 44,100, and to note 71 at 48,000. In keyboard mode key 32 is in the table of 44,100
/// alone, and key 102 in that of 48,000 alone.
#[test]
fn each_rate_has_its_own_table() {
    let settings = Settings {
        mode: KEYBOARD_MODE,
        ..Settings::default()
    };
    for (hertz, note, key_32, key_102) in [(CD, 24_218, 217_471, 0), (FILM, 24_880, 0, 4_151)] {
        let mut tuner = Tuner::start_plain(hertz, Settings::default()).1;
        let mut wanted = |number: u16, key: &[u8]| {
            if !key.is_empty() {
                assert_eq!(tuner.change(settings), TAKEN);
                assert_eq!(tuner.midi(key), TAKEN);
            }
            let samples: Vec<i16> = (0..480).map(|at| 9_000 * (at / 48 % 2) - 4_500).collect();
            assert_eq!(tuner.block(number, &samples, &mut [0; 480]).number, TAKEN);
            match tuner.meter() {
                Meter::Pitched { wanted, .. } => (256.0 * wanted) as u32,
                _ => 0,
            }
        };
        let scale = (0..5).map(|number| wanted(number, &[])).last();
        assert_eq!(scale, Some(note), "{hertz}");
        assert_eq!(wanted(5, &[144, 32, 100]), key_32, "{hertz}");
        assert_eq!(wanted(6, &[144, 102, 100]), key_102, "{hertz}");
    }
}

/// A tuner started without settings glides to its goal; at decay 0 it is there at once.
#[test]
fn the_default_start_glides() {
    let first_rate = |mut tuner: Tuner| {
        let samples: Vec<i16> = (0..600).map(|at| 9_000 * (at / 48 % 2) - 4_500).collect();
        (0..).zip(samples.chunks(5)).find_map(|(number, five)| {
            assert_eq!(tuner.block(number, five, &mut [0; 5]).number, TAKEN);
            match tuner.meter() {
                Meter::Pitched { rate, .. } => Some(rate * 65_536.0),
                _ => None,
            }
        })
    };
    assert_eq!(Settings::default().decay, 230);
    assert_eq!(first_rate(Tuner::default()), Some(65_634.0));
    let at_once = Settings {
        decay: 0,
        ..Settings::default()
    };
    assert_eq!(
        first_rate(Tuner::start_plain(CD, at_once).1),
        Some(66_505.0)
    );
}

/// A held note that is flat: at the highest decay too the rate comes all the way up, and stays there.
#[test]
fn a_held_note_reaches_its_goal() {
    // Up and down by chance, 608 samples over and over; a cycle of the nearest note has 153775 / 256.
    let mut state = 1u64;
    let mut toss = || {
        state = state.wrapping_mul(6_364_136_223_846_793_005);
        state = state.wrapping_add(1_442_695_040_888_963_407);
        if state >> 63 == 1 {
            900
        } else {
            -900
        }
    };
    let cycle: Vec<i16> = (0..608).map(|_| toss()).collect();
    let goal = ((608.0 * 256.0 * 65_536.0 / 153_775.0f64).round() / 65_536.0) as f32;
    let settings = Settings {
        eps: 409,
        decay: 255,
        floor: 1,
        ..Settings::default()
    };
    let (number, mut tuner) = Tuner::start_plain(CD, settings);
    assert_eq!(number, TAKEN);
    let mut rates = Vec::new();
    for block in 0..150 {
        let samples: Vec<i16> = (0..100)
            .map(|at| cycle[(100 * usize::from(block) + at) % 608])
            .collect();
        assert_eq!(tuner.block(block, &samples, &mut [0; 100]).number, TAKEN);
        if let Meter::Pitched { rate, .. } = tuner.meter() {
            rates.push(rate);
        }
    }
    assert!(rates.windows(2).all(|pair| pair[0] <= pair[1]));
    assert!(rates[..50].iter().all(|&rate| rate < goal));
    assert_eq!(rates[rates.len() - 10..], [goal; 10]);
}

#[test]
fn a_recording_is_cut_into_its_stretches() {
    for length in [0, 1, 511, 512, 513, 1_024, 5_000] {
        let recording: Vec<i16> = (0..length).collect();
        let mut stretches = recording.chunks(512);
        for k in (0..12).chain([usize::MAX / 512, usize::MAX]) {
            assert_eq!(cut(&recording, k), stretches.next().unwrap_or(&[]));
        }
    }
}
