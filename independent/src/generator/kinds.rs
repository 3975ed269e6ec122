//! The kinds of script: what is sung, and how it is sent.

use super::choices::choice_line;
use super::cuts;
use super::filming;
use super::holding;
use super::hostile::{endless_line, hostile_line};
use super::many;
use super::player;
use super::random::Random;
use super::runs;
use super::script::Moment;
use super::sound::{period_of_note, Passage, Wave};
use crate::table::{notes_at, CD, FILM};

/// The loudest sample.
const FULL: f64 = 32_768.0;

/// A passage by chance and by its place in the script.
type Singing = fn(&mut Random, usize) -> Passage;

/// Lines after a block, if there are any, by chance and by what then stands.
pub type Following = fn(&mut Random, &Moment) -> Option<Vec<u8>>;

pub struct Kind {
    pub name: &'static str,
    pub meaning: &'static str,
    pub singing: Singing,
    /// The settings that it starts with, if they are not left to chance.
    pub settings: Option<&'static str>,
    /// Whether it never starts, and so keeps the settings with which the program
    /// opens.
    pub bare: bool,
    /// Whether it begins in keyboard mode.
    pub keyboard: bool,
    /// The lengths of blocks, least and most.
    pub lengths: (usize, usize),
    /// So many times in a thousand a block is followed by settings to take.
    pub changes: usize,
    /// So many times in a thousand by a reset.
    pub resets: usize,
    /// So many times in a thousand by something that is not the next block.
    pub trouble: usize,
    /// So many times in a thousand by a block that changes nothing.
    pub in_vain: usize,
    /// So many times in a thousand by a line that cannot be read.
    pub unreadable: usize,
    /// What may follow each block.
    pub following: Option<Following>,
    /// Whether each of its takes is sent several times, cut in other ways.
    pub cut: bool,
}

const fn kind(name: &'static str, meaning: &'static str, singing: Singing) -> Kind {
    Kind {
        name,
        meaning,
        singing,
        settings: None,
        bare: false,
        keyboard: false,
        lengths: (1, 512),
        changes: 20,
        resets: 0,
        trouble: 0,
        in_vain: 0,
        unreadable: 0,
        following: None,
        cut: false,
    }
}

/// A kind in keyboard mode.
const fn played(name: &'static str, meaning: &'static str, singing: Singing) -> Kind {
    Kind {
        settings: Some("4095\t409\t0\t1"),
        keyboard: true,
        changes: 0,
        ..kind(name, meaning, singing)
    }
}

pub const KINDS: &[Kind] = &[
    Kind {
        bare: true,
        changes: 0,
        resets: 20,
        unreadable: 20,
        ..kind("opening", "swinging tones before any start", vibrato)
    },
    kind(
        "tones",
        "every note from 32 to 100, in tune, flat and sharp",
        tones,
    ),
    kind("glides", "up and down between 50 Hz and 2756 Hz", glides),
    kind("vibrato", "swinging tones", vibrato),
    kind("hollow", "weak and missing fundamentals", hollow),
    kind("noise", "noise, alone and over tones", noise),
    kind("tails", "loud, then soft, then silent", tails),
    kind("squares", "full-scale square waves", squares),
    kind("steps", "steps, ramps and impulses", steps),
    kind("pulses", "pulses of uneven width", pulses),
    kind("soft", "tones of a few units", soft),
    kind("cycles", "drawn cycles repeated exactly", cycles),
    Kind {
        settings: Some("512\t409\t0\t1"),
        changes: 0,
        ..kind("shifted", "tones drawn to one note, far off", vibrato)
    },
    Kind {
        settings: Some("4095\t409\t0\t1"),
        ..kind("halves", "cycles whose offset is an exact half", halves)
    },
    Kind {
        settings: Some("4095\t409\t255\t1"),
        changes: 0,
        resets: 30,
        ..kind("level", "reading level with the input", level)
    },
    Kind {
        settings: Some("1024\t409\t0\t1"),
        changes: 0,
        resets: 30,
        ..kind("brink", "reading just 1,000 samples behind", brink)
    },
    Kind {
        settings: Some("4095\t100\t0\t100"),
        changes: 0,
        ..kind("brim", "squares that just meet the floor", brim)
    },
    Kind {
        changes: 400,
        lengths: (1, 200),
        ..kind("settings", "tones under many changes of settings", vibrato)
    },
    Kind {
        settings: Some("4095\t409\t0\t1"),
        lengths: (20, 100),
        changes: 0,
        trouble: 100,
        following: Some(choice_line),
        ..kind("choices", "good and bad settings, every choice", vibrato)
    },
    Kind {
        lengths: (1, 1),
        ..kind("ones", "blocks of one sample", tones)
    },
    Kind {
        trouble: 500,
        ..kind("rough", "repeats, refusals, starts and resets", any)
    },
    Kind {
        unreadable: 900,
        ..kind("unreadable", "lines that cannot be read", tones)
    },
    Kind {
        trouble: 100,
        unreadable: 50,
        changes: 50,
        ..kind("mixed", "all of these", any)
    },
    Kind {
        settings: Some("4095\t150\t128\t10"),
        lengths: (64, 64),
        following: Some(player::melody),
        ..played("melody", "a held tone drawn to a played melody", held)
    },
    Kind {
        lengths: (1, 100),
        changes: 20,
        resets: 10,
        trouble: 30,
        following: Some(player::beside),
        ..played("played", "a player beside the singer", vibrato)
    },
    Kind {
        lengths: (1, 100),
        following: Some(player::octaves),
        ..played("octaves", "keys an octave from the singing", in_tune)
    },
    Kind {
        lengths: (1, 200),
        following: Some(player::outside),
        ..played("outside", "keys outside the table", tones)
    },
    Kind {
        lengths: (1, 4),
        following: Some(player::trill),
        ..played("trill", "keys struck and released between steps", vibrato)
    },
    Kind {
        lengths: (1, 60),
        resets: 10,
        trouble: 20,
        unreadable: 20,
        following: Some(player::pieces),
        ..played("pieces", "keyboard messages cut anywhere", vibrato)
    },
    Kind {
        lengths: (1, 60),
        changes: 20,
        resets: 5,
        following: Some(player::any_bytes),
        ..played("bytes", "any keyboard bytes, modes and channels", vibrato)
    },
    Kind {
        settings: Some("4095\t409\t255\t1"),
        changes: 0,
        following: Some(holding::seldom),
        ..kind("goals", "notes held until they are in tune", sustained)
    },
    Kind {
        settings: Some("4095\t409\t255\t1"),
        lengths: (1, 100),
        changes: 0,
        resets: 5,
        trouble: 5,
        following: Some(holding::often),
        ..kind("decays", "held notes, other decays, losses", broken)
    },
    Kind {
        settings: Some("4095\t409\t255\t1"),
        lengths: (1, 100),
        resets: 2,
        following: Some(holding::keys),
        ..played("keys", "keys struck under held notes", sustained)
    },
    Kind {
        settings: Some("4095\t409\t0\t1\t48000"),
        changes: 0,
        ..kind("film", "every note from 33 to 102, at 48,000", film)
    },
    Kind {
        settings: Some("4095\t409\t0\t1\t48000"),
        lengths: (1, 200),
        changes: 0,
        following: Some(filming::switches),
        ..kind("rates", "starts at both rates, and refused ones", both)
    },
    Kind {
        settings: Some("4095\t409\t0\t1\t48000"),
        lengths: (1, 60),
        following: Some(filming::ends),
        ..played("ends", "keys at the ends of both tables", at_the_ends)
    },
    Kind {
        settings: Some("4095\t409\t0\t1\t48000"),
        lengths: (1, 300),
        changes: 30,
        following: Some(cuts::falls),
        cut: true,
        ..played("cuts", "each take cut in several ways", song)
    },
    Kind {
        settings: Some("4095\t200\t0\t10"),
        changes: 10,
        resets: 10,
        trouble: 20,
        in_vain: 40,
        ..kind("rests", "songs with rests, each note twice", runs::rests)
    },
    Kind {
        settings: Some("4095\t409\t0\t1"),
        lengths: (1, 200),
        changes: 0,
        in_vain: 40,
        unreadable: 20,
        following: Some(runs::within),
        ..kind(
            "within",
            "changes, modes and keys within a note",
            runs::held,
        )
    },
    Kind {
        lengths: (5, 5),
        in_vain: 5,
        following: Some(runs::keys),
        ..played("rows", "a key before every step", runs::steady)
    },
    Kind {
        settings: Some("4095\t409\t230\t1"),
        lengths: (1, 60),
        changes: 0,
        in_vain: 20,
        following: Some(many::takes),
        ..kind("takes", "takes in great number", vibrato)
    },
    Kind {
        settings: Some("4095\t409\t0\t1"),
        lengths: (1, 4),
        changes: 0,
        following: Some(hostile_line),
        ..kind("hostile", "lines at the edge of what can be read", tones)
    },
    Kind {
        lengths: (500, 512),
        following: Some(endless_line),
        ..kind("endless", "lines of up to a million bytes", tones)
    },
];

pub fn kind_named(name: &str) -> Option<&'static Kind> {
    KINDS.iter().find(|kind| kind.name == name)
}

fn any(random: &mut Random, place: usize) -> Passage {
    let singing: Singing = random.one_of(&[
        tones, glides, vibrato, hollow, noise, tails, squares, steps, pulses, soft, cycles,
    ]);
    singing(random, place)
}

/// Partials that grow weaker, the first at `first`.
fn voice(random: &mut Random, first: f64) -> Wave {
    let mut strengths = vec![first];
    for partial in 2..=random.whole(2, 7) {
        strengths.push(random.real(0.0, 0.7) / partial as f64);
    }
    let sum: f64 = strengths.iter().sum();
    Wave::Partials(strengths.iter().map(|strength| strength / sum).collect())
}

fn tones(random: &mut Random, place: usize) -> Passage {
    tones_at(CD, random, place)
}

/// The notes of this rate's table, one after the other: leaps of 25 come to each
/// of 69 before any comes again, and leaps of 29 to each of 70.
fn tones_at(hertz: u32, random: &mut Random, place: usize) -> Passage {
    let notes: Vec<usize> = notes_at(hertz).collect();
    let leap = if hertz == CD { 25 } else { 29 };
    let note = notes[leap * place % notes.len()];
    let cents = match random.whole(0, 2) {
        0 => 0.0,
        1 => random.real(-8.0, 8.0),
        _ => random.real(-55.0, 55.0),
    };
    let period = period_of_note(hertz, note, cents);
    let length = (6.0 * period) as usize + random.whole(500, 3_000);
    Passage::of(voice(random, 1.0), period, length)
        .loud(random.real(500.0, FULL))
        .breathy(random.one_of(&[0.0, 0.0, 20.0, 200.0]))
}

/// Every note of the table at 48,000.
fn film(random: &mut Random, place: usize) -> Passage {
    glided_up_to(tones_at(FILM, random, place), random)
}

/// The notes of either table.
fn both(random: &mut Random, place: usize) -> Passage {
    tones_at([CD, FILM][place % 2], random, place)
}

/// Notes of either table, glides and swings among them, and silence: lags are
/// found, follow and are lost.
fn song(random: &mut Random, place: usize) -> Passage {
    let period = random.real(30.0, 300.0);
    let length = (6.0 * period) as usize + random.whole(300, 2_000);
    let passage =
        Passage::of(voice(random, 1.0), period, length).loud(random.real(500.0, 30_000.0));
    match place % 5 {
        0 => both(random, place / 5),
        1 => {
            let speed = random.real(-0.02, 0.02);
            passage.gliding((period + speed * length as f64).max(20.0))
        }
        2 => passage.swinging(random.real(0.002, 0.03), random.real(3_000.0, 8_000.0)),
        3 => passage,
        _ => passage.lasting(random.whole(20, 300)).loud(0.0),
    }
}

/// The first and the last notes of either table.
fn at_the_ends(random: &mut Random, place: usize) -> Passage {
    let hertz = random.one_of(&[CD, FILM]);
    let note = [random.whole(32, 34), random.whole(99, 103)][place % 2];
    let period = period_of_note(hertz, note, random.real(-20.0, 20.0));
    let length = random.whole(2_500, 5_000);
    let passage = Passage::of(voice(random, 1.0), period, length);
    glided_up_to(passage.loud(random.real(2_000.0, 30_000.0)), random)
}

/// What is too high to be found by itself, its cycle being shorter than the
/// shortest lag that is found, is glided up to from a note that is.
fn glided_up_to(passage: Passage, random: &mut Random) -> Passage {
    const FOUND: f64 = 40.0;
    let period = passage.to;
    if period > 26.0 {
        return passage;
    }
    let length = ((FOUND - period) / random.real(0.004, 0.02)) as usize;
    Passage {
        from: FOUND,
        ..passage.lasting(length)
    }
}

/// One tone among the keys of the melody, as long as the melody.
fn held(random: &mut Random, _: usize) -> Passage {
    let period = period_of_note(CD, random.whole(58, 61), random.real(-50.0, 50.0));
    let length = 64 * player::TONE * player::MELODY.len();
    Passage::of(voice(random, 1.0), period, length)
        .swinging(random.real(0.001, 0.008), random.real(3_000.0, 8_000.0))
        .loud(random.real(200.0, 400.0))
}

/// Slowly through the period of a note, most often one of those whose octaves
/// come nearest to the bounds of the raw rate.
fn in_tune(random: &mut Random, _: usize) -> Passage {
    let highest = random.one_of(&[64, 64, 99]);
    let period = period_of_note(CD, random.whole(33, highest), 0.0);
    let past = random.one_of(&[0.9993, 1.0007]);
    let length = random.whole(3_000, 6_000);
    Passage::of(voice(random, 1.0), period * past, length)
        .gliding(period / past)
        .loud(random.real(5_000.0, 30_000.0))
}

/// Ends a little past the lags 16 and 880, so that the eight are stopped.
fn glides(random: &mut Random, place: usize) -> Passage {
    let (from, to) = match place % 4 {
        0 => (random.real(40.0, 120.0), random.real(15.0, 17.0)),
        1 => (random.real(300.0, 500.0), random.real(870.0, 890.0)),
        2 => (random.real(860.0, 880.0), random.real(30.0, 60.0)),
        _ => (random.real(50.0, 100.0), random.real(870.0, 890.0)),
    };
    let speed = random.real(0.004, 0.03);
    let length = ((from - to).abs() / speed) as usize;
    Passage::of(voice(random, 1.0), from, length)
        .gliding(to)
        .loud(random.real(2_000.0, 30_000.0))
}

fn vibrato(random: &mut Random, _: usize) -> Passage {
    let period = random.real(30.0, 500.0);
    let length = random.whole(4_000, 20_000);
    Passage::of(voice(random, 1.0), period, length)
        .swinging(random.real(0.002, 0.06), random.real(3_000.0, 12_000.0))
        .loud(random.real(500.0, 30_000.0))
        .breathy(random.one_of(&[0.0, 10.0, 300.0]))
}

fn hollow(random: &mut Random, _: usize) -> Passage {
    let fundamental = random.one_of(&[0.0, 0.0, 0.02, 0.1]);
    let period = random.real(40.0, 860.0);
    let length = random.whole(3_000, 9_000);
    Passage::of(voice(random, fundamental), period, length).loud(random.real(2_000.0, 30_000.0))
}

fn noise(random: &mut Random, place: usize) -> Passage {
    let length = random.whole(2_000, 8_000);
    match place % 3 {
        0 => Passage::of(Wave::Partials(vec![]), 100.0, length).breathy(random.real(1.0, FULL)),
        1 => {
            let mut height = 0.0;
            let walk = (0..length).map(|_| {
                height = 0.98 * height + random.real(-0.05, 0.05);
                height
            });
            let wave = Wave::Drawn(walk.collect());
            Passage::of(wave, 100.0, length).loud(random.real(1_000.0, FULL))
        }
        _ => {
            let loudness = random.real(1_000.0, 15_000.0);
            Passage::of(voice(random, 1.0), random.real(20.0, 800.0), length)
                .loud(loudness)
                .breathy(loudness * random.real(0.05, 1.0))
        }
    }
}

fn tails(random: &mut Random, place: usize) -> Passage {
    let period = 60.0 + 97.0 * (place / 4 % 5) as f64;
    let length = random.whole(2_000, 12_000);
    let wave = voice(random, 1.0);
    match place % 4 {
        0 => Passage::of(wave, period, length).loud(random.real(20_000.0, 60_000.0)),
        1 => Passage::of(wave, period, length).fading(20_000.0, 0.0),
        2 => Passage::of(wave, period, length).loud(random.real(0.0, 30.0)),
        _ => Passage::of(wave, period, length / 2).loud(0.0),
    }
}

fn squares(random: &mut Random, _: usize) -> Passage {
    let length = random.whole(2_000, 8_000);
    let (wave, period) = match random.whole(0, 2) {
        0 => (Wave::Square, random.real(16.0, 880.0)),
        1 => (Wave::Square, 8.0 * random.whole(3, 110) as f64),
        _ => {
            let half = random.whole(8, 440);
            let other = half + random.whole(0, 1);
            let values = (0..half + other).map(|at| if at < half { 1.0 } else { -1.0 });
            (Wave::Drawn(values.collect()), 100.0)
        }
    };
    Passage::of(wave, period, length).loud(FULL)
}

fn steps(random: &mut Random, _: usize) -> Passage {
    let length = random.whole(1_000, 6_000);
    let gap = random.whole(20, 900);
    let height = random.one_of(&[1.0, -1.0, 0.5, 0.0]);
    let values: Vec<f64> = match random.whole(0, 3) {
        0 => vec![height],
        1 => {
            let impulse = |at| if at % gap == 0 { height } else { 0.0 };
            (0..gap).map(impulse).collect()
        }
        2 => (0..gap).map(|at| at as f64 / gap as f64).collect(),
        _ => {
            let stairs = |_| random.real(-1.0, 1.0);
            let heights: Vec<f64> = (0..length / gap + 1).map(stairs).collect();
            (0..length).map(|at| heights[at / gap]).collect()
        }
    };
    Passage::of(Wave::Drawn(values), 100.0, length).loud(random.one_of(&[FULL, 300.0]))
}

/// Between pulses of uneven width a whole row of lags fits equally well.
fn pulses(random: &mut Random, _: usize) -> Passage {
    let length = random.whole(3_000, 10_000);
    let gap = random.whole(40, 860);
    let width = random.whole(gap / 6, gap / 2);
    let wider = random.whole(0, 4);
    let mut values = vec![0.0; length + 2 * gap];
    for start in (0..length).step_by(gap) {
        let end = start + width + random.whole(0, wider);
        values[start..end].fill(1.0);
    }
    Passage::of(Wave::Drawn(values), 100.0, length)
        .loud(random.one_of(&[20_000.0, 1_000.0, 30.0]))
        .breathy(random.one_of(&[0.0, 0.0, 1.0, 6.0]))
}

fn soft(random: &mut Random, _: usize) -> Passage {
    let length = random.whole(3_000, 12_000);
    let loudest = random.one_of(&[4.0, 20.0, 50.0, 100.0]);
    let longest = random.one_of(&[200.0, 860.0]);
    let period = random.real(24.0, longest);
    Passage::of(voice(random, 1.0), period, length)
        .loud(random.real(0.3, 1.0) * loudest)
        .swinging(random.real(0.0, 0.02), 5_000.0)
}

fn cycles(random: &mut Random, _: usize) -> Passage {
    let length = random.whole(2_000, 9_000);
    let cycle = match random.whole(0, 1) {
        0 => 8 * random.whole(3, 110),
        _ => random.whole(16, 880),
    };
    let mut height = 0.0;
    let values = (0..cycle).map(|_| {
        height = 0.9 * height + random.real(-0.2, 0.2);
        height
    });
    let wave = Wave::Drawn(values.collect());
    Passage::of(wave, 100.0, length).loud(random.one_of(&[30_000.0, 3_000.0, 20.0]))
}

/// A cycle that is full up or full down, of so many samples, so many of them
/// unlike the one before, by chance.
///
/// No single pair of samples weighs much in D, so the tracked period is the
/// cycle, hardly moved.
fn tossed(random: &mut Random, cycle: usize, turns: usize) -> Passage {
    let (mut height, mut left) = (1.0, turns);
    let values = (0..cycle).map(|at| {
        if random.whole(1, cycle - at) <= left {
            (height, left) = (-height, left - 1);
        }
        height
    });
    let wave = Wave::Drawn(values.collect());
    Passage::of(wave, 100.0, 40 * cycle).loud(10_000.0)
}

/// Where both ends of the cycle turn, D1 and D3 are 255 and 257 turns, and
/// the offset is -1/2.
fn halves(random: &mut Random, _: usize) -> Passage {
    let cycle = random.whole(440, 870);
    tossed(random, cycle, 256)
}

/// A little flat: at decay 255 the rate stays at 65536 until what rounding cut
/// off makes a unit.
fn level(random: &mut Random, _: usize) -> Passage {
    let cycle = random.one_of(&[451, 478, 507, 537, 568, 602, 638, 676, 716, 758, 803, 851]);
    tossed(random, cycle, 300)
}

/// A note that is held, flat or sharp, softly: as long as the rate needs to its
/// goal under the highest decay. Two of three have cycles that come again
/// exactly, so that the raw rate is one and the same.
fn sustained(random: &mut Random, _: usize) -> Passage {
    let length = random.whole(12_000, 20_000);
    let passage = match random.whole(0, 2) {
        0 => {
            let period = period_of_note(CD, random.whole(45, 70), random.real(-50.0, 50.0));
            Passage::of(voice(random, 1.0), period, length)
        }
        _ => {
            let cycle = 8 * random.whole(55, 109);
            let mut passage = tossed(random, cycle, 300);
            // Nothing is heard of it, but a player takes the key from it.
            (passage.from, passage.to) = (cycle as f64, cycle as f64);
            passage
        }
    };
    passage.lasting(length).loud(90.0)
}

/// Such notes, most of them left early, with silence between them.
fn broken(random: &mut Random, place: usize) -> Passage {
    let passage = sustained(random, place);
    let length = random.one_of(&[1_500, 3_000, 3_000, 6_000, passage.length]);
    match place % 4 {
        3 => passage.lasting(random.whole(100, 1_500)).loud(0.0),
        _ => passage.lasting(length),
    }
}

/// Drawn to note 34, it falls 12,800 units behind each sample, 1,000 samples
/// in 5,120. The breath tells a cycle from the next one.
fn brink(random: &mut Random, _: usize) -> Passage {
    tossed(random, 609, 300).breathy(3.0)
}

/// The mean square is 100 at each lag of either rate: the passages keep in
/// step with the eighth-rate samples.
fn brim(random: &mut Random, _: usize) -> Passage {
    let half = 8 * random.whole(2, 50);
    let values = [vec![1.0; half], vec![-1.0; half]].concat();
    let length = random.whole(10, 20) * 2 * half;
    Passage::of(Wave::Drawn(values), 100.0, length).loud(10.0)
}
