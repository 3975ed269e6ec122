//! Takes that are sent several times, each time cut in another way: into other
//! blocks, and the keyboard's bytes into other lines.
//!
//! A program to which the cutting matters is found only where a border of its
//! blocks falls beside something that happens. So borders are put there: what falls
//! into a take falls just before a tracking step as often as anywhere else, and one
//! cutting has borders beside every lag found or lost and every cycle turned.

use super::filming;
use super::holding;
use super::kinds::{Following, Kind};
use super::player;
use super::random::Random;
use super::script::{block_line, Moment, Script, IN_VAIN};
use super::spoilt::spoilt_line;
use crate::lines::{answers_to, Program};
use crate::rules::LONGEST_BLOCK;
use crate::takes::{takes_of, Stretch, Take};
use std::io::{self, Write};
use std::mem::discriminant;

/// A way to cut a take.
pub struct Cutting {
    /// The samples of a block and the bytes on a line, least and most.
    pub samples: (usize, usize),
    pub bytes: (usize, usize),
    /// So many times in a thousand a line is followed by one that changes nothing.
    pub strewn: usize,
    /// Whether blocks also end beside what happens in the take.
    pub at_turns: bool,
}

/// As many bytes on a line as fall after one sample.
const ALL: usize = usize::MAX;

/// The bureau's blocks, the remote site's, the shortest, and any, with borders
/// where they might matter.
pub const CUTTINGS: [Cutting; 4] = [
    Cutting {
        samples: (LONGEST_BLOCK, LONGEST_BLOCK),
        bytes: (ALL, ALL),
        strewn: 0,
        at_turns: false,
    },
    Cutting {
        samples: (64, 64),
        bytes: (1, 1),
        strewn: 300,
        at_turns: false,
    },
    Cutting {
        samples: (1, 1),
        bytes: (2, 2),
        strewn: 0,
        at_turns: false,
    },
    Cutting {
        samples: (1, LONGEST_BLOCK),
        bytes: (1, 8),
        strewn: 400,
        at_turns: true,
    },
];

/// What falls into a take: keys and scales far from the singing, and what other
/// kinds have beside it.
const FALLING: &[Following] = &[
    far,
    far,
    far,
    far,
    elsewhere,
    elsewhere,
    elsewhere,
    elsewhere,
    player::beside,
    player::pieces,
    player::any_bytes,
    holding::often,
    holding::keys,
];

/// For some time it is played above the singing, so that cycles are repeated, and
/// then below it, so that they are dropped.
fn is_low(moment: &Moment) -> bool {
    moment.place / 36 % 2 == 1
}

/// Keys far from the singing, whatever mode and channel were before.
fn far(random: &mut Random, moment: &Moment) -> Option<Vec<u8>> {
    let sung = player::sung_key(moment);
    let key = match is_low(moment) {
        true => sung - random.one_of(&[11, 11, 9]),
        false => sung + random.one_of(&[5, 7, 10]),
    };
    let struck = player::struck(key, random);
    Some([b"mode\t1\nchannel\t0\n", &struck[..]].concat())
}

/// A scale of one note, and any decay: the next step wants another note, or goes
/// another way to it.
fn elsewhere(random: &mut Random, moment: &Moment) -> Option<Vec<u8>> {
    let note = 1 << random.whole(0, 11);
    let decay = random.one_of(&[0, 0, 128, 200, 255]);
    let scale = if is_low(moment) { "" } else { "mode\t0\n" };
    let mode = random.one_of(&[scale, scale, ""]);
    Some(format!("{mode}change\t{note}\t409\t{decay}\t1").into_bytes())
}

/// Now and then a start at either rate, and so another take. Else nothing, or
/// several lines, whose order counts.
pub fn falls(random: &mut Random, moment: &Moment) -> Option<Vec<u8>> {
    if random.chance(25) {
        let start = filming::played_start(random);
        return far(random, moment).map(|key| [start, key].join(&b'\n'));
    }
    let mut lines = Vec::new();
    for _ in 0..random.one_of(&[0, 0, 0, 1, 1, 4]) {
        let falling = random.one_of(FALLING);
        lines.extend(falling(random, moment));
    }
    (!lines.is_empty()).then(|| lines.join(&b'\n'))
}

/// Writes the takes of a kind and a seed in every cutting, at least so many
/// samples in blocks to be taken.
pub fn write_cuts(kind: &Kind, seed: u64, samples: usize, to: impl Write) -> io::Result<()> {
    let mut sung = Vec::new();
    let uncut = Script::of(kind, seed, &mut sung);
    uncut.write(samples.div_ceil(CUTTINGS.len()), kind.lengths)?;
    let (answers, _) = answers_to(&sung);
    // By other chance than the sound.
    let mut script = Script::of(kind, !seed, to);
    for played in takes_of(&sung, &answers) {
        let take = before_steps(played.take, &mut script.random);
        let turns = turns(&take);
        for cutting in &CUTTINGS {
            for line in cut(&take, cutting, &turns, &mut script.random) {
                script.send(&line)?;
                strew(&mut script, cutting.strewn)?;
            }
        }
    }
    script.to.flush()
}

/// The take in which what falls between samples falls later, one time in two, so
/// that the next sample is one of a tracking step.
fn before_steps(take: Take, random: &mut Random) -> Take {
    let mut count = 0;
    let mut stretches = take.stretches;
    let mut sung = stretches.iter_mut().filter_map(|stretch| match stretch {
        Stretch::Samples(samples) => Some(samples),
        _ => None,
    });
    let mut before = sung.next();
    for behind in sung {
        let first = before.expect("there are samples before");
        let more = (9 - (count + first.len()) % 5) % 5;
        if more < behind.len() && random.chance(500) {
            first.extend(behind.drain(..more));
        }
        count += first.len();
        before = Some(behind);
    }
    Take { stretches, ..take }
}

/// After how many samples something happens in a take: a lag is found, the first
/// step with it is made, it is lost, or a cycle is repeated or dropped.
fn turns(take: &Take) -> Vec<usize> {
    let ones = &CUTTINGS[2];
    assert_eq!(ones.samples, (1, 1));
    let (mut program, mut stands) = (Program::default(), None);
    let (mut count, mut turns) = (0, Vec::new());
    for line in cut(take, ones, &[], &mut Random::seeded(0)) {
        let mut answer = Vec::new();
        program.read(&[&line[..], b"\n"].concat(), &mut answer);
        if !line.starts_with(b"block") {
            continue;
        }
        count += 1;
        let now = discriminant(&program.tuner().meter());
        if stands.replace(now) != Some(now) || !answer.starts_with(b"0\t1\t0\t0\t") {
            turns.push(count);
        }
    }
    turns
}

/// The lines of a take, cut in this way. A change stands after the same sample in
/// every cutting, and so ends a block, however short.
fn cut(take: &Take, cutting: &Cutting, turns: &[usize], random: &mut Random) -> Vec<Vec<u8>> {
    let mut lines = vec![take.start.clone()];
    let (mut number, mut count): (u16, usize) = (0, 0);
    for stretch in &take.stretches {
        match stretch {
            Stretch::Samples(samples) => {
                let turns = if cutting.at_turns { turns } else { &[] };
                for part in parted(samples, count, turns, random) {
                    for block in pieces(part, cutting.samples, random) {
                        lines.push(block_line(number, block));
                        number = number.wrapping_add(1);
                    }
                }
                count += samples.len();
            }
            Stretch::Bytes(bytes) => {
                lines.extend(pieces(bytes, cutting.bytes, random).map(player::midi));
            }
            Stretch::Change(line) => lines.push(line.clone()),
        }
    }
    lines
}

/// The samples behind so many, parted beside each turn: before its sample, behind
/// it, or both.
fn parted<'a>(
    samples: &'a [i16],
    count: usize,
    turns: &[usize],
    random: &mut Random,
) -> Vec<&'a [i16]> {
    let inside = |turn: &&usize| (count + 1..=count + samples.len()).contains(turn);
    let (mut parts, mut from) = (Vec::new(), 0);
    for turn in turns.iter().filter(inside) {
        let place = turn - count;
        for border in random.one_of(&[&[place - 1][..], &[place], &[place - 1, place]]) {
            parts.push(&samples[from..(*border).max(from)]);
            from = (*border).max(from);
        }
    }
    parts.push(&samples[from..]);
    parts
}

/// All of these in pieces of such lengths, the last one as long as it comes.
fn pieces<'a, T>(
    mut rest: &'a [T],
    (least, most): (usize, usize),
    random: &'a mut Random,
) -> impl Iterator<Item = &'a [T]> {
    std::iter::from_fn(move || {
        let length = random.whole(least, most).min(rest.len());
        let (piece, after) = rest.split_at(length);
        rest = after;
        (length > 0).then_some(piece)
    })
}

/// Lines that change nothing, if there are any.
fn strew(script: &mut Script<impl Write>, in_thousand: usize) -> io::Result<()> {
    while script.random.chance(in_thousand) {
        match script.random.whole(0, 129) {
            which @ 0..IN_VAIN => script.send_in_vain(which)?,
            IN_VAIN..=79 => script.send_refused_settings("change")?,
            80..=84 => script.send_refused_settings("start")?,
            _ => {
                let line = spoilt_line(&mut script.random);
                script.send(&line)?;
            }
        }
    }
    Ok(())
}
