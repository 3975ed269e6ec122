//! What a call by the wrapper answers and leaves of what is lent to it, every
//! slice between guards.

use crate::theirs::settings;
use daxfolin::{Answer, Meter, NightAnswer, Tuner, Voices};
use independent::calls::{Answered, Call, Left, Lent};
use std::fmt::Debug;

const GUARD: usize = 64;
const FILL: i16 = -23_131;
const NUMBER: u32 = 0xA5A5_A5A5;

/// What is lent, between guards.
fn guarded<T: Copy>(lent: &[T], fill: T) -> Vec<T> {
    [&[fill; GUARD], lent, &[fill; GUARD]].concat()
}

/// What a call says over what is lent to it between guards; and that as it was left.
fn over<T, R>(lent: &[T], fill: T, call: impl FnOnce(&mut [T]) -> R) -> (R, Vec<T>)
where
    T: Copy + Debug + PartialEq,
{
    let mut room = guarded(lent, fill);
    let part = &mut room[GUARD..GUARD + lent.len()];
    let said = call(part);
    let left = part.to_vec();
    assert_eq!(room, guarded(&left, fill), "the guards were touched");
    (said, left)
}

/// The same over the samples of a block or a night, which are as they were, its outputs and its store.
fn played(
    samples: &[i16],
    lent: &Lent,
    play: impl FnOnce(&[i16], &mut [i16], Voices, &mut [u32]) -> Left,
) -> Left {
    let [out, first, second, third] = &lent.outs;
    let (((((left, third), second), first), out), store) = over(&lent.store, NUMBER, |store| {
        over(out, FILL, |out| {
            over(first, FILL, |first| {
                over(second, FILL, |second| {
                    over(third, FILL, |third| {
                        let voices = [first, second, third];
                        let (left, sent) =
                            over(samples, FILL, |sung| play(sung, out, voices, store));
                        assert_eq!(sent, *samples, "the samples in were touched");
                        left
                    })
                })
            })
        })
    });
    let outs = [out, first, second, third];
    let lent = Lent { outs, store };
    Left { lent, ..left }
}

fn numbered(number: u32) -> Left {
    let answer = Answered {
        number,
        ..Answered::default()
    };
    Left {
        answer,
        ..Left::default()
    }
}

fn answered(of: Answer) -> Answered {
    let [written, repeated, dropped] = [of.written, of.repeated, of.dropped].map(u64::from);
    let [pitched, strayed] = [of.pitched, of.strayed].map(u64::from);
    Answered {
        number: of.number,
        counts: [written, repeated, dropped, pitched, strayed],
        list: [of.rows, of.left],
    }
}

fn night(of: NightAnswer) -> Left {
    Left {
        answer: Answered {
            number: of.number,
            counts: [of.written, of.repeated, of.dropped, of.pitched, of.strayed],
            list: [of.rows, of.left],
        },
        refused: of.refused,
        taken: of.taken,
        again: answered(of.again),
        ..Left::default()
    }
}

fn shown(meter: Meter) -> Left {
    let (state, figures) = match meter {
        Meter::Searching => (0, [0.0; 4]),
        Meter::Locking(lag) => (1, [lag, 0.0, 0.0, 0.0]),
        Meter::Pitched {
            period,
            wanted,
            rate,
        } => (2, [0.0, period, wanted, rate]),
        Meter::Refused => (9, [0.0; 4]),
    };
    Left {
        state,
        figures,
        ..Left::default()
    }
}

/// The call over a tuner of these bytes.
pub fn left_by(bytes: &[u8], call: &Call) -> Left {
    let mut tuner = Tuner::from_bytes(bytes.try_into().expect("a tuner's bytes"));
    let left = made(&mut tuner, call);
    let record = tuner.to_bytes().to_vec();
    Left { record, ..left }
}

fn made(tuner: &mut Tuner, call: &Call) -> Left {
    let number;
    match call {
        Call::Start {
            hertz,
            settings: with,
            listed,
            intervals,
            store,
        } => {
            (number, *tuner) = Tuner::start(*hertz, settings(with), *listed != 0, intervals, store)
        }
        Call::StartDefault => (number, *tuner) = Tuner::start_default(),
        Call::Change(to) => number = tuner.change(settings(to)),
        Call::Midi(bytes) => number = tuner.midi(bytes),
        Call::Reset(store) => number = tuner.reset(store),
        Call::Meter => return shown(tuner.meter()),
        Call::Block {
            number,
            samples,
            lent,
        } => {
            return played(samples, lent, |sung, out, voices, store| {
                let answer = answered(tuner.block_with(*number, sung, out, voices, store));
                Left {
                    answer,
                    ..Left::default()
                }
            })
        }
        Call::Night {
            first,
            size,
            samples,
            lent,
        } => {
            return played(samples, lent, |sung, out, voices, store| {
                night(tuner.night_with(*first, *size as usize, sung, out, voices, store))
            })
        }
        Call::Cut(..) => unreachable!("a cut is over no tuner"),
    }
    Left {
        lent: call.lent(),
        ..numbered(number)
    }
}
