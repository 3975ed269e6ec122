//! A night's blocks in one call are the single calls one by one; what refuses it,
//! and what it then leaves.

use independent::calls::{made, Answered, Call, Left, Lent};
use independent::generator::cases::{sung, Cases};
use independent::night::Night;
use independent::record::Record;
use independent::settings::Settings;
use independent::statistics::Statistics;
use independent::table::CD;
use independent::tuner::{Answer, Counts, Tuner};
use std::collections::BTreeMap;

/// What the output holds before a call.
const UNTOUCHED: i16 = 4_321;

/// The answer to a night, and the output, which had this room.
fn night(
    tuner: &mut Tuner,
    first: u16,
    size: usize,
    samples: &[i16],
    room: usize,
) -> (Night, Vec<i16>) {
    let mut output = vec![UNTOUCHED; room];
    let seen = &mut Statistics::default();
    (tuner.night(first, size, samples, &mut output, seen), output)
}

fn block(tuner: &mut Tuner, number: u16, samples: &[i16]) -> (Answer, Counts, Vec<i16>) {
    let mut output = vec![UNTOUCHED; samples.len()];
    let seen = &mut Statistics::default();
    let (answer, counts) = tuner.block(number, samples, &mut output, seen);
    (answer, counts, output)
}

const NOTHING: Counts = Counts {
    written: 0,
    repeated: 0,
    dropped: 0,
    pitched: 0,
    strayed: 0,
};

/// The answer to a night in which all was taken, or given again.
fn done(taken: usize, counts: Counts, again: Option<Counts>) -> Night {
    Night {
        answer: Answer::Taken,
        refused: None,
        taken,
        counts,
        again,
    }
}

/// The answer to a night that was refused before its first block.
fn refused(answer: Answer) -> Night {
    Night {
        answer,
        ..done(0, NOTHING, None)
    }
}

/// A tuner after the take in blocks of so many samples, their output and counts.
fn singly(sung: &[i16], size: usize) -> (Tuner, Vec<i16>, Counts) {
    let mut tuner = Tuner::default_start();
    let (mut out, mut sum) = (Vec::new(), NOTHING);
    for (number, samples) in (0..).zip(sung.chunks(size)) {
        let (answer, counts, written) = block(&mut tuner, number, samples);
        assert_eq!(answer, Answer::Taken);
        out.extend(written);
        sum = sum.plus(counts);
    }
    (tuner, out, sum)
}

#[test]
fn a_night_is_the_single_calls_one_by_one() {
    let sung = sung();
    for size in [1, 37, 64, 511, 512] {
        let (alone, right, counts) = singly(&sung, size);
        assert!(counts.repeated + counts.dropped > 0);
        let mut tuner = Tuner::default_start();
        let (answer, mut out) = night(&mut tuner, 0, size, &sung, sung.len() + 3);
        assert_eq!(answer, done(sung.len().div_ceil(size), counts, None));
        assert_eq!(out.split_off(sung.len()), [UNTOUCHED; 3]);
        assert!(out == right && tuner == alone, "{size}");
    }
}

#[test]
fn refusals_before_the_first_block() {
    let samples = [1_000; 9];
    let fresh = Tuner::default_start();
    let mut spoiled = fresh.clone();
    spoiled.put_behind(-1);
    // 9 first, then 3, then 4, whatever the first number, and of an empty recording too.
    let cases = [
        (&spoiled, 513, 9, 0, Answer::RecordOutOfRange),
        (&spoiled, 3, 0, 0, Answer::RecordOutOfRange),
        (&fresh, 0, 9, 0, Answer::BlockTooLong),
        (&fresh, 513, 9, 0, Answer::BlockTooLong),
        (&fresh, usize::MAX, 9, 9, Answer::BlockTooLong),
        (&fresh, 0, 0, 0, Answer::BlockTooLong),
        (&fresh, 512, 9, 8, Answer::OutputTooShort),
        (&fresh, 2, 9, 8, Answer::OutputTooShort),
        (&fresh, 1, 1, 0, Answer::OutputTooShort),
    ];
    for (before, size, length, room, answer) in cases {
        for first in [0, 7] {
            let mut tuner = before.clone();
            let (left, out) = night(&mut tuner, first, size, &samples[..length], room);
            assert_eq!(left, refused(answer), "{size} {length} {room}");
            assert!(out == vec![UNTOUCHED; room] && tuner == *before);
        }
    }
}

#[test]
fn an_empty_recording_takes_no_block() {
    for (first, size, room) in [(0, 1, 0), (7, 512, 5), (65_535, 64, 0)] {
        let mut tuner = Tuner::default_start();
        let (left, out) = night(&mut tuner, first, size, &[], room);
        assert_eq!(left, done(0, NOTHING, None));
        assert_eq!(out, vec![UNTOUCHED; room]);
        assert!(tuner == Tuner::default_start());
    }
}

#[test]
fn a_first_block_sent_again_is_given_again_and_the_rest_go_on() {
    let sung = sung();
    for size in [64, 512] {
        // The short last block, as a recording of its own; then that block with more behind it.
        let (before, right, _) = singly(&sung[..3_000], size);
        let from = (3_000 - 1) / size * size;
        let (number, last) = ((from / size) as u16, &sung[from..3_000]);
        let mut tuner = before.clone();
        let (answer, counts, _) = block(&mut tuner, number, last);
        assert_eq!(answer, Answer::GivenAgain);
        let (left, out) = night(&mut tuner, number, size, last, last.len());
        assert_eq!(left, done(0, NOTHING, Some(counts)));
        assert!(out == right[from..] && tuner == before);

        let on = [last, &sung[3_000..4_001]].concat();
        let length = last.len();
        let mut alone = before.clone();
        let (mut rest, mut sum, mut blocks) = (Vec::new(), NOTHING, 0);
        for (number, samples) in (number + 1..).zip(sung[3_000..4_001].chunks(length)) {
            let (answer, counts, written) = block(&mut alone, number, samples);
            assert_eq!(answer, Answer::Taken);
            (sum, blocks) = (sum.plus(counts), blocks + 1);
            rest.extend(written);
        }
        let (left, out) = night(&mut tuner, number, length, &on, on.len());
        assert_eq!(left, done(blocks, sum, Some(counts)));
        assert!(out == [&right[from..], &rest].concat() && tuner == alone);
    }
}

/// It stops at the first refusal: what was taken stays, and the rest of the output is untouched.
#[test]
fn a_night_stops_where_a_block_is_refused() {
    let (_, mut tuner) = Tuner::start_with_limit(CD, Settings::DEFAULT, 10);
    let before = tuner.clone();
    let stopped = |answer, number, taken: usize, written| Night {
        answer,
        refused: Some(number),
        ..done(taken, Counts { written, ..NOTHING }, None)
    };
    let (left, out) = night(&mut tuner, 7, 4, &[5; 12], 12);
    let neither = Answer::NumberNeitherNextNorLast;
    assert_eq!(left, stopped(neither, 7, 0, 0));
    assert!(out == [UNTOUCHED; 12] && tuner == before);
    // Two blocks fit the take, the third would pass its limit.
    let (left, out) = night(&mut tuner, 0, 4, &[5; 12], 13);
    assert_eq!(left, stopped(Answer::TakeFull, 2, 2, 8));
    assert_eq!(out[..8], [0, 0, 0, 0, 5, 5, 5, 5]);
    assert_eq!(out[8..], [UNTOUCHED; 5]);
    let full = tuner.clone();
    let mut alone = before.clone();
    block(&mut alone, 0, &[5; 4]);
    block(&mut alone, 1, &[5; 4]);
    assert!(full == alone);
    // Another length or other samples than the last block's.
    let other = Answer::LastNumberOtherSamples;
    for samples in [&[5; 3][..], &[5, 5, 5, 6], &[5; 5]] {
        let (left, out) = night(&mut tuner, 1, 5, samples, 5);
        assert_eq!(left, stopped(other, 1, 0, 0));
        assert!(out == [UNTOUCHED; 5] && tuner == full);
    }
    // Given again, and then refused: both are said.
    let (left, out) = night(&mut tuner, 1, 4, &[5; 8], 8);
    let again = Counts {
        written: 4,
        ..NOTHING
    };
    let both = Night {
        again: Some(again),
        ..stopped(Answer::TakeFull, 2, 0, 0)
    };
    assert_eq!(left, both);
    assert_eq!(out[..4], [5; 4]);
    assert!(out[4..] == [UNTOUCHED; 4] && tuner == full);
    // The last two samples of the take.
    let (left, _) = night(&mut tuner, 2, 4, &[5; 2], 2);
    assert_eq!((left.answer, left.taken), (Answer::Taken, 1));
}

#[test]
fn numbers_wrap_within_a_night() {
    let mut tuner = Tuner::default_start();
    let (left, _) = night(&mut tuner, 0, 1, &[0; 65_538], 65_538);
    assert_eq!((left.answer, left.taken), (Answer::Taken, 65_538));
    let (left, _) = night(&mut tuner, 1, 1, &[0, 5], 2);
    assert_eq!((left.taken, left.again.is_some()), (1, true));
    assert_eq!(block(&mut tuner, 2, &[5]).0, Answer::GivenAgain);
}

/// A night over a record that is refused before its first block.
fn untouched(bytes: &[u8], call: &Call, number: u32) -> Left {
    let list = Record::of_bytes(bytes).list;
    Left {
        answer: Answered {
            number,
            list: [list.rows, list.left],
            ..Answered::default()
        },
        record: bytes.to_vec(),
        lent: call.lent(),
        ..Left::default()
    }
}

/// The call whose outputs begin where those of the night go on.
fn going_on(left: &Left, from: usize, number: u16, samples: &[i16]) -> Call {
    let part = |output: &Vec<i16>| output.get(from..).unwrap_or(&[]).to_vec();
    Call::Block {
        number,
        samples: samples.to_vec(),
        lent: Lent {
            outs: left.lent.outs.each_ref().map(part),
            store: left.lent.store.clone(),
        },
    }
}

/// What the single calls over the record leave, one after the other; nothing where the night is refused before them.
fn one_by_one(bytes: &[u8], call: &Call) -> Option<Left> {
    let Call::Night {
        first,
        size,
        samples,
        lent,
    } = call
    else {
        return None;
    };
    let record = Record::of_bytes(bytes);
    let mut outputs = lent.outs[..=record.chosen()].iter();
    let have_room = outputs.all(|output| output.len() >= samples.len());
    if !record.is_good() || !(1..=512).contains(size) || !have_room {
        return None;
    }
    let mut left = untouched(bytes, call, 0);
    let (size, mut number) = (*size as usize, *first);
    for (place, samples) in samples.chunks(size).enumerate() {
        let from = place * size;
        let after = made(&left.record, &going_on(&left, from, number, samples));
        (left.record, left.lent.store) = (after.record, after.lent.store);
        left.answer.list = after.answer.list;
        for (output, given) in left.lent.outs.iter_mut().zip(after.lent.outs) {
            output.splice(from.min(output.len()).., given);
        }
        match after.answer.number {
            0 => {
                left.taken += 1;
                let sums = left.answer.counts.iter_mut();
                sums.zip(after.answer.counts)
                    .for_each(|(sum, count)| *sum += count);
            }
            1 => left.again = after.answer,
            refusal => {
                (left.answer.number, left.refused) = (refusal, number);
                return Some(left);
            }
        }
        number = number.wrapping_add(1);
    }
    Some(left)
}

/// Over records of every sort a night leaves what the single calls leave, and the cases go through all that can happen to one.
#[test]
fn nights_over_records_are_the_single_calls() {
    let met = met_by_nights(20_261_115, 25_000, |record| record.chosen == 0);
    assert_eq!(met.len(), 16, "{met:?}");
    assert!(met.values().all(|&times| times > 5), "{met:?}");
}

/// So does one over records with voices.
#[test]
fn nights_with_voices_are_the_single_calls() {
    let met = met_by_nights(20_261_116, 25_000, |record| record.chosen > 0);
    assert_eq!(met.len(), 16, "{met:?}");
}

/// How often what happened to the nights of this sort among so many cases, each
/// of them held to the single calls.
fn met_by_nights(
    seed: u64,
    cases: usize,
    sort: impl Fn(&Record) -> bool,
) -> BTreeMap<&'static str, usize> {
    let mut source = Cases::seeded(seed);
    let mut met: BTreeMap<&str, usize> = BTreeMap::new();
    for case in 0..cases {
        let (bytes, call) = source.case();
        let Call::Night {
            first,
            size,
            samples,
            ..
        } = &call
        else {
            continue;
        };
        if !sort(&Record::of_bytes(&bytes)) {
            continue;
        }
        let left = made(&bytes, &call);
        let Some(right) = one_by_one(&bytes, &call) else {
            let number = left.answer.number;
            assert!([3, 4, 9].contains(&number), "case {case}: {call:?}");
            let untouched = untouched(&bytes, &call, number);
            assert_eq!(left, untouched, "case {case}: {call:?}");
            let what = match number {
                9 => "record",
                3 => "length",
                _ => "room",
            };
            *met.entry(what).or_default() += 1;
            continue;
        };
        assert_eq!(left, right, "case {case}: {call:?}");
        let [written, repeated, dropped, ..] = left.answer.counts;
        let (number, taken) = (left.answer.number, left.taken);
        let again = left.again.number == 1;
        let last_number = first.wrapping_add((taken + u64::from(again)) as u16);
        let what = [
            ("empty", samples.is_empty()),
            ("several taken", taken > 1 && number == 0),
            ("given again alone", again && taken == 0 && number == 0),
            ("given again, then taken", again && taken > 1),
            ("number", number == 5),
            ("other samples", number == 6),
            ("full at once", number == 7 && taken == 0 && !again),
            ("full in the middle", number == 7 && taken > 1),
            ("given again, then full", number == 7 && taken == 0 && again),
            (
                "short last block",
                number == 0 && taken > 1 && written % size > 0,
            ),
            ("wrapped", taken > 1 && last_number < *first),
            ("cycles repeated", repeated > 1),
            ("cycles dropped", dropped > 1),
        ];
        for (what, _) in what.into_iter().filter(|&(_, happened)| happened) {
            *met.entry(what).or_default() += 1;
        }
    }
    met
}

/// A night sent again whole is refused, as far as its numbers tell: of 65,536 blocks they end where they began.
#[test]
fn a_whole_night_sent_again() {
    for (blocks, answer) in [
        (2, Answer::NumberNeitherNextNorLast),
        (65_535, Answer::NumberNeitherNextNorLast),
        (65_536, Answer::Taken),
    ] {
        let mut tuner = Tuner::default_start();
        let samples = vec![0; blocks];
        assert_eq!(night(&mut tuner, 0, 1, &samples, blocks).0.taken, blocks);
        let (left, _) = night(&mut tuner, 0, 1, &samples, blocks);
        assert_eq!(left.answer, answer, "{blocks} blocks");
    }
}
