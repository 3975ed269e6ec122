//! A night's blocks in one call are the single calls one by one: a million
//! samples, begun again, and stopped.

use daxfolin::{
    NightAnswer, Settings, Tuner, CD, FILM, GIVEN_AGAIN, NUMBER_NEITHER, OTHER_SAMPLES,
    OUTPUT_SHORT, TAKEN,
};
use independent::generator::cases::sung;

const FILL: i16 = -23_131;

/// Nothing was taken, and nothing given again.
fn nothing() -> NightAnswer {
    NightAnswer::default()
}

/// The sung take over and over.
fn recording(length: usize) -> Vec<i16> {
    sung().into_iter().cycle().take(length).collect()
}

/// What the single calls give from this number on, all of them taken: the output, and what a night of them answers.
fn singly(tuner: &mut Tuner, first: u16, size: usize, samples: &[i16]) -> (Vec<i16>, NightAnswer) {
    let (mut out, mut sum) = (vec![FILL; samples.len()], nothing());
    let mut number = first;
    for (block, room) in samples.chunks(size).zip(out.chunks_mut(size)) {
        let answer = tuner.block(number, block, room);
        assert_eq!(answer.number, TAKEN);
        sum.taken += 1;
        sum.written += u64::from(answer.written);
        sum.repeated += u64::from(answer.repeated);
        sum.dropped += u64::from(answer.dropped);
        sum.pitched += u64::from(answer.pitched);
        sum.strayed += u64::from(answer.strayed);
        number = number.wrapping_add(1);
    }
    (out, sum)
}

/// The same by one call, with this many samples of room more, which stay as they are.
fn at_once(
    tuner: &mut Tuner,
    first: u16,
    size: usize,
    samples: &[i16],
    more: usize,
) -> (Vec<i16>, NightAnswer) {
    let mut out = vec![FILL; samples.len() + more];
    let answer = tuner.night(first, size, samples, &mut out);
    assert_eq!(out.split_off(samples.len()), vec![FILL; more]);
    (out, answer)
}

/// Drawn to the notes A alone, so that many cycles are repeated and dropped. In blocks of 15 the numbers wrap within the night.
#[test]
fn a_million_samples_in_one_call() {
    let take = recording(1_000_000);
    let to_a = Settings {
        scale: 1 << 9,
        ..Settings::default()
    };
    for (size, hertz) in [(512, CD), (64, CD), (64, FILM), (37, CD), (15, CD)] {
        let (_, mut one_by_one) = Tuner::start_plain(hertz, to_a);
        let mut night = one_by_one.clone();
        let (right, sum) = singly(&mut one_by_one, 0, size, &take);
        let (out, answer) = at_once(&mut night, 0, size, &take, 3);
        assert_eq!(answer, sum, "blocks of {size}");
        assert_eq!((sum.number, sum.written), (TAKEN, 1_000_000));
        assert!(sum.repeated > 10 && sum.dropped > 10, "{sum:?}");
        assert!(
            sum.pitched > 100_000 && sum.strayed > sum.pitched,
            "{sum:?}"
        );
        assert!(out == right, "blocks of {size}: another output");
        assert!(night == one_by_one, "blocks of {size}: another tuner");
    }
}

/// The last block sent again is given again, and nothing else happens; with more behind it, the rest go on.
#[test]
fn a_night_begun_again() {
    let take = recording(30_000);
    for size in [512, 64, 37] {
        let length = 20 * size + size / 2;
        let mut tuner = Tuner::default();
        let (out, _) = at_once(&mut tuner, 0, size, &take[..length], 0);
        let before = tuner.clone();
        let (from, mut alone) = (20 * size, tuner.clone());
        let mut kept = vec![FILL; length - from];
        let again = alone.block(20, &take[from..length], &mut kept);
        assert_eq!(again.number, GIVEN_AGAIN);
        assert_eq!(kept, out[from..]);

        let given = NightAnswer { again, ..nothing() };
        let last = at_once(&mut tuner, 20, size, &take[from..length], 1);
        assert_eq!(last, (kept.clone(), given));
        assert!(tuner == before);

        // Blocks as long as the last one, which was a short one.
        let (right, sum) = singly(&mut alone, 21, size / 2, &take[length..]);
        let (out, answer) = at_once(&mut tuner, 20, size / 2, &take[from..], 0);
        assert_eq!(answer, NightAnswer { again, ..sum });
        assert!(out == [kept, right].concat());
        assert!(tuner == alone);
    }
}

/// A refusal leaves tuner and output, and says which block it was.
#[test]
fn a_refused_night_leaves_all() {
    let take = recording(1_000);
    let mut tuner = Tuner::default();
    at_once(&mut tuner, 0, 64, &take[..640], 0);
    let before = tuner.clone();
    let mut other = take[576..].to_vec();
    other[63] ^= 1;
    let refused = |number, refused| NightAnswer {
        number,
        refused,
        ..nothing()
    };
    for (first, samples, answer) in [
        (11, &take[640..], refused(NUMBER_NEITHER, 11)),
        (8, &take[512..], refused(NUMBER_NEITHER, 8)),
        (9, &other, refused(OTHER_SAMPLES, 9)),
        (9, &take[576..639], refused(OTHER_SAMPLES, 9)),
    ] {
        let left = at_once(&mut tuner, first, 64, samples, 1);
        assert_eq!(left, (vec![FILL; samples.len()], answer));
        assert!(tuner == before);
    }
    let mut out = [FILL; 359];
    let short = tuner.night(10, 64, &take[640..], &mut out);
    assert_eq!((short, out), (refused(OUTPUT_SHORT, 0), [FILL; 359]));
    assert!(tuner == before);
    assert_eq!(tuner.night(7, 64, &[], &mut []), nothing());
    assert!(tuner == before);
}
