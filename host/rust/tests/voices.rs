//! Backing voices, by a tuner with voices, beside the independent program's
//! ensemble: what a start chooses and refuses, outputs that are short or not
//! lent, repeats, resets, nights, and tuners that are answered 9.

mod rows;
mod theirs;

use daxfolin::{
    Answer, Meter, NightAnswer, Tuner, BLOCK_EMPTY, BLOCK_OVER_512, CD, FILM, GIVEN_AGAIN,
    INTERVAL_OUT_OF_RANGE, LAYOUT, MOST_ROWS, MOST_VOICES, NUMBER_NEITHER, OCTAVE, OTHER_SAMPLES,
    OUTPUT_SHORT, RATE_UNKNOWN, RECORD_OUT_OF_RANGE, ROW, SCALE_OUT_OF_RANGE, STORE_WITHOUT_ROOM,
    TAKEN, TOO_MANY_VOICES,
};
use independent::generator::cases::sung;
use independent::list::{room, List};
use independent::settings::{Settings, KEYBOARD};
use independent::statistics::Statistics;
use independent::tuner::Counts;
use independent::voices::Ensemble;
use rows::{holds, FILL};
use theirs::settings;

/// What an output holds before a call.
const UNTOUCHED: i16 = 4_321;

/// The outputs of the lead and of the voices; and so much room in each.
type Outputs = [Vec<i16>; 1 + MOST_VOICES];
type Rooms = [usize; 1 + MOST_VOICES];

fn outputs(rooms: Rooms) -> Outputs {
    rooms.map(|room| vec![UNTOUCHED; room])
}

fn keyboard() -> Settings {
    Settings {
        mode: KEYBOARD,
        ..Settings::AT_ONCE
    }
}

/// What a block is answered by the independent program, its list apart.
fn as_answer(number: usize, counts: Counts) -> Answer {
    Answer {
        number: number as u32,
        written: counts.written as u16,
        repeated: counts.repeated as u16,
        dropped: counts.dropped as u16,
        pitched: counts.pitched as u32,
        strayed: counts.strayed as u32,
        ..Answer::default()
    }
}

/// The answer without its list.
fn alone(answer: Answer) -> Answer {
    Answer {
        rows: 0,
        left: 0,
        ..answer
    }
}

/// A proved tuner and the independent program's ensemble, which are called alike
/// and must answer alike; and the store for the list.
#[derive(Clone)]
struct Both {
    tuner: Tuner,
    ensemble: Ensemble,
    store: Vec<u32>,
}

impl Both {
    /// Started with these voices and a store of so many numbers.
    fn start(hertz: u32, with: Settings, intervals: &[i32], store: usize) -> Both {
        let lent = (store > 0).then_some(store);
        let store = vec![FILL; store];
        let list = lent.is_some();
        let (number, tuner) = Tuner::start(hertz, settings(&with), list, intervals, &store);
        let (right, ensemble) = Ensemble::start(hertz, with, lent, intervals);
        assert_eq!(number as usize, right.number());
        assert_eq!(tuner.intervals(), ensemble.intervals());
        Both {
            tuner,
            ensemble,
            store,
        }
    }

    /// The number of the answer, and the outputs.
    fn block(&mut self, number: u16, samples: &[i16], rooms: Rooms) -> (u32, Outputs) {
        let (mut given, mut right) = (outputs(rooms), outputs(rooms));
        let [out, first, second, third] = &mut given;
        let voices = [&mut first[..], second, third];
        let store = &mut self.store;
        let answer = self.tuner.block_with(number, samples, out, voices, store);
        let [lead, voices @ ..] = &mut right;
        let seen = &mut Statistics::default();
        let (number, counts) = self.ensemble.block(number, samples, lead, voices, seen);
        assert_eq!(alone(answer), as_answer(number.number(), counts));
        assert!(given == right, "other outputs");
        self.hold_list(answer.rows, answer.left);
        (answer.number, given)
    }

    /// The same, and nothing is changed.
    fn refused(&mut self, number: u16, samples: &[i16], rooms: Rooms, answer: u32) {
        let before = self.clone();
        let (number, given) = self.block(number, samples, rooms);
        assert_eq!(number, answer, "{rooms:?}");
        assert!(given == outputs(rooms) && *self == before);
    }

    fn night(
        &mut self,
        first: u16,
        size: usize,
        samples: &[i16],
        rooms: Rooms,
    ) -> (NightAnswer, Outputs) {
        let (mut given, mut right) = (outputs(rooms), outputs(rooms));
        let [out, one, two, three] = &mut given;
        let voices = [&mut one[..], two, three];
        let store = &mut self.store;
        let night_with = Tuner::night_with;
        let answer = night_with(&mut self.tuner, first, size, samples, out, voices, store);
        let [lead, voices @ ..] = &mut right;
        let seen = &mut Statistics::default();
        let night = self
            .ensemble
            .night(first, size, samples, lead, voices, seen);
        let again = night.again.map(|counts| as_answer(1, counts));
        let right_answer = NightAnswer {
            number: night.answer.number() as u32,
            refused: night.refused.unwrap_or(0),
            taken: night.taken as u64,
            written: night.counts.written as u64,
            repeated: night.counts.repeated as u64,
            dropped: night.counts.dropped as u64,
            pitched: night.counts.pitched as u64,
            strayed: night.counts.strayed,
            again: again.unwrap_or_default(),
            rows: answer.rows,
            left: answer.left,
        };
        let said = NightAnswer {
            again: alone(answer.again),
            ..answer
        };
        assert_eq!(said, right_answer);
        assert!(given == right, "other outputs");
        self.hold_list(answer.rows, answer.left);
        (answer, given)
    }

    /// Every block of a take, with room for just the outputs of the chosen voices.
    fn play(&mut self, take: &[i16], size: usize) -> Outputs {
        let mut all = outputs([0; 4]);
        self.go_on(&mut 0, take, size, &mut all);
        all
    }

    /// The same from this number on, behind what came out so far.
    fn go_on(&mut self, number: &mut u16, take: &[i16], size: usize, all: &mut Outputs) {
        for samples in take.chunks(size) {
            let (answer, given) = self.block(*number, samples, self.rooms(samples.len()));
            assert_eq!(answer, TAKEN);
            for (all, given) in all.iter_mut().zip(given) {
                all.extend(given);
            }
            *number += 1;
        }
    }

    /// So much room for the lead and the chosen voices, and none beyond them.
    fn rooms(&self, room: usize) -> Rooms {
        let chosen = self.ensemble.intervals().len();
        [0, 1, 2, 3].map(|place| if place <= chosen { room } else { 0 })
    }

    fn midi(&mut self, bytes: &[u8]) {
        assert_eq!(self.tuner.midi(bytes), TAKEN);
        self.ensemble.lead.midi(bytes, &mut Statistics::default());
    }

    fn reset(&mut self) {
        self.store.fill(FILL);
        let number = self.tuner.reset(&self.store);
        let right = self.ensemble.reset().number();
        assert_eq!(number as usize, right);
    }

    /// The list is that of the whole take; without one there are no rows.
    fn hold_list(&self, rows: u32, left: u32) {
        let notes = match self.store.is_empty() {
            true => &[],
            false => self.ensemble.lead.notes(),
        };
        let list = List::of(notes, room(self.store.len()));
        assert_eq!((rows as usize, left as usize), (list.rows.len(), list.left));
        holds(&self.store, &list);
    }
}

impl PartialEq for Both {
    fn eq(&self, other: &Both) -> bool {
        self.tuner == other.tuner && self.store == other.store
    }
}

fn sounds(output: &[i16]) -> bool {
    output.iter().any(|&out| out != 0 && out != UNTOUCHED)
}

/// In their order; each leaves the default tuner.
#[test]
fn starts() {
    let bad = Settings {
        scale: 0,
        ..Settings::DEFAULT
    };
    for (hertz, with, intervals, store, number) in [
        (CD + 1, bad, &[13, 0, 0, 0][..], 1, RATE_UNKNOWN),
        (CD, bad, &[13, 0, 0, 0], 1, SCALE_OUT_OF_RANGE),
        (CD, keyboard(), &[13, 0, 0, 0], 1, STORE_WITHOUT_ROOM),
        (CD, keyboard(), &[], 2, STORE_WITHOUT_ROOM),
        (FILM, keyboard(), &[0, 0, 0, 13], 0, INTERVAL_OUT_OF_RANGE),
        (CD, keyboard(), &[-13], 3, INTERVAL_OUT_OF_RANGE),
        (CD, keyboard(), &[4, i32::MIN], 0, INTERVAL_OUT_OF_RANGE),
        (CD, keyboard(), &[i32::MAX, 4], 0, INTERVAL_OUT_OF_RANGE),
        (CD, keyboard(), &[0; 4], 0, TOO_MANY_VOICES),
        (FILM, keyboard(), &[-12; 1_000], 12_288, TOO_MANY_VOICES),
    ] {
        let (list, store) = (store > 0, vec![FILL; store]);
        let started = Tuner::start(hertz, settings(&with), list, intervals, &store);
        assert_eq!(started, (number, Tuner::default()));
        let lent = list.then_some(store.len());
        let right = Ensemble::answer_to_start(hertz, &with, lent, intervals);
        assert_eq!(right.number(), number as usize);
    }
    for interval in -OCTAVE..=OCTAVE {
        for intervals in [&[][..], &[interval], &[interval; 2], &[0, interval, 5]] {
            let both = Both::start(FILM, keyboard(), intervals, 0);
            assert_eq!(both.tuner.intervals(), intervals);
        }
    }
    assert_eq!(Tuner::default().intervals(), []);
}

/// Blocks of several lengths at either rate, with and without a list, under keys
/// near and far, and outside the table: all as the independent program has it, and
/// in total the same however it is cut.
#[test]
fn a_take_however_it_is_cut() {
    let take = &sung()[..9_000];
    for (hertz, intervals, store) in [
        (CD, &[4, -3, 12][..], ROW * MOST_ROWS),
        (FILM, &[-12, 0], 0),
        (CD, &[7], 9),
        (FILM, &[], 3),
    ] {
        let fresh = Both::start(hertz, keyboard(), intervals, store);
        let mut right = None;
        for size in [512, 37, 100] {
            let mut both = fresh.clone();
            let mut all = outputs([0; 4]);
            let mut number = 0;
            for (part, key) in take.chunks(1_500).zip([57, 93, 33, 20, 110, 64]) {
                both.midi(&[144, key, 100]);
                both.go_on(&mut number, part, size, &mut all);
            }
            let voices = 1..=intervals.len();
            assert!(voices.clone().all(|place| sounds(&all[place])));
            let right = right.get_or_insert_with(|| all.clone());
            assert!(all == *right, "blocks of {size}");
        }
    }
}

/// A night is the single calls, also behind a block that is given again.
#[test]
fn nights() {
    let take = &sung()[..6_000];
    for (intervals, size) in [
        (&[5, -5][..], 512),
        (&[12, -12, 0], 64),
        (&[-1], 100),
        (&[], 37),
    ] {
        let fresh = Both::start(CD, Settings::DEFAULT, intervals, 30);
        let mut single = fresh.clone();
        let right = single.play(take, size);
        let mut both = fresh.clone();
        let (night, given) = both.night(0, size, take, fresh.rooms(take.len()));
        assert_eq!(night.number, TAKEN);
        assert!(given == right && both == single);

        let mut both = fresh.clone();
        both.block(0, &take[..size], fresh.rooms(size));
        let rooms = fresh.rooms(take.len() + 2).map(|room| room + 1);
        let (night, given) = both.night(0, size, take, rooms);
        assert_eq!(night.again.written as usize, size);
        for (given, right) in given.iter().zip(&right) {
            assert!(given[..right.len()] == *right);
            assert!(given[right.len()..].iter().all(|&out| out == UNTOUCHED));
        }
        assert!(both == single);
        // One that is refused at its first block.
        let before = both.clone();
        let (night, given) = both.night(7, size, take, rooms);
        assert_eq!((night.number, night.refused), (NUMBER_NEITHER, 7));
        assert!(given == outputs(rooms) && both == before);
    }
}

/// 4 for each chosen voice, one that is not lent at all among them, after 2 and 3 and
/// before the number is looked at; nothing is touched.
#[test]
fn outputs_that_are_short() {
    let take = &sung()[..3_000];
    for chosen in 1..=MOST_VOICES {
        let mut both = Both::start(CD, Settings::DEFAULT, &[4, -3, 7][..chosen], 12);
        both.play(&take[..1_000], 500);
        let samples = &take[1_000..1_300];
        for place in 0..=chosen {
            for room in [0, 1, 299] {
                let mut rooms = [300; 4];
                rooms[place] = room;
                both.refused(2, samples, rooms, OUTPUT_SHORT);
                both.refused(9, samples, rooms, OUTPUT_SHORT);
                both.refused(2, &[], rooms, BLOCK_EMPTY);
                both.refused(2, &[7; 513], rooms, BLOCK_OVER_512);
                let before = both.clone();
                let (night, given) = both.night(2, 100, samples, rooms);
                assert_eq!((night.number, night.taken), (OUTPUT_SHORT, 0));
                assert!(given == outputs(rooms) && both == before);
            }
        }
        // Outputs beyond the chosen voices are not looked at.
        assert_eq!(both.block(2, samples, both.rooms(300)).0, TAKEN);
    }
}

/// A block sent again gives all outputs again, whatever was refused or changed
/// between; past the block, and beyond the chosen voices, nothing is touched.
#[test]
fn repeats() {
    let take = &sung()[..4_000];
    let mut both = Both::start(CD, keyboard(), &[-12, 12], 30);
    both.midi(&[144, 57, 100]);
    both.play(&take[..3_584], 512);
    let (samples, rooms) = (&take[3_584..3_800], [300, 220, 216, 9]);
    let (answer, first) = both.block(7, samples, rooms);
    assert_eq!(answer, TAKEN);
    assert!(first[..3].iter().all(|output| sounds(&output[..216])));
    let mut past = first[..3].iter().flat_map(|output| &output[216..]);
    assert!(past.all(|&out| out == UNTOUCHED));
    assert_eq!(first[3], [UNTOUCHED; 9]);
    let after = both.clone();
    both.refused(7, &take[..216], rooms, OTHER_SAMPLES);
    both.refused(9, samples, rooms, NUMBER_NEITHER);
    both.refused(7, samples, [300, 220, 215, 9], OUTPUT_SHORT);
    assert!(both.block(7, samples, rooms) == (GIVEN_AGAIN, first.clone()));
    assert!(both == after);
    both.midi(&[144, 57, 0]);
    assert_eq!(both.tuner.change(settings(&Settings::DEFAULT)), TAKEN);
    both.ensemble.lead.change(Settings::DEFAULT);
    assert!(both.block(7, samples, rooms) == (GIVEN_AGAIN, first));
}

/// The voices stay, each level, and sing the same again; 17 leaves all as it was.
#[test]
fn reset_keeps_the_voices() {
    let take = &sung()[..6_000];
    let fresh = Both::start(FILM, Settings::DEFAULT, &[4, -8, 12], 30);
    let mut both = fresh.clone();
    let first = both.play(take, 512);
    let before = both.tuner.clone();
    for store in [0, 1, 2] {
        assert_eq!(both.tuner.reset(&vec![0; store]), STORE_WITHOUT_ROOM);
        assert!(both.tuner == before);
    }
    both.reset();
    assert!(both == fresh);
    assert_eq!(both.tuner.intervals(), [4, -8, 12]);
    assert!(both.play(take, 512) == first);
}

/// Every call answers 9 of such a tuner, and leaves all as it was.
fn answered_9(bytes: &[u8; Tuner::SIZE]) {
    let before = Tuner::from_bytes(bytes);
    let mut tuner = before.clone();
    let [mut out, mut first, mut second, mut third] = outputs([600; 4]);
    let mut store = [FILL; 9];
    let changed = tuner.change(settings(&Settings::DEFAULT));
    assert_eq!(changed, RECORD_OUT_OF_RANGE);
    assert_eq!(tuner.midi(&[144, 60, 100]), RECORD_OUT_OF_RANGE);
    assert_eq!(tuner.meter(), Meter::Refused);
    assert_eq!(tuner.reset(&[]), RECORD_OUT_OF_RANGE);
    let voices = [&mut first[..], &mut second, &mut third];
    let answer = tuner.block_with(0, &[1; 600], &mut out, voices, &mut store);
    assert_eq!(answer.number, RECORD_OUT_OF_RANGE);
    let voices = [&mut first[..], &mut second, &mut third];
    let answer = tuner.night_with(0, 0, &[1; 700], &mut out, voices, &mut store);
    assert_eq!(answer.number, RECORD_OUT_OF_RANGE);
    assert!(tuner == before && store == [FILL; 9]);
    assert!([out, first, second, third] == outputs([600; 4]));
}

/// These bytes with this number at a place.
fn with(mut bytes: [u8; Tuner::SIZE], at: usize, number: &[u8]) -> [u8; Tuner::SIZE] {
    bytes[at..at + number.len()].copy_from_slice(number);
    bytes
}

#[test]
fn other_layouts() {
    let good = Both::start(CD, Settings::DEFAULT, &[4, -3, 7], 0);
    let good = good.tuner.to_bytes();
    assert_eq!(good[..8], LAYOUT.to_le_bytes());
    for layout in [0, 20_006, 30_001, LAYOUT - 1, LAYOUT + 1, u64::MAX] {
        answered_9(&with(good, 0, &layout.to_le_bytes()));
    }
    answered_9(&[0; Tuner::SIZE]);
    answered_9(&[255; Tuner::SIZE]);
}

/// Each number of the voices and of the list just past its range; of a voice that
/// is not chosen none is looked at.
#[test]
fn numbers_out_of_range() {
    const LISTED: usize = 240;
    const CHOSEN: usize = 244;
    const LIST: usize = 248;
    const VOICES: usize = 264;
    let take = sung();
    let mut both = Both::start(CD, Settings::DEFAULT, &[4, -3], 0);
    both.play(&take[..4_000], 512);
    let good = both.tuner.to_bytes();
    answered_9(&with(good, LISTED, &2u32.to_le_bytes()));
    answered_9(&with(good, CHOSEN, &4u32.to_le_bytes()));
    answered_9(&with(good, LIST, &4_001u32.to_le_bytes()));
    for place in 0..3 {
        let interval = VOICES + 8 * place;
        for (at, most) in [(interval, 24u32), (interval + 4, 65_536_000)] {
            let mut edge = Tuner::from_bytes(&with(good, at, &most.to_le_bytes()));
            assert_ne!(edge.meter(), Meter::Refused);
            assert_eq!(edge.midi(&[]), TAKEN);
            let past = with(good, at, &(most + 1).to_le_bytes());
            match place {
                2 => assert_eq!(Tuner::from_bytes(&past).midi(&[]), TAKEN),
                _ => answered_9(&past),
            }
        }
    }
}

/// Voices and a list change nothing in the answers, the output and the meter of
/// the lead.
#[test]
fn the_lead_is_that_of_a_tuner_alone() {
    let take = sung();
    let mut both = Both::start(FILM, keyboard(), &[7, -12], 30);
    let (_, mut plain) = Tuner::start_plain(FILM, settings(&keyboard()));
    let mut tuned = [UNTOUCHED; 512];
    for (number, samples) in (0u16..).zip(take.chunks(512)) {
        let key = [144, 50 + (number % 20) as u8, 100];
        both.midi(&key);
        assert_eq!(plain.midi(&key), TAKEN);
        for number in [number, number, number + 3] {
            let [mut out, mut first, mut second, _] = outputs([512; 4]);
            let voices = [&mut first[..], &mut second, &mut []];
            let store = &mut both.store;
            let answer = both
                .tuner
                .block_with(number, samples, &mut out, voices, store);
            tuned.fill(UNTOUCHED);
            assert_eq!(alone(answer), plain.block(number, samples, &mut tuned));
            assert!(out == tuned);
        }
        assert_eq!(both.tuner.meter(), plain.meter());
        assert_eq!(both.tuner.behind(), plain.behind());
    }
}

/// The lead and a voice are what they are without a further one.
#[test]
fn a_further_voice_changes_nothing() {
    let take = &sung()[..12_000];
    let play = |intervals: &[i32]| {
        let mut both = Both::start(CD, Settings::DEFAULT, intervals, 30);
        both.play(take, 512)
    };
    let lead = play(&[]).into_iter().next();
    for intervals in [&[-12][..], &[7, -5], &[3, 3, -9]] {
        let given = play(intervals);
        assert!(Some(&given[0]) == lead.as_ref());
        for (&interval, voice) in intervals.iter().zip(&given[1..]) {
            assert!(
                *voice == play(&[interval])[1],
                "{interval} of {intervals:?}"
            );
        }
    }
}
