//! The list of the notes sung, by a tuner that keeps one: the list of the whole
//! take, however it is cut; full stores; what begins it, and what leaves it.

mod rows;

use daxfolin::{
    no_voices, Answer, NightAnswer, Settings, Tuner, CD, FILM, GIVEN_AGAIN, KEYBOARD_MODE,
    MOST_ROWS, NUMBER_NEITHER, RATE_UNKNOWN, RECORD_OUT_OF_RANGE, ROW, SCALE_OUT_OF_RANGE,
    STORE_WITHOUT_ROOM, TAKEN,
};
use independent::generator::cases::sung;
use independent::list::List;
use independent::statistics::Statistics;
use rows::{holds, FILL};

/// The list of a take, by the independent program.
fn right(hertz: u32, take: &[i16], room: usize) -> List {
    let settings = independent::settings::Settings::DEFAULT;
    let (_, mut tuner) = independent::tuner::Tuner::start(hertz, settings);
    let mut out = vec![0; take.len()];
    tuner.night(0, 512, take, &mut out, &mut Statistics::default());
    List::of(tuner.notes(), room)
}

/// A fresh tuner whose list has just begun.
fn begun(hertz: u32, store: &[u32]) -> Tuner {
    let (number, tuner) = Tuner::start(hertz, Settings::default(), true, &[], store);
    assert_eq!(number, TAKEN);
    tuner
}

/// A block, and a night, with a store and without voices.
fn block(
    tuner: &mut Tuner,
    number: u16,
    samples: &[i16],
    out: &mut [i16],
    store: &mut [u32],
) -> Answer {
    tuner.block_with(number, samples, out, no_voices(), store)
}

fn night(
    tuner: &mut Tuner,
    size: usize,
    take: &[i16],
    out: &mut [i16],
    store: &mut [u32],
) -> NightAnswer {
    tuner.night_with(0, size, take, out, no_voices(), store)
}

/// The numbers of whether a list is kept and of the list are another's, in the bytes of a tuner.
fn but_for_the_list(tuner: &Tuner) -> [u8; Tuner::SIZE] {
    let mut bytes = tuner.to_bytes();
    bytes[240..244].fill(0);
    bytes[248..264].fill(0);
    bytes
}

#[test]
fn a_list_begins_empty() {
    let with = begun(CD, &[0; 3]);
    assert_eq!(but_for_the_list(&with), but_for_the_list(&Tuner::default()));
    let words: Vec<u8> = [0u32, 0, 4096, 0].map(u32::to_le_bytes).concat();
    assert_eq!(with.to_bytes()[240..244], [1, 0, 0, 0]);
    assert_eq!(with.to_bytes()[248..264], words);
    assert_eq!(Tuner::default().to_bytes()[248..264], words);
}

/// Blocks, and nights, of any length and at either rate; tuner and output are those of one without a list.
#[test]
fn a_take_however_it_is_cut() {
    let take = sung();
    for hertz in [CD, FILM] {
        let list = right(hertz, &take, MOST_ROWS);
        assert!(list.rows.len() >= 5, "{}", list.rows.len());
        for size in [512, 64, 37, 1] {
            let (_, mut plain) = Tuner::start_plain(hertz, Settings::default());
            let mut tuned = vec![0; take.len()];
            plain.night(0, size, &take, &mut tuned);

            let mut store = vec![FILL; ROW * MOST_ROWS];
            let mut tuner = begun(hertz, &store);
            let (mut out, mut rows) = (vec![0; take.len()], 0);
            for ((number, samples), room) in
                (0u16..).zip(take.chunks(size)).zip(out.chunks_mut(size))
            {
                let answer = block(&mut tuner, number, samples, room, &mut store);
                assert_eq!((answer.number, answer.left), (TAKEN, 0));
                rows = answer.rows;
            }
            holds(&store, &list);
            assert_eq!(rows as usize, list.rows.len());
            assert!(but_for_the_list(&tuner) == but_for_the_list(&plain));
            assert!(out == tuned, "blocks of {size}");

            let mut other = vec![FILL; ROW * MOST_ROWS];
            let mut at_once = begun(hertz, &other);
            let answer = night(&mut at_once, size, &take, &mut out, &mut other);
            let said = (answer.number, answer.rows, answer.left);
            assert_eq!(said, (TAKEN, rows, 0));
            assert!(other == store && at_once == tuner && out == tuned);
        }
    }
}

/// Stores with room for few rows: the later ones are left out, and the last row grows on.
#[test]
fn a_full_store() {
    let take = sung();
    for numbers in [3, 4, 5, 6, 8, 9] {
        let list = right(CD, &take, numbers / ROW);
        let mut store = vec![FILL; numbers];
        let mut tuner = begun(CD, &store);
        let answer = night(&mut tuner, 512, &take, &mut vec![0; take.len()], &mut store);
        let counts = (answer.rows as usize, answer.left as usize);
        assert_eq!(counts, (list.rows.len(), list.left));
        assert!(list.left > 0);
        holds(&store, &list);
    }
}

/// A key before every step: over 4,096 rows, in a store that has room for more.
#[test]
fn over_4096_rows() {
    let mut store = vec![FILL; ROW * MOST_ROWS + 9];
    let keyboard = Settings {
        mode: KEYBOARD_MODE,
        ..Settings::default()
    };
    let (_, mut tuner) = Tuner::start(CD, keyboard, true, &[], &store);
    let wave = |at: usize| if at / 48 % 2 == 0 { 4_500 } else { -4_500 };
    let mut last = Answer::default();
    for number in 0..4_400 {
        let samples: Vec<i16> = (5 * number..5 * number + 5).map(wave).collect();
        tuner.midi(&[144, 69 + (number % 2) as u8, 100]);
        last = block(&mut tuner, number as u16, &samples, &mut [0; 5], &mut store);
        assert_eq!(last.number, TAKEN);
    }
    assert_eq!(last.rows as usize, MOST_ROWS);
    assert!((1..300).contains(&last.left), "{}", last.left);
    assert_eq!(store[ROW * MOST_ROWS..], [FILL; 9]);
    for (place, row) in store.chunks_exact(ROW).take(MOST_ROWS).enumerate() {
        assert_eq!(
            row[0],
            69 + (store[0] + 1 + place as u32) % 2,
            "row {place}"
        );
        assert_eq!(row[2], 5, "row {place}");
        assert_eq!(row[1], store[1] + 5 * place as u32);
    }
}

/// 17 at a start that keeps a list and at a reset of such a tuner, after their own refusals; a refused start hands back the default tuner, a
/// refused reset changes nothing. Without a list there is no 17.
#[test]
fn a_store_without_room() {
    let take = sung();
    let mut tuner = begun(CD, &[0; 3]);
    night(
        &mut tuner,
        512,
        &take,
        &mut vec![0; take.len()],
        &mut [0; 3],
    );
    let before = tuner.clone();
    let good = Settings::default();
    let bad = Settings { scale: 0, ..good };
    for store in [&[][..], &[7], &[7, 7]] {
        assert_eq!(tuner.reset(store), STORE_WITHOUT_ROOM);
        assert!(tuner == before);
        for (hertz, settings, number) in [
            (CD + 1, bad, RATE_UNKNOWN),
            (CD, bad, SCALE_OUT_OF_RANGE),
            (FILM, good, STORE_WITHOUT_ROOM),
        ] {
            let started = Tuner::start(hertz, settings, true, &[], store);
            assert_eq!(started, (number, Tuner::default()));
        }
        let started = Tuner::start(CD, good, false, &[], store);
        assert_eq!(started, (TAKEN, Tuner::default()));
        assert_eq!(Tuner::default().reset(store), TAKEN);
    }
    assert_eq!(tuner.reset(&[7; 3]), TAKEN);
    assert_eq!(tuner, begun(CD, &[0; 3]));
}

/// A block that is given again or refused leaves list and store; so does a list out of its ranges, which is 9.
#[test]
fn what_adds_nothing() {
    let take = sung();
    let mut store = vec![FILL; 30];
    let (mut tuner, mut out, mut rows) = (begun(CD, &store), vec![0; 512], 0);
    for (number, samples) in (0..20).zip(take.chunks(512)) {
        rows = block(&mut tuner, number, samples, &mut out, &mut store).rows;
    }
    assert!(rows > 0);
    let (before, stored) = (tuner.clone(), store.clone());
    let last = &take[19 * 512..20 * 512];
    for (number, samples, right) in [(19, last, GIVEN_AGAIN), (21, last, NUMBER_NEITHER)] {
        let answer = block(&mut tuner, number, samples, &mut out, &mut store);
        assert_eq!((answer.number, answer.rows), (right, rows));
        assert!(tuner == before && store == stored);
    }
    let mut bytes = tuner.to_bytes();
    bytes[260..264].copy_from_slice(&10_241u32.to_le_bytes());
    let mut wrong = Tuner::from_bytes(&bytes);
    let answer = block(&mut wrong, 20, last, &mut out, &mut store);
    assert_eq!((answer.number, answer.rows), (RECORD_OUT_OF_RANGE, rows));
    assert!(wrong.to_bytes() == bytes && store == stored);
}

/// A host that lends no store goes on without: what begins meanwhile is left out, and a row that was begun comes back whole. The plain
/// block lends none.
#[test]
fn another_store_meanwhile() {
    let take = sung();
    let list = right(CD, &take, MOST_ROWS);
    let mut store = vec![FILL; 300];
    let (mut tuner, mut out) = (begun(CD, &store), vec![0; 64]);
    let row = list.rows[0];
    let (mut at, mut without, mut last) = (0, 0, Answer::default());
    for (number, samples) in (0u16..).zip(take.chunks(64)) {
        // No store while the first row goes on, from its middle to a little before its end.
        last = if (row.first + row.length / 2..row.end() - 200).contains(&at) {
            without += 1;
            tuner.block(number, samples, &mut out)
        } else {
            block(&mut tuner, number, samples, &mut out, &mut store)
        };
        at += samples.len();
    }
    assert!(without > 1 && last.left == 0);
    assert_eq!(last.rows as usize, list.rows.len());
    holds(&store, &list);
    let mut plain = begun(CD, &store);
    let answer = plain.night(0, 512, &take, &mut vec![0; take.len()]);
    let said = (answer.rows as usize, answer.left as usize);
    assert_eq!(said, (0, list.rows.len()));
}

/// A host that moves whole rows out of a short store has the rows of the whole take, none left out.
#[test]
fn rows_moved_out_of_the_store() {
    let take = sung();
    let list = right(CD, &take, MOST_ROWS);
    // a row begins at a tracking step, one in five samples: a block of 16 begins four at most
    let mut store = vec![FILL; 5 * ROW];
    let (mut tuner, mut moved) = (begun(CD, &store), Vec::new());
    for (number, samples) in (0u16..).zip(take.chunks(16)) {
        let answer = block(&mut tuner, number, samples, &mut [0; 16], &mut store);
        assert_eq!(tuner.rows(), (answer.rows, 0));
        if answer.rows > 1 {
            let last = ROW * (answer.rows as usize - 1);
            moved.extend_from_slice(&store[..last]);
            store.copy_within(last..last + ROW, 0);
            tuner.keep_last_row();
            assert_eq!(tuner.rows(), (1, 0));
        }
    }
    assert!(moved.len() > store.len());
    moved.extend_from_slice(&store[..ROW]);
    assert_eq!(moved, list.numbers());
    let mut fresh = begun(CD, &store);
    fresh.keep_last_row();
    assert_eq!(fresh, begun(CD, &store));
}
