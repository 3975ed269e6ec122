//! The list of the notes sung: runs of notes, however a take is cut, whatever
//! store is lent, and what `notes` prints of an input.

use independent::calls::{made, Call};
use independent::generator::cases::{sung, Cases};
use independent::generator::cuts::CUTTINGS;
use independent::generator::kinds::{kind_named, KINDS};
use independent::generator::lists::{list_choices, BAD, GOOD};
use independent::generator::script::script;
use independent::lines::{lists_of, Program};
use independent::list::{room, runs, List, Listing, Note, Row, MOST_ROWS, NO_PLACE, ROW};
use independent::record::Record;
use independent::settings::Settings;
use independent::statistics::Statistics;
use independent::table::CD;
use independent::tuner::Tuner;
use std::collections::BTreeMap;

fn row((note, first, length): (u8, usize, usize)) -> Row {
    Row {
        note,
        first,
        length,
    }
}

fn rows(of: &[(u8, usize, usize)]) -> Vec<Row> {
    of.iter().copied().map(row).collect()
}

const N: Note = None;

/// Notes by letters: a dot is none.
fn notes(letters: &str) -> Vec<Note> {
    let note = |letter: u8| (letter != b'.').then_some(letter);
    letters.bytes().map(note).collect()
}

#[test]
fn a_row_for_each_longest_run() {
    assert_eq!(runs(&[]), []);
    assert_eq!(runs(&[N, N, N]), []);
    assert_eq!(runs(&[Some(0)]), [row((0, 0, 1))]);
    let some = [N, Some(60), Some(60), Some(62), N, Some(62), Some(127)];
    let right = rows(&[(60, 1, 2), (62, 3, 1), (62, 5, 1), (127, 6, 1)]);
    assert_eq!(runs(&some), right);
}

/// Every sample with a note is in just one row, which has its note; and no row
/// could be longer.
#[test]
fn rows_are_the_longest() {
    let letters = "..aaab..b.bbbaacc..a.a.bb";
    let (sung, rows) = (notes(letters), runs(&notes(letters)));
    for (at, note) in sung.iter().enumerate() {
        let around = |row: &&Row| row.first <= at && at < row.end();
        let here: Vec<u8> = rows.iter().filter(around).map(|row| row.note).collect();
        assert_eq!(here, Vec::from_iter(*note), "sample {at}");
    }
    for row in &rows {
        let beside = |at: usize| sung.get(at).copied().flatten();
        assert!(row.first == 0 || beside(row.first - 1) != Some(row.note));
        assert_ne!(beside(row.end()), Some(row.note));
    }
}

#[test]
fn a_list_has_the_first_rows() {
    let sung = notes("ab.c.c");
    for (room, left) in [(0, 4), (1, 3), (3, 1), (4, 0), (9, 0)] {
        let list = List::of(&sung, room);
        assert_eq!(list.rows, runs(&sung)[..4 - left]);
        assert_eq!(list.left, left);
    }
    let list = List::of(&sung, 2);
    assert_eq!(list.to_string(), "97\t0\t1\n98\t1\t1\nend\t2\t2\n");
    assert_eq!(list.numbers(), [97, 0, 1, 98, 1, 1]);
    assert_eq!(List::default().to_string(), "end\t0\t0\n");
}

#[test]
fn rooms() {
    for (numbers, rows) in [
        (0, 0),
        (2, 0),
        (3, 1),
        (5, 1),
        (6, 2),
        (12_287, 4_095),
        (12_288, 4_096),
        (12_290, 4_096),
        (90_000, 4_096),
    ] {
        assert_eq!(room(numbers), rows, "{numbers}");
    }
}

/// A listing that went on with the notes in pieces, the store lent each time as
/// it was left.
fn went_on(pieces: &[&[Note]], store: &mut [u32]) -> Listing {
    let (mut listing, mut last, mut count) = (Listing::FRESH, None, 0);
    for notes in pieces {
        listing.go_on(last, count, notes, store);
        count += notes.len() as u64;
        last = notes.last().copied().unwrap_or(last);
        assert!(listing.is_good(count));
    }
    listing
}

/// However a take is cut, rows, rows left out and store are those of the list
/// worked out afresh, and nothing else of the store is touched.
#[test]
fn however_it_is_cut() {
    let sung = notes("..aaab..b.bbbaacc..a.a.bb");
    for numbers in [0, 1, 2, 3, 5, 6, 8, 14, 27, 40] {
        let list = List::of(&sung, room(numbers));
        let mut right = list.numbers();
        right.resize(numbers, 7);
        for length in 1..=sung.len() {
            let pieces: Vec<&[Note]> = sung.chunks(length).collect();
            let mut store = vec![7; numbers];
            let listing = went_on(&pieces, &mut store);
            assert_eq!(store, right, "{numbers} numbers, by {length}");
            let counts = (listing.rows as usize, listing.left as usize);
            assert_eq!(counts, (list.rows.len(), list.left));
        }
    }
}

/// A run that began without a place stays left out in a longer store; one whose
/// place the store has not is written where a later store has it, whole.
#[test]
fn another_store_at_each_call() {
    let mut listing = Listing::FRESH;
    let (mut long, mut short) = ([7; 9], [7; 3]);
    let a = notes("aa");
    let b = notes("bb");
    listing.go_on(None, 0, &a, &mut []);
    assert_eq!(listing, Listing::of([0, 1, NO_PLACE, 0]));
    listing.go_on(Some(b'a'), 2, &a, &mut long);
    assert_eq!((listing.words(), long), ([0, 1, NO_PLACE, 0], [7; 9]));
    listing.go_on(Some(b'a'), 4, &b, &mut short);
    assert_eq!((listing.words(), short), ([1, 1, 0, 4], [98, 4, 2]));
    listing.go_on(Some(b'b'), 6, &a, &mut long);
    assert_eq!(listing.words(), [2, 1, 1, 6]);
    assert_eq!(long, [7, 7, 7, 97, 6, 2, 7, 7, 7]);
    // The row has no place in the short store, and comes back whole.
    listing.go_on(Some(b'a'), 8, &a, &mut short);
    assert_eq!(short, [98, 4, 2]);
    listing.go_on(Some(b'a'), 10, &a, &mut long);
    assert_eq!(long, [7, 7, 7, 97, 6, 6, 7, 7, 7]);
    assert_eq!(listing.words(), [2, 1, 1, 6]);
}

#[test]
fn ranges_of_a_listing() {
    let good = |words, count| Listing::of(words).is_good(count);
    assert!(Listing::FRESH.is_good(0));
    assert!(good([4_096, 0, 4_095, 9_000], 9_000));
    assert!(!good([4_097, 0, 0, 0], 9_000));
    assert!(good([4, 5, NO_PLACE, 9], 9));
    assert!(!good([4, 6, NO_PLACE, 9], 9));
    assert!(!good([4, 5, NO_PLACE, 10], 9));
    assert!(!good([4, 5, 4, 9], 9));
    assert!(!good([4, 5, NO_PLACE + 1, 9], 9));
    assert!(!good([u32::MAX, u32::MAX, 0, 0], u64::MAX));
    assert!(!good([1, u32::MAX, 0, 0], 1_000_000_000));
}

/// The opening is a take too, also where a start follows at once; what is
/// refused or cannot be read ends none.
#[test]
fn takes_of_an_input() {
    assert_eq!(lists_of(b""), "end\t0\t0\n");
    assert_eq!(
        lists_of(b"start\t4095\t100\t0\t100\n"),
        "end\t0\t0\n".repeat(2)
    );
    let others = b"start\t0\t100\t0\t100\nreset\tnow\nmode\t2\nblock\t9\t1\nblock\t0\t5\n";
    assert_eq!(lists_of(others), "end\t0\t0\n");
    assert_eq!(lists_of(b"reset\nreset"), "end\t0\t0\n".repeat(3));
}

/// A square wave's note, from the step that finds it on; a reset begins anew.
#[test]
fn rows_of_a_take() {
    let sung: Vec<String> = (0..480)
        .map(|at| (9_000 * (at / 48 % 2) - 4_500).to_string())
        .collect();
    let take: String = (0..3)
        .map(|number| format!("block\t{number}\t{}\n", sung.join("\t")))
        .collect();
    let list = lists_of(take.as_bytes());
    let first: usize = list.split('\t').nth(1).unwrap().parse().unwrap();
    assert_eq!(list, format!("70\t{first}\t{}\nend\t1\t0\n", 1_440 - first));
    // A step's own sample has its note, and counts end there in multiples of 5.
    assert_eq!((first + 1) % 5, 0);
    let twice = lists_of(format!("{take}reset\n{take}").as_bytes());
    assert_eq!(twice, list.repeat(2));
    // A block again adds nothing.
    let again = format!("{take}block\t2\t{}\n", sung.join("\t"));
    assert_eq!(lists_of(again.as_bytes()), list);
}

/// Over the scripts of every kind: where a host would lend its store at each
/// block, the listing and the store come to the list of the take.
#[test]
fn a_listing_over_every_kind() {
    let mut full = 0;
    for kind in KINDS {
        let script = script(kind, 5, 25_000);
        let mut program = Program::default();
        let (mut listing, mut store) = (Listing::FRESH, vec![7; ROW * MOST_ROWS]);
        let mut answers = Vec::new();
        let lines = script.split_inclusive(|&byte| byte == b'\n');
        for line in lines {
            let (last, count) = (program.tuner().note(), program.tuner().count());
            program.read(line, &mut answers);
            if !line.ends_with(b"\n") {
                program.end(&mut answers);
            }
            let mut lists = program.lists();
            let list = lists.pop();
            if list.is_none() || !line.ends_with(b"\n") {
                let notes = program.tuner().notes();
                listing.go_on(last, count as u64, &notes[count..], &mut store);
            }
            if let Some(list) = list {
                let counts = (listing.rows as usize, listing.left as usize);
                assert_eq!(counts, (list.rows.len(), list.left), "{}", kind.name);
                let numbers = list.numbers();
                assert!(store[..numbers.len()] == numbers, "{}", kind.name);
                assert!(store[numbers.len()..].iter().all(|&number| number == 7));
                full += usize::from(list.left > 0);
                (listing, store) = (Listing::FRESH, vec![7; ROW * MOST_ROWS]);
            }
        }
    }
    assert!(full > 0, "a list is full");
}

/// Each take of the kind that is cut has the same list in every cutting.
#[test]
fn cuttings_have_the_same_list() {
    let script = script(kind_named("cuts").unwrap(), 3, 30_000);
    let mut program = Program::default();
    let mut answers = Vec::new();
    program.read(&script, &mut answers);
    program.end(&mut answers);
    let lists = program.lists();
    // The first is the opening's.
    let takes = lists[1..].chunks(CUTTINGS.len());
    let rows: usize = takes
        .map(|cuttings| {
            assert_eq!(cuttings.len(), CUTTINGS.len());
            assert!(cuttings.iter().all(|list| *list == cuttings[0]));
            cuttings[0].rows.len()
        })
        .sum();
    assert!(rows > 10, "{rows}");
}

#[test]
fn the_edges_of_a_listing() {
    for words in GOOD {
        assert!(Listing::of(*words).is_good(2_400), "{words:?}");
    }
    for words in BAD {
        assert!(!Listing::of(*words).is_good(2_400), "{words:?}");
    }
}

/// A take over a record's bytes, with a list: the plain calls' record and output,
/// and the list of the take.
#[test]
fn a_take_over_a_record() {
    let take = sung();
    let (_, mut tuner) = Tuner::start(CD, Settings::DEFAULT);
    let mut out = vec![0; take.len()];
    tuner.night(0, 512, &take, &mut out, &mut Statistics::default());
    for numbers in [3, 8, 90] {
        let list = List::of(tuner.notes(), room(numbers));
        let mut plain = Record::default_start().bytes();
        let mut bytes = Record::default_start().with_list().bytes();
        let mut store = vec![7; numbers];
        for (number, samples) in (0..).zip(take.chunks(300)) {
            let block = Call::block(number, samples, vec![9; samples.len()]);
            let without = made(&plain, &block);
            let left = made(&bytes, &block.with_store(store));
            assert_eq!((left.answer.number, without.answer.list), (0, [0, 0]));
            assert_eq!(left.answer.counts, without.answer.counts);
            assert_eq!(left.lent.outs, without.lent.outs);
            let record = Record::of_bytes(&left.record);
            assert_eq!(left.answer.list, [record.list.rows, record.list.left]);
            let lead = Record {
                listed: 0,
                list: Listing::FRESH,
                ..record
            };
            assert!(lead.bytes() == without.record);
            (plain, bytes, store) = (without.record, left.record, left.lent.store);
        }
        let mut right = list.numbers();
        right.resize(numbers, 7);
        assert_eq!(store, right);
        let listing = Record::of_bytes(&bytes).list;
        let counts = (listing.rows as usize, listing.left as usize);
        assert_eq!(counts, (list.rows.len(), list.left));
    }
}

/// What each refusal leaves: 17 after a start's own, and after 9; a tuner that
/// keeps no list is never answered it.
#[test]
fn refusals_with_a_list() {
    let bad = vec![7; independent::record::SIZE];
    let start = |hertz, scale, keep, numbers| {
        let call = Call::Start {
            hertz,
            settings: Settings::of([scale, 100, 0, 100]),
            listed: keep,
            intervals: vec![],
            store: vec![7; numbers],
        };
        let left = made(&bad, &call);
        (left.answer.number, Record::of_bytes(&left.record))
    };
    let settings = Settings::of([1, 100, 0, 100]);
    for keep in [1, 2, u32::MAX] {
        for (hertz, scale, numbers, number) in [
            (CD + 1, 0, 2, 16),
            (CD, 0, 2, 8),
            (CD, 0, 3, 8),
            (CD, 1, 0, 17),
            (CD, 1, 2, 17),
        ] {
            let refused = (number, Record::default_start());
            assert!(start(hertz, scale, keep, numbers) == refused);
        }
        let begun = (0, Record::fresh(CD, settings).with_list());
        assert!(start(CD, 1, keep, 3) == begun);
    }
    assert!(start(CD, 1, 0, 0) == (0, Record::fresh(CD, settings)));
    let reset = |record: &Record, numbers| {
        let left = made(&record.bytes(), &Call::Reset(vec![7; numbers]));
        let number = left.answer.number;
        assert!(number == 0 || left.record == record.bytes());
        number
    };
    let good = Record::default_start().with_list();
    let other = Record {
        list: Listing::of([1, 0, 0, 0]),
        ..good.clone()
    };
    assert_eq!(reset(&other, 0), 9);
    assert_eq!(reset(&good, 2), 17);
    assert_eq!(reset(&good, 3), 0);
    assert_eq!(reset(&Record::default_start(), 0), 0);
}

/// Calls over records meet all that a listing and a store can do.
#[test]
fn calls_over_records_meet_lists() {
    let mut source = Cases::seeded(20_261_116);
    let chosen = list_choices().into_iter();
    let chosen = chosen.map(|(record, call)| (record.bytes(), call));
    let others = (0..20_000).map(|_| source.case());
    let mut met: BTreeMap<&str, usize> = BTreeMap::new();
    for (bytes, call) in chosen.chain(others) {
        let record = Record::of_bytes(&bytes);
        let keeps_a_list = match call {
            Call::Start { listed, .. } => listed > 0,
            _ => record.listed == 1,
        };
        if !keeps_a_list {
            continue;
        }
        let (left, lent) = (made(&bytes, &call), call.lent());
        let (list, after) = (record.list, Record::of_bytes(&left.record).list);
        let runs = |list: Listing| u64::from(list.rows) + u64::from(list.left);
        let begun = runs(after).saturating_sub(runs(list));
        let out_of_store = after.place as usize >= room(lent.store.len());
        let what = match (&call, left.answer.number) {
            (Call::Start { .. }, 0) => "list begun by a start",
            (Call::Start { .. }, 17) => "start without room",
            (Call::Start { .. }, _) => "start refused",
            (Call::Reset(_), 0) => "list begun by a reset",
            (Call::Reset(_), 17) => "reset without room",
            (Call::Block { .. } | Call::Night { .. }, number) => match number {
                9 if !list.is_good(record.count) => "listing refused",
                9 => "record refused",
                0 if begun > 1 => "runs begun",
                0 if after.left > list.left && after.rows as usize == MOST_ROWS => "list is full",
                0 if after.left > list.left => "run left out",
                0 if after.rows > list.rows => "run begun",
                0 if left.lent.store != lent.store => "row goes on",
                0 if after.place != NO_PLACE && out_of_store => "row out of store",
                0 => "nothing to list",
                1 => "block given again",
                _ => "block or night refused",
            },
            _ => continue,
        };
        let same = after == list && left.lent.store == lent.store;
        let may_move = matches!(call, Call::Start { .. } | Call::Night { .. });
        assert!(same || left.answer.number == 0 || may_move);
        *met.entry(what).or_default() += 1;
    }
    assert_eq!(met.len(), 16, "{met:?}");
}
