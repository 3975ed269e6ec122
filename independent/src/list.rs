//! The list of the notes sung, as document 02 asks for it (K10): worked out
//! afresh from the wanted notes of all samples of a take; and, for hosts that
//! lend another store at each call, what a call makes of the listing in a record.

use std::fmt;

/// The most rows of a list.
pub const MOST_ROWS: usize = 4_096;
/// The numbers of a row in a store.
pub const ROW: usize = 3;

/// The wanted note of a sample; none without a period or without a key.
pub type Note = Option<u8>;

/// A longest run of samples with the same wanted note.
#[derive(Clone, Copy, Debug, PartialEq, Eq)]
pub struct Row {
    pub note: u8,
    /// The first sample has 0.
    pub first: usize,
    pub length: usize,
}

impl Row {
    /// The sample behind it.
    pub fn end(&self) -> usize {
        self.first + self.length
    }
}

/// A row for each longest run of samples with the same wanted note; samples
/// without one are in no row.
pub fn runs(notes: &[Note]) -> Vec<Row> {
    let mut rows = Vec::new();
    let mut first = 0;
    for run in notes.chunk_by(|note, next| note == next) {
        let length = run.len();
        if let Some(note) = run[0] {
            rows.push(Row {
                note,
                first,
                length,
            });
        }
        first += length;
    }
    rows
}

/// The rows for which a store of so many numbers has room.
pub fn room(numbers: usize) -> usize {
    MOST_ROWS.min(numbers / ROW)
}

/// The list of a take.
#[derive(Clone, Debug, Default, PartialEq, Eq)]
pub struct List {
    pub rows: Vec<Row>,
    /// Rows left out.
    pub left: usize,
}

impl List {
    /// The first rows, as many as there is room for.
    pub fn of(notes: &[Note], room: usize) -> List {
        let mut rows = runs(notes);
        let left = rows.split_off(room.min(rows.len())).len();
        List { rows, left }
    }

    /// The numbers of its rows, three a row.
    pub fn numbers(&self) -> Vec<u32> {
        let numbers = |row: &Row| [usize::from(row.note), row.first, row.length].map(|n| n as u32);
        self.rows.iter().flat_map(numbers).collect()
    }
}

/// A line for each row: note, first sample, length. Then how many rows there
/// are, and how many were left out.
impl fmt::Display for List {
    fn fmt(&self, to: &mut fmt::Formatter) -> fmt::Result {
        for row in &self.rows {
            writeln!(to, "{}\t{}\t{}", row.note, row.first, row.length)?;
        }
        writeln!(to, "end\t{}\t{}", self.rows.len(), self.left)
    }
}

/// What a record has of a list.
#[derive(Clone, Copy, Debug, PartialEq, Eq)]
pub struct Listing {
    /// Rows so far, and rows left out.
    pub rows: u32,
    pub left: u32,
    /// Of the run that began last: its row's place among the rows, or that it
    /// has none; and its first sample.
    pub place: u32,
    pub first: u32,
}

/// The place of a run that has no row.
pub const NO_PLACE: u32 = MOST_ROWS as u32;

impl Listing {
    /// Where a list begins.
    pub const FRESH: Listing = Listing {
        rows: 0,
        left: 0,
        place: NO_PLACE,
        first: 0,
    };

    pub fn of([rows, left, place, first]: [u32; 4]) -> Listing {
        Listing {
            rows,
            left,
            place,
            first,
        }
    }

    pub fn words(&self) -> [u32; 4] {
        [self.rows, self.left, self.place, self.first]
    }

    /// Whether every number is in its range, after so many samples.
    pub fn is_good(&self, count: u64) -> bool {
        let runs = u64::from(self.rows) + u64::from(self.left);
        self.rows as usize <= MOST_ROWS
            && runs <= count
            && u64::from(self.first) <= count
            && (self.place < self.rows || self.place == NO_PLACE)
    }

    /// Goes on with the notes of samples that were taken, behind `count`
    /// samples, the last of which has the note `last`. A run that begins where
    /// the store that is lent now has no place is left out; the row of one that
    /// has a place there is written whole. The store is never read.
    pub fn go_on(&mut self, last: Note, count: u64, notes: &[Note], store: &mut [u32]) {
        let room = room(store.len());
        for run in runs(notes) {
            let goes_on = run.first == 0 && last == Some(run.note);
            if !goes_on {
                self.begin(count as u32 + run.first as u32, room);
            }
            let place = self.place as usize;
            if place < room {
                let length = count as u32 + run.end() as u32 - self.first;
                let row = [u32::from(run.note), self.first, length];
                store[ROW * place..][..ROW].copy_from_slice(&row);
            }
        }
    }

    /// A run begins at this sample.
    fn begin(&mut self, first: u32, room: usize) {
        self.first = first;
        if (self.rows as usize) < room {
            self.place = self.rows;
            self.rows += 1;
        } else {
            self.place = NO_PLACE;
            self.left += 1;
        }
    }
}
