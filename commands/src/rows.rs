//! The list of the notes sung in a take, of any length: the proved calls keep up
//! to 4,096 rows in a lent store, and here whole rows are moved out of it after
//! each block, so that it is never full.

use crate::source::Source;
use crate::started;
use daxfolin::wave::Take;
use daxfolin::{no_voices, Answer, Meter, Settings, Tuner, LONGEST_BLOCK, MOST_ROWS, ROW, TAKEN};
use words::end::End;
use words::signals::ended;

/// A longest run of samples with the same wanted note.
#[derive(Clone, Copy, Debug, PartialEq, Eq)]
pub struct Row {
    /// 0 to 127.
    pub note: u8,
    /// The first sample of the take is 0.
    pub first: u64,
    pub length: u64,
}

impl Row {
    /// The sample behind it.
    pub fn end(&self) -> u64 {
        self.first + self.length
    }

    fn of(numbers: &[u32]) -> Row {
        Row {
            note: numbers[0] as u8,
            first: numbers[1].into(),
            length: numbers[2].into(),
        }
    }
}

/// A tuner that keeps the list of its take.
pub struct Listed {
    tuner: Tuner,
    store: Vec<u32>,
    rows: Vec<Row>,
}

impl Listed {
    /// A fresh one; or the number that the start refuses by.
    pub fn start(hertz: u32, settings: Settings) -> Result<Listed, u32> {
        let store = vec![0; ROW * MOST_ROWS];
        match Tuner::start(hertz, settings, true, &[], &store) {
            (TAKEN, tuner) => Ok(Listed {
                tuner,
                store,
                rows: Vec::new(),
            }),
            (number, _) => Err(number),
        }
    }

    /// `Tuner::midi`.
    pub fn midi(&mut self, bytes: &[u8]) -> u32 {
        self.tuner.midi(bytes)
    }

    /// A block, with room for every row.
    pub fn block(&mut self, number: u16, sung: &[i16], out: &mut [i16]) -> Answer {
        let store = &mut self.store;
        let answer = self.tuner.block_with(number, sung, out, no_voices(), store);
        self.move_out(answer.rows as usize);
        answer
    }

    /// `Tuner::meter`.
    pub fn meter(&self) -> Meter {
        self.tuner.meter()
    }

    /// `Tuner::behind`.
    pub fn behind(&self) -> u64 {
        self.tuner.behind()
    }

    /// Of so many rows all but the last are whole. The last one may go on, and stays.
    fn move_out(&mut self, rows: usize) {
        let last = match rows {
            0 | 1 => return,
            rows => ROW * (rows - 1),
        };
        let whole = self.store[..last].chunks_exact(ROW).map(Row::of);
        self.rows.extend(whole);
        self.store.copy_within(last..last + ROW, 0);
        self.tuner.keep_last_row();
    }

    /// The rows of the take.
    pub fn rows(mut self) -> Vec<Row> {
        let (rows, _) = self.tuner.rows();
        let left = self.store.chunks_exact(ROW).take(rows as usize);
        self.rows.extend(left.map(Row::of));
        self.rows
    }
}

/// The rows of the take in a file, by these settings and without keys.
pub fn rows(
    program: &'static str,
    source: &Source,
    take: &Take,
    settings: Settings,
) -> Result<Vec<Row>, End> {
    let mut tuner = match Listed::start(take.hertz, settings) {
        Ok(tuner) => tuner,
        Err(number) => return started(number).map(|()| Vec::new()),
    };
    source.blocks(program, take, |number, sung| {
        ended()?;
        match tuner.block(number, sung, &mut [0; LONGEST_BLOCK]).number {
            TAKEN => Ok(()),
            number => Err(source.refused(number)),
        }
    })?;
    Ok(tuner.rows())
}
