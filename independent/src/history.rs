//! All samples of a take. Samples before the first count as 0.

/// As many zeros stand before the take as anything looks back.
pub const SILENCE_BEFORE: usize = 1_760;

#[derive(Clone, Debug, PartialEq, Eq)]
pub struct History {
    /// The silence before the take, then every sample of it, but for those
    /// that are forgotten.
    stored: Vec<i16>,
    /// How many of the oldest are not stored any more.
    forgotten: usize,
}

impl History {
    pub fn fresh() -> History {
        History {
            stored: vec![0; SILENCE_BEFORE],
            forgotten: 0,
        }
    }

    /// A history that received just these samples.
    pub fn of(samples: &[i16]) -> History {
        let mut history = History::fresh();
        samples.iter().for_each(|&sample| history.store(sample));
        history
    }

    pub fn store(&mut self, sample: i16) {
        self.stored.push(sample);
    }

    /// Forgets all that nothing looks back to any more, for takes that are
    /// longer than memory is.
    pub fn forget(&mut self) {
        let oldest = self.stored.len() - SILENCE_BEFORE;
        self.stored.drain(..oldest);
        self.forgotten += oldest;
    }

    /// Samples received since the start or reset.
    pub fn count(&self) -> usize {
        self.stored.len() + self.forgotten - SILENCE_BEFORE
    }

    /// The newest `length` samples.
    pub fn newest(&self, length: usize) -> &[i16] {
        self.newest_before(0, length)
    }

    /// The samples that stand `lag` before the newest `length`.
    pub fn newest_before(&self, lag: usize, length: usize) -> &[i16] {
        let end = self.stored.len() - lag;
        &self.stored[end - length..end]
    }

    /// The sample of this index, the first having 0. Below 0 it is 0.
    pub fn at(&self, index: i64) -> i16 {
        match usize::try_from(index) {
            Ok(index) => self.stored[SILENCE_BEFORE + index - self.forgotten],
            Err(_) => 0,
        }
    }
}
