//! A night's blocks in one call, as document 02 asks for it (K2): the single
//! calls, made one by one.

use crate::rules::LONGEST_BLOCK;
use crate::statistics::Statistics;
use crate::tuner::{Answer, Counts, Tuner};

/// What a night is answered.
#[derive(Clone, Copy, Debug, PartialEq, Eq)]
pub struct Night {
    /// Taken, or what refused.
    pub answer: Answer,
    /// The number of the block that was refused; none where all were done, and
    /// where the night was refused before its first block.
    pub refused: Option<u16>,
    /// Blocks taken.
    pub taken: usize,
    /// The counts of the blocks taken, added up.
    pub counts: Counts,
    /// Those of the first block, if it was given again: apart from the sums.
    pub again: Option<Counts>,
}

impl Night {
    /// Before any block.
    fn answered(answer: Answer) -> Night {
        Night {
            answer,
            refused: None,
            taken: 0,
            counts: Counts::default(),
            again: None,
        }
    }
}

impl Tuner {
    /// Takes a recording in blocks of so many samples, from this number on; the
    /// last block may be shorter. It stops at the first refusal.
    pub fn night(
        &mut self,
        first: u16,
        size: usize,
        samples: &[i16],
        output: &mut [i16],
        seen: &mut Statistics,
    ) -> Night {
        if !self.is_good() {
            return Night::answered(Answer::RecordOutOfRange);
        }
        if !(1..=LONGEST_BLOCK).contains(&size) {
            return Night::answered(Answer::BlockTooLong);
        }
        if output.len() < samples.len() {
            return Night::answered(Answer::OutputTooShort);
        }
        let mut night = Night::answered(Answer::Taken);
        let mut number = first;
        for (block, room) in samples.chunks(size).zip(output.chunks_mut(size)) {
            let (answer, counts) = self.block(number, block, room, seen);
            match answer {
                Answer::Taken => {
                    night.taken += 1;
                    night.counts = night.counts.plus(counts);
                }
                Answer::GivenAgain => night.again = Some(counts),
                _ => {
                    (night.answer, night.refused) = (answer, Some(number));
                    break;
                }
            }
            number = number.wrapping_add(1);
        }
        night
    }
}
