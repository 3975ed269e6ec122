//! A take played through a tuner with the keys of a line: blocks are cut so that
//! each key comes before its sample. That the cutting does not matter is proved
//! (K6), so a line without keys changes nothing.

use crate::midi::Key;

/// What a tuner is given next.
#[derive(Clone, Copy, Debug, PartialEq, Eq)]
pub enum Part<'a> {
    /// Bytes for its keyboard.
    Keys(&'a [u8]),
    /// A block of the take, with its number; or, where more samples were given at once, so many of them.
    Block(u16, &'a [i16]),
}

/// How far a take and its line are.
pub struct Delivery<'a> {
    /// The keys still to come.
    keys: &'a [Key],
    /// Samples given so far.
    at: u64,
    /// The next block's number.
    number: u16,
}

impl<'a> Delivery<'a> {
    /// Of keys in the order of their samples.
    pub fn of(keys: &'a [Key]) -> Delivery<'a> {
        Delivery {
            keys,
            at: 0,
            number: 0,
        }
    }

    /// Gives the next samples of the take and each key before its sample. Stops at the first error.
    pub fn give<E>(
        &mut self,
        sung: &[i16],
        mut call: impl FnMut(Part) -> Result<(), E>,
    ) -> Result<(), E> {
        let mut left = sung;
        while !left.is_empty() {
            while let Some((key, later)) = self.due() {
                call(Part::Keys(&key.bytes()))?;
                self.keys = later;
            }
            let (now, rest) = left.split_at(self.until(left.len()));
            call(Part::Block(self.number, now))?;
            // numbers of blocks begin again after 65535
            self.number = self.number.wrapping_add(1);
            self.at += now.len() as u64;
            left = rest;
        }
        Ok(())
    }

    /// The next key, if it comes before the next sample, and those behind it.
    fn due(&self) -> Option<(Key, &'a [Key])> {
        let (key, later) = self.keys.split_first()?;
        (key.sample <= self.at).then_some((*key, later))
    }

    /// How many of so many samples come before the next key.
    fn until(&self, most: usize) -> usize {
        let next = self.keys.first().map(|key| key.sample - self.at);
        next.map_or(most, |samples| samples.min(most as u64) as usize)
    }

    /// Keys that the samples so far left over: when the take has ended, those past its end.
    pub fn left(&self) -> usize {
        self.keys.len()
    }
}

#[cfg(test)]
mod tests {
    use super::*;

    fn key(sample: u64, key: u8) -> Key {
        Key {
            sample,
            key,
            down: true,
        }
    }

    /// Everything that is given: bytes, or a block's number and samples.
    fn given(keys: &[Key], blocks: &[&[i16]]) -> (Vec<String>, usize) {
        let (mut given, mut delivery) = (Vec::new(), Delivery::of(keys));
        for block in blocks {
            let all = delivery.give(block, |part| {
                given.push(match part {
                    Part::Keys(bytes) => format!("key {}", bytes[1]),
                    Part::Block(number, samples) => format!("{number} {samples:?}"),
                });
                Ok::<(), ()>(())
            });
            assert!(all.is_ok());
        }
        (given, delivery.left())
    }

    #[test]
    fn without_keys_the_blocks_are_as_they_were() {
        let (all, left) = given(&[], &[&[1, 2], &[3]]);
        assert_eq!((all, left), (vec!["0 [1, 2]".into(), "1 [3]".into()], 0));
    }

    #[test]
    fn blocks_are_cut_at_each_key() {
        let keys = [key(0, 60), key(2, 61), key(2, 62), key(4, 63), key(7, 64)];
        let (all, left) = given(&keys, &[&[1, 2, 3, 4], &[5, 6, 7]]);
        let right = [
            "key 60",
            "0 [1, 2]",
            "key 61",
            "key 62",
            "1 [3, 4]",
            "key 63",
            "2 [5, 6, 7]",
        ];
        assert_eq!(all, right);
        assert_eq!(left, 1, "the take has no sample 7");
    }

    #[test]
    fn an_error_ends_it() {
        let mut delivery = Delivery::of(&[]);
        assert_eq!(delivery.give(&[1], |_| Err(7)), Err(7));
    }

    #[test]
    fn numbers_of_blocks_begin_again() {
        let mut delivery = Delivery::of(&[]);
        let mut last = None;
        for _ in 0..=65_536 {
            let all = delivery.give(&[0], |part| {
                if let Part::Block(number, _) = part {
                    last = Some(number);
                }
                Ok::<(), ()>(())
            });
            assert!(all.is_ok());
        }
        assert_eq!(last, Some(0));
    }
}
