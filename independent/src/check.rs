//! A take and what was made of it, held together sample by sample, for the
//! engineer who wants to see for herself.

use crate::list::Note;
use crate::rules::{input_position, LONGEST_BLOCK};
use crate::settings::{Settings, KEYBOARD};
use crate::statistics::Statistics;
use crate::tuner::{Answer, Tuner};
use crate::voices::Ensemble;
use crate::wanted::Wanted;

/// A sample that is not what it should be.
#[derive(Clone, Copy, Debug, PartialEq, Eq)]
pub struct Difference {
    /// 0 for the lead, then the voices.
    pub file: usize,
    /// The first sample has 0.
    pub sample: usize,
    pub is: i16,
    pub should_be: i16,
}

/// A tuner and voices that play a take block by block, and keep no more of it
/// than they need.
pub struct Player {
    tuner: Tuner,
    /// Of each voice its interval and its position.
    voices: Vec<(i32, i64)>,
    number: u16,
    /// What the file plays that the take is tuned to, and the key that is down.
    wanted: Option<Wanted>,
    key: Note,
}

impl Player {
    /// Or the number of what is refused.
    pub fn start(hertz: u32, settings: Settings, intervals: &[i32]) -> Result<Player, usize> {
        let answer = Ensemble::answer_to_start(hertz, &settings, None, intervals);
        match answer {
            Answer::Taken => Ok(Player {
                tuner: Tuner::start(hertz, settings).1,
                voices: intervals
                    .iter()
                    .map(|interval| (*interval, input_position(0)))
                    .collect(),
                number: 0,
                wanted: None,
                key: None,
            }),
            refused => Err(refused.number()),
        }
    }

    /// One that plays by keys, with these settings otherwise.
    pub fn by_keys(
        hertz: u32,
        settings: Settings,
        intervals: &[i32],
        wanted: Wanted,
    ) -> Result<Player, usize> {
        let settings = Settings {
            mode: KEYBOARD,
            channel: 0,
            ..settings
        };
        let player = Player::start(hertz, settings, intervals)?;
        Ok(Player {
            wanted: Some(wanted),
            ..player
        })
    }

    /// What the lead and each voice make of up to 512 samples.
    pub fn play(&mut self, sung: &[i16]) -> Vec<Vec<i16>> {
        let keys = match &mut self.wanted {
            Some(wanted) => wanted.at(sung),
            None => vec![None; sung.len()],
        };
        let mut outputs = vec![Vec::new(); 1 + self.voices.len()];
        let mut left = sung;
        for run in keys.chunk_by(|key, next| key == next) {
            let (now, later) = left.split_at(run.len());
            self.press(run[0]);
            for (output, part) in outputs.iter_mut().zip(self.take(now)) {
                output.extend(part);
            }
            left = later;
        }
        outputs
    }

    /// Releases the key that is down, and presses this one.
    fn press(&mut self, key: Note) {
        let message = |key: u8, velocity| [0x90, key, velocity];
        let messages = match (self.key, key) {
            (old, new) if old == new => return,
            (old, new) => [
                old.map(|key| message(key, 0)),
                new.map(|key| message(key, 1)),
            ],
        };
        for bytes in messages.into_iter().flatten() {
            let answer = self.tuner.midi(&bytes, &mut Statistics::default());
            assert_eq!(answer, Answer::Taken, "bytes of a keyboard are taken");
        }
        self.key = key;
    }

    /// What the lead and each voice make of a block.
    fn take(&mut self, sung: &[i16]) -> Vec<Vec<i16>> {
        let from = self.tuner.count();
        let mut lead = vec![0; sung.len()];
        let seen = &mut Statistics::default();
        let (answer, _) = self.tuner.block(self.number, sung, &mut lead, seen);
        assert_eq!(answer, Answer::Taken, "blocks of a take are taken");
        self.number = self.number.wrapping_add(1);
        let mut outputs = vec![lead];
        for (interval, position) in &mut self.voices {
            let sung = self.tuner.lead().voice_from(*interval, from, *position);
            *position = sung.last().map_or(*position, |last| last.position);
            outputs.push(sung.iter().map(|sung| sung.out).collect());
        }
        self.tuner.forget();
        outputs
    }

    /// The first sample of these files, the lead's and the voices', that is
    /// not what this makes of the take from this sample on.
    pub fn first_difference(&mut self, sung: &[i16], files: &[Vec<i16>]) -> Option<Difference> {
        let from = self.tuner.count();
        let blocks = sung.chunks(LONGEST_BLOCK);
        let right = blocks.map(|block| self.play(block)).collect::<Vec<_>>();
        for sample in 0..sung.len() {
            for (file, is) in files.iter().enumerate() {
                let should_be = right[sample / LONGEST_BLOCK][file][sample % LONGEST_BLOCK];
                if is[sample] != should_be {
                    return Some(Difference {
                        file,
                        sample: from + sample,
                        is: is[sample],
                        should_be,
                    });
                }
            }
        }
        None
    }
}

#[cfg(test)]
mod tests {
    use super::*;
    use crate::generator::cases::sung;
    use crate::smf::Key;
    use crate::table::{CD, FILM};

    /// What it forgets is not missed: it plays as the tuner that keeps all.
    #[test]
    fn it_plays_as_the_ensemble_does() {
        let intervals = [4, -12, 7];
        let sung = sung();
        for hertz in [CD, FILM] {
            let (_, mut ensemble) = Ensemble::start(hertz, Settings::DEFAULT, None, &intervals);
            let mut player = Player::start(hertz, Settings::DEFAULT, &intervals).unwrap();
            for (number, block) in sung.chunks(LONGEST_BLOCK).enumerate() {
                let mut lead = vec![0; block.len()];
                let mut voices = vec![vec![0; block.len()]; 3];
                let seen = &mut Statistics::default();
                ensemble.block(number as u16, block, &mut lead, &mut voices, seen);
                let right = [vec![lead], voices].concat();
                assert_eq!(player.play(block), right);
            }
        }
    }

    #[test]
    fn the_first_difference_is_found() {
        let sung = sung();
        let start = || Player::start(CD, Settings::DEFAULT, &[5]).unwrap();
        let play = |player: &mut Player| -> Vec<Vec<i16>> {
            let blocks = sung.chunks(LONGEST_BLOCK).map(|block| player.play(block));
            blocks.fold(vec![vec![]; 2], |mut all, block| {
                for (all, block) in all.iter_mut().zip(block) {
                    all.extend(block);
                }
                all
            })
        };
        let mut files = play(&mut start());
        assert_eq!(start().first_difference(&sung, &files), None);
        for (file, sample) in [(0, 0), (1, 600), (0, sung.len() - 1), (1, 20_000)] {
            files[file][sample] ^= 1;
            let difference = start().first_difference(&sung, &files);
            let is = files[file][sample];
            let right = Difference {
                file,
                sample,
                is,
                should_be: is ^ 1,
            };
            assert_eq!(difference, Some(right));
            files[file][sample] ^= 1;
        }
    }

    /// Keys come before their samples, wherever blocks are cut.
    #[test]
    fn it_plays_by_keys() {
        let sung = sung();
        let keys = [(0, 57), (700, 60), (20_000, 64)];
        let down = |(sample, key)| Key {
            sample,
            key,
            down: true,
        };
        let settings = Settings {
            mode: KEYBOARD,
            ..Settings::DEFAULT
        };
        let (_, mut ensemble) = Ensemble::start(CD, settings, None, &[7]);
        let (mut right, seen) = (vec![vec![]; 2], &mut Statistics::default());
        for (number, block) in sung.chunks(100).enumerate() {
            for (_, key) in keys.iter().filter(|(at, _)| *at == 100 * number as u64) {
                ensemble.lead.midi(&[0x90, *key, 100], seen);
            }
            let mut outputs = vec![vec![0; block.len()]; 2];
            let (lead, voices) = outputs.split_at_mut(1);
            ensemble.block(number as u16, block, &mut lead[0], voices, seen);
            for (right, output) in right.iter_mut().zip(outputs) {
                right.extend(output);
            }
        }
        let wanted = Wanted::exact(keys.map(down).to_vec());
        let mut player = Player::by_keys(CD, Settings::DEFAULT, &[7], wanted).unwrap();
        assert_eq!(player.first_difference(&sung, &right), None);
    }

    #[test]
    fn what_a_start_refuses() {
        let start = |settings, intervals: &[i32]| Player::start(CD, settings, intervals).err();
        assert_eq!(start(Settings::of([0, 100, 0, 100]), &[]), Some(8));
        assert_eq!(start(Settings::DEFAULT, &[13]), Some(18));
        assert_eq!(start(Settings::DEFAULT, &[0; 4]), Some(19));
        assert_eq!(start(Settings::DEFAULT, &[0; 3]), None);
    }
}
