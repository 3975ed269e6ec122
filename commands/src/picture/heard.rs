//! A take as the proved calls hear it: all that is drawn of it. No other part of
//! the picture calls them.

use crate::delivery::{Delivery, Part};
use crate::midi::by_keys;
use crate::octave::{held, Held, ALL};
use crate::rows::{rows, Listed, Row};
use crate::settings;
use crate::song::{Played, Song};
use crate::source::Source;
use crate::tune::{latency, starts};
use daxfolin::wave;
use daxfolin::{Meter, Settings, CD, LONGEST_BLOCK, TAKEN};
use std::ops::RangeInclusive;
use words::end::End;
use words::request::Take;
use words::signals::ended;

/// A point comes after so many samples, and one at the take's end.
const STRETCH: u64 = 256;

/// What the meter shows at the end of a stretch, and what the stretch had.
#[derive(Clone, Copy, Debug, Default, PartialEq)]
pub struct Point {
    /// In samples; 0 where there is none.
    pub period: f32,
    /// Likewise.
    pub wanted: f32,
    pub rate: f32,
    /// The root of the mean square of the samples, 1 at full scale.
    pub level: f32,
    pub repeated: u32,
    pub dropped: u32,
}

impl Point {
    /// A period as a note number, 60 for middle C.
    fn note(hertz: u32, period: f64) -> f64 {
        69.0 + 12.0 * (f64::from(hertz) / period / 440.0).log2()
    }

    /// The note sung.
    pub fn sung(&self, hertz: u32) -> Option<f64> {
        let period = f64::from(self.period);
        (period > 0.0).then(|| Point::note(hertz, period))
    }

    /// The note given out: that of the period as it is read.
    pub fn given(&self, hertz: u32) -> Option<f64> {
        let period = f64::from(self.period) / f64::from(self.rate);
        (self.period > 0.0).then(|| Point::note(hertz, period))
    }

    /// How far above the wanted note it was sung.
    pub fn cents(&self) -> Option<f64> {
        let both = self.period > 0.0 && self.wanted > 0.0;
        both.then(|| 1200.0 * (f64::from(self.wanted) / f64::from(self.period)).log2())
    }
}

/// A take as it is heard.
pub struct Heard {
    pub hertz: u32,
    pub samples: u64,
    pub settings: Settings,
    pub voices: Vec<i32>,
    /// The notes that are wanted anywhere, as a scale has them.
    wanted: u32,
    pub points: Vec<Point>,
    /// The wanted notes.
    pub rows: Vec<Row>,
    /// The notes sung: the nearest of all twelve.
    pub sung: Vec<Row>,
    /// The keys as they were delivered; none without a line.
    pub keys: Option<Vec<Held>>,
    /// At the ends of blocks, in samples: the mean, and the greatest.
    pub latency: [u64; 2],
}

impl Heard {
    /// The last sample of a point's stretch is the one before this.
    pub fn end(&self, point: usize) -> u64 {
        (STRETCH * (point as u64 + 1)).min(self.samples)
    }

    /// Each point, and how many samples its stretch has.
    pub fn stretches(&self) -> impl Iterator<Item = (u64, &Point)> {
        let begin = |at: usize| STRETCH * at as u64;
        let points = self.points.iter().enumerate();
        points.map(move |(at, point)| (self.end(at) - begin(at), point))
    }

    /// The points whose stretches end within these samples, by their places.
    pub fn points_within(&self, from: u64, to: u64) -> std::ops::Range<usize> {
        let last = match to >= self.samples {
            true => self.points.len(),
            false => (to / STRETCH) as usize,
        };
        (from / STRETCH) as usize..last
    }

    /// Whether this note is wanted anywhere: it is of the scale, or a key of the line.
    pub fn wants(&self, note: i64) -> bool {
        self.wanted >> note.rem_euclid(12) & 1 == 1
    }

    /// The note of a voice beside a wanted one; none outside of the table, where it is silent.
    pub fn voice(&self, note: u8, interval: i32) -> Option<u8> {
        let note = i32::from(note) + interval;
        let within = table(self.hertz).contains(&note);
        within.then_some(note as u8)
    }
}

/// The notes of the table (`firstNote` and `notes` in the rules).
fn table(hertz: u32) -> RangeInclusive<i32> {
    match hertz {
        CD => 32..=100,
        _ => 33..=102,
    }
}

/// A take whose settings and voices are taken, before its first sample.
pub struct Started {
    pub take: wave::Take,
    settings: Settings,
    voices: Vec<i32>,
    tuner: Listed,
}

impl Started {
    pub fn of(source: &Source, how: &Take, song: Option<&Song>) -> Result<Started, End> {
        let (take, _) = source.take()?;
        let settings = settings(how, take.hertz);
        let wanted = match song {
            Some(_) => by_keys(settings),
            None => settings,
        };
        let voices = how.voices.clone();
        // the lead is the same without voices, and these are only asked for
        starts(take.hertz, wanted, &voices)?;
        let tuner = Listed::start(take.hertz, wanted).map_err(|number| source.refused(number))?;
        Ok(Started {
            take,
            settings,
            voices,
            tuner,
        })
    }

    /// The whole take, each key before its sample.
    pub fn hear(
        self,
        program: &'static str,
        source: &Source,
        song: Option<&Song>,
    ) -> Result<Heard, End> {
        let (take, settings) = (&self.take, self.settings);
        let played = song.map(|song| song.played(program, source, take, settings));
        let played = played.transpose()?;
        let keys = played.as_ref().map(|played| held(&played.keys));
        let mut hearing = Hearing::of(self.tuner);
        hearing.all(program, source, take, played.as_ref())?;
        let rows = hearing.tuner.rows();
        let all = Settings {
            scale: ALL,
            ..settings
        };
        let sung = match keys.is_none() && settings == all {
            true => rows.clone(),
            false => self::rows(program, source, take, all)?,
        };
        source.unchanged()?;
        if let Some(played) = &played {
            played.remark(program, source);
        }
        let classes = |keys: &Vec<Held>| {
            keys.iter()
                .fold(0, |mask, held| mask | 1 << (held.key % 12))
        };
        let [sum, farthest] = hearing.behind;
        Ok(Heard {
            hertz: take.hertz,
            samples: take.count,
            settings,
            voices: self.voices,
            wanted: keys.as_ref().map_or(settings.scale, classes),
            points: hearing.points,
            rows,
            sung,
            keys,
            latency: [sum / hearing.blocks.max(1), farthest].map(latency),
        })
    }
}

/// A take while it is heard.
struct Hearing {
    tuner: Listed,
    /// The next block's number.
    number: u16,
    /// Samples so far.
    at: u64,
    /// The stretch so far, its squares summed up beside it.
    now: Point,
    squares: i64,
    points: Vec<Point>,
    blocks: u64,
    /// How far the read position lay behind the input at the end of each block: the sum, and the farthest, in units.
    behind: [u64; 2],
}

impl Hearing {
    fn of(tuner: Listed) -> Hearing {
        Hearing {
            tuner,
            number: 0,
            at: 0,
            now: Point::default(),
            squares: 0,
            points: Vec::new(),
            blocks: 0,
            behind: [0; 2],
        }
    }

    fn all(
        &mut self,
        program: &'static str,
        source: &Source,
        take: &wave::Take,
        played: Option<&Played>,
    ) -> Result<(), End> {
        let mut delivery = Delivery::of(played.map_or(&[], |played| &played.keys));
        source.blocks(program, take, |_, sung| {
            ended()?;
            let heard = delivery.give(sung, |part| self.part(part));
            heard.map_err(|number| source.refused(number))?;
            self.block_ends();
            Ok(())
        })?;
        match self.at % STRETCH {
            0 => {}
            rest => self.stretch_ends(rest),
        }
        Ok(())
    }

    fn part(&mut self, part: Part) -> Result<(), u32> {
        match part {
            Part::Keys(bytes) => taken(self.tuner.midi(bytes)),
            Part::Block(_, sung) => self.stretches(sung),
        }
    }

    /// Cut where stretches end. How a take is cut alters nothing.
    fn stretches(&mut self, mut sung: &[i16]) -> Result<(), u32> {
        while !sung.is_empty() {
            let until = (STRETCH - self.at % STRETCH) as usize;
            let (now, rest) = sung.split_at(sung.len().min(until));
            self.block(now)?;
            if self.at % STRETCH == 0 {
                self.stretch_ends(STRETCH);
            }
            sung = rest;
        }
        Ok(())
    }

    fn block(&mut self, sung: &[i16]) -> Result<(), u32> {
        let answer = self.tuner.block(self.number, sung, &mut [0; LONGEST_BLOCK]);
        taken(answer.number)?;
        // numbers of blocks begin again after 65535
        self.number = self.number.wrapping_add(1);
        self.at += sung.len() as u64;
        self.now.repeated += u32::from(answer.repeated);
        self.now.dropped += u32::from(answer.dropped);
        self.squares += sung
            .iter()
            .map(|sample| i64::from(*sample).pow(2))
            .sum::<i64>();
        Ok(())
    }

    fn stretch_ends(&mut self, samples: u64) {
        let mut point = std::mem::take(&mut self.now);
        let square = std::mem::take(&mut self.squares) as f64 / samples as f64;
        point.level = (square.sqrt() / 32_768.0) as f32;
        if let Meter::Pitched {
            period,
            wanted,
            rate,
        } = self.tuner.meter()
        {
            (point.period, point.wanted, point.rate) = (period, wanted, rate);
        }
        self.points.push(point);
    }

    /// As `daxfolin tune` has it.
    fn block_ends(&mut self) {
        let ([sum, farthest], behind) = (self.behind, self.tuner.behind());
        self.blocks += 1;
        self.behind = [sum + behind, farthest.max(behind)];
    }
}

fn taken(number: u32) -> Result<(), u32> {
    match number {
        TAKEN => Ok(()),
        number => Err(number),
    }
}
