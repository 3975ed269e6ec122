//! The meter through a take: searching, locking, pitched, lost; drawn to the
//! keyboard; and at either sample rate.

use independent::rules::{raw_rate, smoothed_rate};
use independent::settings::{Settings, KEYBOARD, SCALE};
use independent::statistics::Statistics;
use independent::table::{CD, FILM};
use independent::tuner::{Answer, Figures, Meter, Tuner};

/// A tuner fed one sample a block.
struct Take {
    tuner: Tuner,
    number: u16,
    seen: Statistics,
}

impl Take {
    fn begin(settings: Settings) -> Take {
        Take::begin_at(CD, settings)
    }

    fn begin_at(hertz: u32, settings: Settings) -> Take {
        let (answer, tuner) = Tuner::start(hertz, settings);
        assert_eq!(answer, Answer::Taken);
        Take {
            tuner,
            number: 0,
            seen: Statistics::default(),
        }
    }

    fn hear(&mut self, sample: i16) -> Meter {
        let (answer, _) = self
            .tuner
            .block(self.number, &[sample], &mut [0], &mut self.seen);
        assert_eq!(answer, Answer::Taken);
        self.number = self.number.wrapping_add(1);
        self.tuner.meter()
    }
}

/// A square wave of 96 samples, a multiple of 8 and of no other cycle.
fn square(at: usize) -> i16 {
    if at % 96 < 48 {
        8_000
    } else {
        -8_000
    }
}

#[test]
fn searching_locking_pitched_lost() {
    let mut take = Take::begin(Settings::AT_ONCE);
    let meters: Vec<Meter> = (0..600).map(|at| take.hear(square(at))).collect();
    let locking = meters
        .iter()
        .position(|&meter| meter != Meter::Searching)
        .unwrap();
    // Found after a multiple of 8 samples; the step comes at the next
    // multiple of 5.
    let count = locking + 1;
    assert_eq!(count % 8, 0);
    let step = count + 5 - count % 5;
    assert!(meters[locking..step - 1]
        .iter()
        .all(|&meter| meter == Meter::Locking(96.0)));
    // Period 96 is 24576 units; the nearest note is 70 with 24218.
    let pitched = Meter::Pitched(Figures {
        period: 96.0,
        wanted_period: 24_218.0 / 256.0,
        rate: 66_505.0 / 65_536.0,
    });
    assert_eq!(meters[599], pitched);
    // Other settings show at the next step, not before.
    let mut settings = Settings::AT_ONCE;
    settings.scale = 1 << (69 % 12);
    settings.decay = 128;
    assert_eq!(take.tuner.change(settings), Answer::Taken);
    for at in 600..604 {
        assert_eq!(take.hear(square(at)), pitched);
    }
    // Raw rate 24576 x 65536 / 25658 = 62772.3; half of that and of 66505.
    let figures = Figures {
        period: 96.0,
        wanted_period: 25_658.0 / 256.0,
        rate: 64_638.0 / 65_536.0,
    };
    assert_eq!(take.hear(square(604)), Meter::Pitched(figures));
    // Silence: lost at a multiple of 5.
    let lost = (605..2_000)
        .find(|_| take.hear(0) == Meter::Searching)
        .unwrap();
    assert_eq!((lost + 1) % 5, 0);
    assert_eq!(take.tuner.reset(), Answer::Taken);
    assert_eq!(take.tuner.meter(), Meter::Searching);
}

impl Take {
    fn hear_next(&mut self) -> Meter {
        self.hear(square(usize::from(self.number)))
    }

    /// Hears up to the next tracking step, before which nothing may change, and
    /// gives the figures after it: period and wanted period in 1/256 sample,
    /// and the rate in 1/65536.
    fn step(&mut self) -> [i64; 3] {
        let before = self.tuner.meter();
        while self.number % 5 < 4 {
            assert_eq!(self.hear_next(), before);
        }
        let Meter::Pitched(figures) = self.hear_next() else {
            panic!("the wave is tracked");
        };
        let Figures {
            period,
            wanted_period,
            rate,
        } = figures;
        [period * 256.0, wanted_period * 256.0, rate * 65_536.0].map(|figure| figure as i64)
    }

    /// The next step wants this period, and the rate is right for it.
    fn is_drawn_to(&mut self, wanted: i64) {
        let [period, wanted_period, rate] = self.step();
        assert_eq!(wanted_period, wanted);
        assert_eq!(rate, raw_rate(period, wanted));
    }

    /// The next step wants this period, and the rate is level.
    fn is_level(&mut self, wanted: i64) {
        let [_, wanted_period, rate] = self.step();
        assert_eq!((wanted_period, rate), (wanted, 65_536));
    }

    fn play(&mut self, bytes: &[u8]) {
        let before = self.tuner.meter();
        assert_eq!(self.tuner.midi(bytes, &mut self.seen), Answer::Taken);
        assert_eq!(self.tuner.meter(), before);
    }

    fn change(&mut self, alter: fn(&mut Settings), settings: &mut Settings) {
        alter(settings);
        assert_eq!(self.tuner.change(*settings), Answer::Taken);
    }
}

/// A take that is pitched at period 96, about.
fn pitched(settings: Settings) -> Take {
    pitched_at(CD, settings)
}

fn pitched_at(hertz: u32, settings: Settings) -> Take {
    let mut take = Take::begin_at(hertz, settings);
    for _ in 0..600 {
        take.hear_next();
    }
    take
}

/// Settings in keyboard mode.
fn played() -> Settings {
    let mut settings = Settings::AT_ONCE;
    settings.mode = KEYBOARD;
    settings
}

/// The key counts from the next tracking step on, and as it then stands.
#[test]
fn drawn_to_the_keyboard() {
    let mut take = pitched(played());
    take.is_level(0);
    take.play(&[144, 69, 100]);
    take.is_drawn_to(25_658);
    take.is_drawn_to(25_658);
    // Struck and released between steps, and struck again.
    take.play(&[69, 1, 69, 0]);
    take.is_level(0);
    take.play(&[69, 1, 69, 0, 70, 1]);
    take.is_drawn_to(24_218);
    // The latest key is released, and an older one is still down.
    take.play(&[69, 1]);
    take.play(&[69, 0]);
    take.is_level(0);
}

/// Outside the table there is no wanted period; too far off, the key's, but no
/// rate to go with it.
#[test]
fn drawn_to_keys_that_are_far() {
    let mut take = pitched(played());
    take.play(&[144]);
    for outside in [0, 31, 101, 127] {
        take.play(&[outside, 1]);
        take.is_level(0);
        take.play(&[70, 1]);
        take.is_drawn_to(24_218);
    }
    for (near, wanted) in [(58, 48_436), (81, 12_829)] {
        take.play(&[near, 1]);
        take.is_drawn_to(wanted);
    }
    for (far, wanted) in [(57, 51_316), (82, 12_109), (32, 217_471), (100, 4_281)] {
        take.play(&[far, 1]);
        take.is_level(wanted);
    }
}

/// Level is smoothed toward like any other raw rate.
#[test]
fn the_rate_glides_where_no_key_is_held() {
    let mut settings = played();
    let mut take = pitched(settings);
    take.play(&[144, 69, 100]);
    let [_, _, drawn] = take.step();
    take.change(|settings| settings.decay = 128, &mut settings);
    take.play(&[69, 0]);
    let once = (128 * drawn + 128 * 65_536) / 256;
    assert_eq!(take.step()[1..], [0, once]);
    assert_eq!(take.step()[1..], [0, (128 * once + 128 * 65_536) / 256]);
}

/// Keys are followed in scale mode, and count when the mode does.
#[test]
fn changes_of_mode_and_channel() {
    let mut settings = Settings::AT_ONCE;
    let mut take = pitched(settings);
    take.play(&[144, 69, 100]);
    take.is_drawn_to(24_218);
    take.change(|settings| settings.mode = KEYBOARD, &mut settings);
    take.is_drawn_to(25_658);
    // The same channel keeps the key, another forgets it, and so does going back.
    take.change(|settings| settings.channel = 0, &mut settings);
    take.is_drawn_to(25_658);
    take.change(|settings| settings.channel = 3, &mut settings);
    take.is_level(0);
    take.play(&[147, 69, 1, 144, 70, 1]);
    take.is_drawn_to(25_658);
    take.change(|settings| settings.channel = 0, &mut settings);
    take.change(|settings| settings.channel = 3, &mut settings);
    take.play(&[69, 1]);
    take.is_level(0);
    take.change(|settings| settings.mode = SCALE, &mut settings);
    take.is_drawn_to(24_218);
}

/// A reset keeps mode and channel, and forgets key, running status and half
/// message.
#[test]
fn a_reset_forgets_the_key() {
    let mut settings = played();
    settings.channel = 5;
    let fresh = Take::begin(settings).tuner;
    let mut take = Take::begin(settings);
    take.play(&[149, 69, 100, 70]);
    assert!(take.tuner != fresh);
    assert_eq!(take.tuner.reset(), Answer::Taken);
    assert!(take.tuner == fresh);
    take.play(&[]);
    assert!(take.tuner == fresh);
}

/// Period 96 is nearest to note 70 at 44,100, and to note 71 at 48,000.
#[test]
fn drawn_to_the_notes_of_the_rate() {
    pitched_at(CD, Settings::AT_ONCE).is_drawn_to(24_218);
    let mut take = pitched_at(FILM, Settings::AT_ONCE);
    take.is_drawn_to(24_880);
    let figures = Figures {
        period: 96.0,
        wanted_period: 24_880.0 / 256.0,
        rate: 64_735.0 / 65_536.0,
    };
    assert_eq!(take.tuner.meter(), Meter::Pitched(figures));
}

/// A change, bytes of the keyboard and a reset keep the rate; a start does not.
#[test]
fn the_rate_changes_by_a_start_alone() {
    let mut settings = Settings::AT_ONCE;
    let mut take = pitched_at(FILM, settings);
    take.change(|settings| settings.scale = 1 << (69 % 12), &mut settings);
    take.is_drawn_to(27_927);
    take.change(|settings| settings.mode = KEYBOARD, &mut settings);
    take.play(&[144, 70, 100]);
    take.is_drawn_to(26_360);
    assert_eq!(take.tuner.reset(), Answer::Taken);
    assert!(take.tuner == Tuner::start(FILM, settings).1);
    assert!(take.tuner != Tuner::start(CD, settings).1);
    take.number = 0;
    take.play(&[144, 70, 100]);
    for _ in 0..600 {
        take.hear_next();
    }
    take.is_drawn_to(26_360);
    let mut take = pitched_at(CD, settings);
    take.play(&[144, 70, 100]);
    take.is_drawn_to(24_218);
}

/// Keys at the ends of both tables: key 32 is in that of 44,100 alone, 101 and
/// 102 are in that of 48,000 alone. All are too far off for a rate.
#[test]
fn keys_at_the_ends_of_the_tables() {
    let ends = [
        (CD, [0, 217_471, 205_265, 4_281, 0, 0, 0]),
        (FILM, [0, 0, 223_418, 4_660, 4_398, 4_151, 0]),
    ];
    for (hertz, wanted) in ends {
        let mut take = pitched_at(hertz, played());
        for (key, wanted) in [31, 32, 33, 100, 101, 102, 103].into_iter().zip(wanted) {
            take.play(&[144, key, 1]);
            take.is_level(wanted);
        }
    }
}

/// A tuner started without settings glides to its goal, and is there after some
/// steps; decay 0 has to be sent.
#[test]
fn the_default_start_glides() {
    let mut take = Take::begin(Settings::DEFAULT);
    assert!(take.tuner == Tuner::default_start());
    while !matches!(take.tuner.meter(), Meter::Locking(_)) {
        take.hear_next();
    }
    while !take.number.is_multiple_of(5) {
        take.hear_next();
    }
    // Toward 66505: (230 x 65536 + 26 x 66505) / 256 is 65634.4.
    let (first, kept) = smoothed_rate(230, 65_536, 66_505, 0);
    assert_eq!(first, 65_634);
    let (second, _) = smoothed_rate(230, first, 66_505, kept);
    assert_eq!(take.step()[1..], [24_218, second]);
    let steps = (0..200).position(|_| take.step()[2] == 66_505);
    assert!(steps.is_some_and(|steps| steps > 20), "{steps:?} steps");
    let mut take = Take::begin(Settings::DEFAULT);
    assert_eq!(take.tuner.change(Settings::AT_ONCE), Answer::Taken);
    assert!(take.tuner == Take::begin(Settings::AT_ONCE).tuner);
}

/// Silence, where D = E = 0, never passes.
#[test]
fn silence_is_never_found() {
    let mut settings = Settings::AT_ONCE;
    (settings.eps, settings.floor) = (409, 1);
    let mut take = Take::begin(settings);
    assert!((0..3_000).all(|_| take.hear(0) == Meter::Searching));
    assert_eq!(take.seen.searches_without_low, 375);
}

/// A soft tail after a loud passage is found as it would be alone.
#[test]
fn soft_after_loud() {
    let mut settings = Settings::AT_ONCE;
    settings.floor = 1;
    let mut take = Take::begin(settings);
    for at in 0..3_000 {
        take.hear(if at % 64 < 32 { 32_767 } else { -32_768 });
    }
    let soft = |at: usize| if at % 96 < 48 { 2 } else { -2 };
    let mut meter = Meter::Searching;
    for at in 0..3_000 {
        meter = take.hear(soft(at));
    }
    let figures = Figures {
        period: 96.0,
        wanted_period: 24_218.0 / 256.0,
        rate: 66_505.0 / 65_536.0,
    };
    assert_eq!(meter, Meter::Pitched(figures));
}
