//! How often each branch of documents 01 and 02 was gone through. It only
//! looks on.

use crate::keyboard::{Event, Keyboard, Message};
use crate::list::{List, Row};
use crate::report::{Figures, Sounded, MOST_TAKES};
use crate::rules::*;
use crate::settings::Settings;
use crate::table::{notes_at, CD, FILM};
use crate::tuner::{Answer, Mode, Standing};
use std::fmt;

/// Numbers of answers, 10 for a line that cannot be read among them.
pub const ANSWERS: usize = 17;

/// The sample rates, and the keys at the ends of the tables there, inside and
/// outside.
const RATES: [u32; 2] = [CD, FILM];
const END_KEYS: [usize; 6] = [32, 33, 100, 101, 102, 103];

/// A struct of counters, and beside them what is counted in another way.
macro_rules! counters {
    ($name:ident: $($(#[$meaning:meta])* $counter:ident,)*; $($(#[$other:meta])* $field:ident: $type:ty,)*) => {
        #[derive(Clone, Debug, Default, PartialEq, Eq)]
        pub struct $name {
            $($(#[$meaning])* pub $counter: u64,)*
            $($(#[$other])* pub $field: $type,)*
        }

        impl $name {
            /// The counters with their names.
            fn named(&self) -> Vec<(String, u64)> {
                vec![$((stringify!($counter).to_string(), self.$counter),)*]
            }

            fn add_named(&mut self, other: &$name) {
                $(self.$counter += other.$counter;)*
            }
        }
    };
}
pub(crate) use counters;

counters! {
    Statistics:
    searches_without_low,
    /// L1 < 55 and no L2.
    searches_without_second_low,
    /// L1 >= 55.
    finds_by_long_low,
    /// 8 x L1, of the smaller D.
    finds_by_first_low,
    /// 8 x L2, of the smaller D.
    finds_by_second_low,
    /// 8 x L1, both D being equal.
    finds_tied,
    /// Lows with D(L) = D(L+1).
    lows_level_with_next,
    /// Losses go by the first test that fails: eps, floor, jump.
    losses_by_eps,
    losses_by_floor,
    losses_by_jump,
    /// Successful tracking steps; what follows counts in these alone.
    steps,
    bests_tied,
    bests_first_of_eight,
    bests_last_of_eight,
    vertices,
    vertices_at_exact_half,
    offsets_of_minus_128,
    offsets_of_plus_128,
    periods_of_4096,
    periods_of_225280,
    moves_down,
    moves_up,
    moves_stopped_at_16,
    moves_stopped_at_880,
    /// At the other rate than 44,100.
    steps_at_48000,
    /// In scale mode, by the notes at the ends of a table.
    notes_of_32_at_44100,
    notes_of_100_at_44100,
    notes_of_33_at_48000,
    notes_of_101_at_48000,
    notes_of_102_at_48000,
    /// In scale mode: two notes of the scale are nearest.
    notes_tied,
    /// In scale mode, with a key held.
    steps_past_a_key,
    /// In keyboard mode, from here on to the raw rates.
    steps_without_key,
    steps_with_key_below_table,
    steps_with_key_above_table,
    /// With a key of the table and a raw rate within its bounds.
    steps_by_key,
    raw_rates_too_low,
    raw_rates_too_high,
    raw_rates_of_32767,
    raw_rates_of_32768,
    /// Below 32,768 before it is rounded.
    raw_rates_rounded_to_32768,
    raw_rates_of_131072,
    raw_rates_of_131073,
    /// At the decay of a start without settings.
    steps_at_default_decay,
    /// Something was kept and is added; and the rate is one higher for it.
    remainders_added,
    rates_raised_by_remainder,
    /// Something was kept, and decay is 0: it stays.
    remainders_past_decay_0,
    /// At a decay above 0, the rate comes to the raw rate, or stays there
    /// with something kept.
    goals_reached_from_below,
    goals_reached_from_above,
    goals_held_over_remainder,
    /// Something was kept, and another note is wanted than at the last step.
    notes_changed_over_remainder,
    /// Something was kept, and is cleared.
    remainders_cleared_by_loss,
    remainders_cleared_by_reset,
    remainders_cleared_by_start,
    /// Something is kept, and stays so.
    decays_changed_over_remainder,
    modes_changed_over_remainder,
    channels_changed_over_remainder,
    keys_struck_over_remainder,
    keys_released_over_remainder,
    /// The read position just level with the input, while there is a period.
    positions_level,
    /// The read position just 1,000 samples behind, likewise.
    positions_1000_behind,
    cycles_repeated,
    cycles_dropped,
    /// Reads whose second neighbour stands before the take.
    reads_before_take,
    /// Reads beyond their second neighbour.
    reads_between,
    /// Blocks taken: the shortest, the longest, and those that begin between two
    /// searches, or two steps, and not where one has just been.
    blocks_of_1,
    blocks_of_512,
    blocks_begun_between_searches,
    blocks_begun_between_steps,
    /// Values that are held, above 32767 and below -32768.
    values_held_above,
    values_held_below,
    /// Bytes of the keyboard, in both modes.
    bytes_of_real_time,
    /// Between the two data bytes of a message.
    bytes_of_real_time_inside,
    bytes_of_system,
    /// Half messages that a byte of the system ended, and that a status did.
    halves_ended_by_system,
    halves_ended_by_status,
    /// Data without a running status.
    data_passed_over,
    messages_of_one_byte,
    messages_of_other_channels,
    /// Of two data bytes, and not about a key.
    messages_of_other_sorts,
    notes_on,
    /// With another key held.
    notes_on_past_a_key,
    releases_by_note_off,
    releases_by_velocity_0,
    /// Of a key that is not the latest.
    releases_of_other_keys,
    calls_ending_in_half,
    /// What a reset and a new channel forgot.
    keys_forgotten_by_reset,
    keys_forgotten_by_channel,
    halves_forgotten_by_reset,
    halves_forgotten_by_channel,
    /// Starts that are taken: without a rate on the line, and with each.
    starts_without_rate,
    starts_at_44100,
    starts_at_48000,
    /// To another rate than before; down also where the line has none.
    rates_raised_by_start,
    rates_lowered_by_start,
    rates_lowered_without_rate,
    /// Starts at an unknown rate with a bad setting behind it.
    rates_refused_before_settings,
    /// At 48,000, which stays.
    starts_refused_at_48000,
    changes_at_48000,
    resets_at_48000,
    midis_at_48000,
    /// Of the lists of the takes that ended: rows, and those left out.
    rows,
    rows_left_out,
    /// Takes without a row.
    lists_without_row,
    /// A row that begins where the one before it ends; and one behind it, of
    /// the same note, which was lost between them or not wanted.
    rows_without_rest,
    rows_of_the_same_note,
    /// Of one step: the next one wants another note, or loses it.
    rows_of_5_samples,
    /// Of a key outside both tables.
    rows_outside_the_tables,
    /// Something fell between two samples of one row.
    settings_changed_within_row,
    modes_changed_within_row,
    keys_changed_within_row,
    blocks_given_again_within_row,
    /// Samples of the takes that ended, at another rate than 65536.
    samples_at_higher_rate,
    samples_at_lower_rate,
    /// Takes that ended: without a sample; with a period at some samples and
    /// none at others; whose mean has a remainder.
    takes_without_samples,
    takes_pitched_in_part,
    takes_with_remainder,
    /// Inputs that ended, with one take less than a report has, as many, and
    /// one more.
    inputs_of_999_takes,
    inputs_of_1000_takes,
    inputs_of_1001_takes,
    ;
    /// Steps in keyboard mode, by rate and key.
    end_keys: [[u64; END_KEYS.len()]; RATES.len()],
    /// Answers by number.
    answers: [u64; ANSWERS],
    /// In 1/65536 sample, after repeats and drops.
    largest_behind: i64,
}

/// After how many samples of a take something fell between two of them.
#[derive(Default)]
pub struct Between {
    settings: Vec<usize>,
    modes: Vec<usize>,
    keys: Vec<usize>,
    pub repeats: Vec<usize>,
}

impl Between {
    /// What differs after so many samples.
    pub fn look(&mut self, count: usize, before: &Standing, after: &Standing) {
        let (old, new) = (before.settings, after.settings);
        let four = |of: Settings| [of.scale, of.eps, of.decay, of.floor];
        if four(old) != four(new) {
            self.settings.push(count);
        }
        if old.mode != new.mode {
            self.modes.push(count);
        }
        if before.keyboard.key != after.keyboard.key {
            self.keys.push(count);
        }
    }
}

/// 1 at the rate 48,000, and else 0.
fn at_48000(hertz: u32) -> u64 {
    u64::from(hertz == FILM)
}

impl Statistics {
    /// Every counter with its name, the answers last.
    pub fn counters(&self) -> Vec<(String, u64)> {
        let mut counters = self.named();
        for (hertz, counts) in RATES.iter().zip(&self.end_keys) {
            let keys = END_KEYS.iter().zip(counts);
            counters.extend(keys.map(|(key, &count)| (format!("key_{key}_at_{hertz}"), count)));
        }
        let answers = self.answers.iter().enumerate();
        counters.extend(answers.map(|(number, &count)| (format!("answer_{number}"), count)));
        counters
    }

    /// Adds what another run saw.
    pub fn add(&mut self, other: &Statistics) {
        self.add_named(other);
        let ends = self.end_keys.as_flattened_mut().iter_mut();
        let more = other.end_keys.as_flattened().iter().chain(&other.answers);
        for (count, more) in ends.chain(&mut self.answers).zip(more) {
            *count += more;
        }
        self.largest_behind = self.largest_behind.max(other.largest_behind);
    }

    pub fn search(&mut self, lows: &[Low], finding: Finding) {
        let level = lows.iter().filter(|low| low.level_with_next).count();
        self.lows_level_with_next += level as u64;
        *match finding {
            Finding::NoLow => &mut self.searches_without_low,
            Finding::NoSecondLow => &mut self.searches_without_second_low,
            Finding::LongLow(_) => &mut self.finds_by_long_low,
            Finding::FirstLow(_) => &mut self.finds_by_first_low,
            Finding::SecondLow(_) => &mut self.finds_by_second_low,
            Finding::FirstOfEqual(_) => &mut self.finds_tied,
        } += 1;
    }

    /// A loss, with what was kept.
    pub fn loss(&mut self, loss: Loss, kept: i64) {
        *match loss {
            Loss::Eps => &mut self.losses_by_eps,
            Loss::Floor => &mut self.losses_by_floor,
            Loss::Jump => &mut self.losses_by_jump,
        } += 1;
        self.remainders_cleared_by_loss += u64::from(kept > 0);
    }

    pub fn step(&mut self, hertz: u32, step: &Step) {
        let period = step.period();
        self.steps += 1;
        self.steps_at_48000 += at_48000(hertz);
        self.bests_tied += u64::from(step.best_is_tied);
        self.bests_first_of_eight += u64::from(step.best == step.lowest);
        self.bests_last_of_eight += u64::from(step.best == step.lowest + TRACKED - 1);
        if let Some(vertex) = step.vertex {
            self.vertices += 1;
            self.vertices_at_exact_half += u64::from(vertex.is_exact_half());
            self.offsets_of_minus_128 += u64::from(vertex.offset() == -128);
            self.offsets_of_plus_128 += u64::from(vertex.offset() == 128);
        }
        self.periods_of_4096 += u64::from(period == 4_096);
        self.periods_of_225280 += u64::from(period == 225_280);
        match step.moving() {
            Move::Stay => {}
            Move::Down => self.moves_down += 1,
            Move::Up => self.moves_up += 1,
            Move::StoppedAtLowest => self.moves_stopped_at_16 += 1,
            Move::StoppedAtHighest => self.moves_stopped_at_880 += 1,
        }
    }

    /// A step in scale mode, with the key that is held.
    pub fn scale_step(&mut self, hertz: u32, scale: u32, key: Option<usize>, period: i64) {
        let note = wanted_note(hertz, scale, period);
        let least = distance(hertz, note, period);
        let nearest = notes_of(hertz, scale).filter(|&near| distance(hertz, near, period) == least);
        self.notes_tied += u64::from(nearest.count() > 1);
        self.steps_past_a_key += u64::from(key.is_some());
        let at_an_end = match (hertz, note) {
            (CD, 32) => &mut self.notes_of_32_at_44100,
            (CD, 100) => &mut self.notes_of_100_at_44100,
            (FILM, 33) => &mut self.notes_of_33_at_48000,
            (FILM, 101) => &mut self.notes_of_101_at_48000,
            (FILM, 102) => &mut self.notes_of_102_at_48000,
            _ => return,
        };
        *at_an_end += 1;
    }

    /// A step in keyboard mode.
    pub fn keyboard_step(&mut self, hertz: u32, key: Option<usize>, period: i64) {
        let Some(key) = key else {
            self.steps_without_key += 1;
            return;
        };
        if let Some(place) = END_KEYS.iter().position(|&end| end == key) {
            self.end_keys[at_48000(hertz) as usize][place] += 1;
        }
        let notes = notes_at(hertz);
        if key < *notes.start() {
            self.steps_with_key_below_table += 1;
        } else if key > *notes.end() {
            self.steps_with_key_above_table += 1;
        } else {
            self.key_step(period, wanted_period(hertz, Some(key)));
        }
    }

    fn key_step(&mut self, period: i64, wanted_period: i64) {
        let raw = raw_rate(period, wanted_period);
        let exact_is_below = period * LEVEL_RATE < LEAST_RAW_RATE * wanted_period;
        *match raw {
            ..LEAST_RAW_RATE => &mut self.raw_rates_too_low,
            LEAST_RAW_RATE..=GREATEST_RAW_RATE => &mut self.steps_by_key,
            _ => &mut self.raw_rates_too_high,
        } += 1;
        self.raw_rates_of_32767 += u64::from(raw == 32_767);
        self.raw_rates_of_32768 += u64::from(raw == 32_768);
        self.raw_rates_rounded_to_32768 += u64::from(raw == 32_768 && exact_is_below);
        self.raw_rates_of_131072 += u64::from(raw == 131_072);
        self.raw_rates_of_131073 += u64::from(raw == 131_073);
    }

    /// A smoothing: the rate and what was kept, before it and after; and
    /// whether the wanted note is new.
    pub fn smoothing(
        &mut self,
        decay: u32,
        raw: i64,
        (rate, kept): (i64, i64),
        after: (i64, i64),
        new_note: bool,
    ) {
        let (without, _) = smoothed_rate(decay, rate, raw, 0);
        self.steps_at_default_decay += u64::from(decay == Settings::DEFAULT.decay);
        self.remainders_added += u64::from(kept > 0);
        self.rates_raised_by_remainder += u64::from(after.0 > without);
        self.notes_changed_over_remainder += u64::from(kept > 0 && new_note);
        if decay == 0 {
            self.remainders_past_decay_0 += u64::from(kept > 0);
        } else if after.0 == raw {
            self.goals_reached_from_below += u64::from(rate < raw);
            self.goals_reached_from_above += u64::from(rate > raw);
            self.goals_held_over_remainder += u64::from(rate == raw && kept > 0);
        }
    }

    /// A byte of the keyboard, with what stood before it.
    pub fn keyboard_byte(&mut self, before: &Keyboard, byte: u8, event: Event) {
        let half = u64::from(before.half.is_some());
        match event {
            Event::RealTime => {
                self.bytes_of_real_time += 1;
                self.bytes_of_real_time_inside += half;
            }
            Event::System => {
                self.bytes_of_system += 1;
                self.halves_ended_by_system += half;
            }
            Event::Status => self.halves_ended_by_status += half,
            Event::PassedOver => self.data_passed_over += 1,
            Event::First => {}
            Event::Single => self.messages_of_one_byte += 1,
            Event::Second(message) => self.message(before, byte, message),
        }
    }

    fn message(&mut self, before: &Keyboard, second: u8, message: Message) {
        match message {
            Message::OfAnotherChannel => self.messages_of_other_channels += 1,
            Message::Other => self.messages_of_other_sorts += 1,
            Message::OtherRelease => self.releases_of_other_keys += 1,
            Message::NoteOn => {
                self.notes_on += 1;
                self.notes_on_past_a_key += u64::from(before.key.is_some());
            }
            Message::Release => {
                let by_off = before.status.is_some_and(|status| status < 144);
                self.releases_by_note_off += u64::from(by_off);
                self.releases_by_velocity_0 += u64::from(!by_off && second == 0);
            }
        }
    }

    /// A start that was taken, with the rate on its line.
    pub fn start(&mut self, before: &Standing, hertz: Option<u32>) {
        self.remainders_cleared_by_start += u64::from(before.kept > 0);
        match (hertz, before.hertz) {
            (None, FILM) => self.rates_lowered_without_rate += 1,
            (Some(CD), FILM) => self.rates_lowered_by_start += 1,
            (Some(FILM), CD) => self.rates_raised_by_start += 1,
            _ => {}
        }
        *match hertz {
            None => &mut self.starts_without_rate,
            Some(CD) => &mut self.starts_at_44100,
            Some(_) => &mut self.starts_at_48000,
        } += 1;
    }

    /// A start that was refused, with its settings.
    pub fn refused_start(&mut self, before: &Standing, answer: Answer, settings: &Settings) {
        self.starts_refused_at_48000 += at_48000(before.hertz);
        self.rates_refused_before_settings +=
            u64::from(answer == Answer::RateUnknown && !settings.in_range());
    }

    /// A reset that was taken.
    pub fn reset(&mut self, before: &Standing) {
        self.resets_at_48000 += at_48000(before.hertz);
        self.keys_forgotten_by_reset += u64::from(before.keyboard.key.is_some());
        self.halves_forgotten_by_reset += u64::from(before.keyboard.half.is_some());
        self.remainders_cleared_by_reset += u64::from(before.kept > 0);
    }

    /// A change of settings; of a refused one nothing differs.
    pub fn change(&mut self, before: &Standing, after: &Standing) {
        let forgotten = u64::from(before.keyboard != after.keyboard);
        self.keys_forgotten_by_channel += forgotten * u64::from(before.keyboard.key.is_some());
        self.halves_forgotten_by_channel += forgotten * u64::from(before.keyboard.half.is_some());
        let kept = u64::from(after.kept > 0);
        let (old, new) = (&before.settings, &after.settings);
        self.changes_at_48000 += u64::from(old != new) * at_48000(after.hertz);
        self.decays_changed_over_remainder += kept * u64::from(old.decay != new.decay);
        self.modes_changed_over_remainder += kept * u64::from(old.mode != new.mode);
        self.channels_changed_over_remainder += kept * u64::from(old.channel != new.channel);
    }

    /// Bytes of the keyboard, all of a call.
    pub fn midi(&mut self, before: &Standing, after: &Standing) {
        self.midis_at_48000 += at_48000(after.hertz);
        let kept = u64::from(after.kept > 0);
        let (old, new) = (before.keyboard.key, after.keyboard.key);
        self.keys_struck_over_remainder += kept * u64::from(new.is_some() && new != old);
        self.keys_released_over_remainder += kept * u64::from(old.is_some() && new.is_none());
    }

    pub fn reading(&mut self, cycle: Cycle, position: i64, input: i64, period: Option<i64>) {
        let behind = input - position;
        if period.is_some() {
            self.positions_level += u64::from(behind == 0);
            self.positions_1000_behind += u64::from(behind == FARTHEST_BEHIND);
        }
        match cycle {
            Cycle::Kept => {}
            Cycle::Repeated => self.cycles_repeated += 1,
            Cycle::Dropped => self.cycles_dropped += 1,
        }
        self.reads_before_take += u64::from(read_index(position) < 0);
        self.reads_between += u64::from(read_steps(position) > 0);
        self.largest_behind = self.largest_behind.max(behind);
    }

    /// A block of this length, taken after so many samples.
    pub fn block(&mut self, length: usize, count: usize, mode: Mode) {
        self.blocks_of_1 += u64::from(length == 1);
        self.blocks_of_512 += u64::from(length == LONGEST_BLOCK);
        let (counter, apart) = match mode {
            Mode::Searching => (&mut self.blocks_begun_between_searches, 8),
            Mode::Tracking(_) => (&mut self.blocks_begun_between_steps, 5),
        };
        *counter += u64::from(!count.is_multiple_of(apart));
    }

    /// The list of a take, and what fell between the take's samples.
    pub fn list(&mut self, list: &List, between: &Between) {
        let rows = &list.rows;
        self.rows += rows.len() as u64;
        self.rows_left_out += list.left as u64;
        self.lists_without_row += u64::from(rows.is_empty());
        for pair in rows.windows(2) {
            self.rows_without_rest += u64::from(pair[1].first == pair[0].end());
            self.rows_of_the_same_note += u64::from(pair[1].note == pair[0].note);
        }
        for row in rows {
            self.rows_of_5_samples += u64::from(row.length == 5);
            self.rows_outside_the_tables += u64::from(row.note < 32 || row.note > 102);
        }
        self.settings_changed_within_row += within(rows, &between.settings);
        self.modes_changed_within_row += within(rows, &between.modes);
        self.keys_changed_within_row += within(rows, &between.keys);
        self.blocks_given_again_within_row += within(rows, &between.repeats);
    }

    /// What a report counts of a take, and its figures.
    pub fn take(&mut self, take: &[Sounded], figures: &Figures) {
        for sample in take {
            self.samples_at_higher_rate += u64::from(sample.rate > LEVEL_RATE);
            self.samples_at_lower_rate += u64::from(sample.rate < LEVEL_RATE);
        }
        let Figures {
            samples, pitched, ..
        } = *figures;
        self.takes_without_samples += u64::from(samples == 0);
        self.takes_pitched_in_part += u64::from((1..samples).contains(&pitched));
        self.takes_with_remainder += u64::from(figures.mean().1 > 0);
    }

    /// An input of so many takes.
    pub fn input(&mut self, takes: usize) {
        self.inputs_of_999_takes += u64::from(takes + 1 == MOST_TAKES);
        self.inputs_of_1000_takes += u64::from(takes == MOST_TAKES);
        self.inputs_of_1001_takes += u64::from(takes == MOST_TAKES + 1);
    }

    pub fn value(&mut self, value: i64) {
        self.values_held_above += u64::from(value > i64::from(held(value)));
        self.values_held_below += u64::from(value < i64::from(held(value)));
    }
}

/// How often the samples on both sides of such a place are in one row.
fn within(rows: &[Row], places: &[usize]) -> u64 {
    let inside = |place: &&usize| {
        let behind = rows.partition_point(|row| row.end() <= **place);
        rows.get(behind).is_some_and(|row| row.first < **place)
    };
    places.iter().filter(inside).count() as u64
}

/// One line a counter: its name, a tab, its count.
impl fmt::Display for Statistics {
    fn fmt(&self, to: &mut fmt::Formatter) -> fmt::Result {
        for (name, count) in self.counters() {
            writeln!(to, "{name:<31}\t{count}")?;
        }
        writeln!(to, "{:<31}\t{}", "largest_behind", self.largest_behind)
    }
}
