//! How far a long piece of work is, and the time left, on a terminal.

use std::io::{stderr, IsTerminal};
use std::time::{Duration, Instant};
use words::standard;

/// What takes less is done in silence.
const SILENT: Duration = Duration::from_secs(2);
/// How often it is shown.
const EVERY: Duration = Duration::from_millis(250);

pub struct Progress {
    what: String,
    all: u64,
    begun: Instant,
    next: Duration,
    terminal: bool,
}

impl Progress {
    /// So many samples of what is named.
    pub fn of(what: String, all: u64) -> Progress {
        Progress {
            what,
            all,
            begun: Instant::now(),
            next: SILENT,
            terminal: stderr().is_terminal(),
        }
    }

    pub fn show(&mut self, done: u64) {
        if !self.terminal {
            return;
        }
        let passed = self.begun.elapsed();
        if passed >= self.next {
            self.next = passed + EVERY;
            let line = line(&self.what, done, self.all, passed);
            standard::error(&format!("\r\x1b[K{line}"));
        }
    }
}

/// What is said next has the line for itself.
impl Drop for Progress {
    fn drop(&mut self) {
        if self.terminal && self.next > SILENT {
            standard::error("\r\x1b[K");
        }
    }
}

fn line(what: &str, done: u64, all: u64, passed: Duration) -> String {
    let share = 100 * done / all.max(1);
    let left = passed.as_secs_f64() * (all - done) as f64 / done.max(1) as f64;
    let left = left.ceil() as u64;
    let left = match left {
        0..=99 => format!("{left} s"),
        _ => format!("{} min", left.div_ceil(60)),
    };
    // the end of a long name is what tells it from others
    let from = what.chars().count().saturating_sub(50);
    let what: String = what.chars().skip(from).collect();
    format!("{what}: {share} %, {left} left")
}

#[cfg(test)]
mod tests {
    use super::*;

    #[test]
    fn share_and_time_left() {
        let line = |done, seconds| line("a.wav", done, 1000, Duration::from_secs(seconds));
        assert_eq!(line(250, 3), "a.wav: 25 %, 9 s left");
        assert_eq!(line(1, 2), "a.wav: 0 %, 34 min left");
        assert_eq!(line(1000, 5), "a.wav: 100 %, 0 s left");
        assert_eq!(line(0, 5), "a.wav: 0 %, 84 min left");
    }
}
