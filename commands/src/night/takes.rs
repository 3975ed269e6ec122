//! The takes of a night, and the jobs that are made of them.

use super::room::{self, below, Room};
use std::fs;
use std::path::{Path, PathBuf};
use std::thread::available_parallelism;
use words::coded::coded;
use words::end::End;
use words::request::Night;

/// A job has so many takes or bytes at most, unless it has one take alone: an engine takes some milliseconds for each job. So many jobs
/// there are for each processor, where there are as many takes, so that all processors end at about the same time.
const MOST_TAKES: usize = 64;
const JOBS_EACH: usize = 16;
const MOST_BYTES: u64 = 4 << 20;
/// The longest line of the list: less than a command line can have.
const LONGEST_LINE: usize = 16_384;

#[derive(Clone, Debug, PartialEq, Eq)]
pub struct Take {
    /// From IN_DIR on.
    pub name: PathBuf,
    pub length: u64,
}

/// The takes, the longest first, and what was passed over.
pub struct Listed {
    pub takes: Vec<Take>,
    pub hidden: usize,
    pub unread: Vec<String>,
    pub links: Vec<String>,
}

pub fn listed(room: &Room) -> Listed {
    let found = below(&room.from);
    let takes = found.files.into_iter().filter(|name| is_take(name));
    let mut takes: Vec<Take> = takes
        .map(|name| {
            let length = fs::metadata(room.from.join(&name)).map_or(0, |file| file.len());
            Take { name, length }
        })
        .collect();
    takes.sort_by(|one, other| (other.length, &one.name).cmp(&(one.length, &other.name)));
    Listed {
        takes,
        hidden: found.hidden,
        unread: found.unread,
        links: found.links,
    }
}

fn is_take(name: &Path) -> bool {
    let ending = name.extension();
    ending.is_some_and(|ending| ending.eq_ignore_ascii_case("wav"))
}

/// Takes that one process tunes, one after the other.
pub struct Job {
    pub takes: Vec<Take>,
}

impl Job {
    /// A word that no shell alters.
    pub fn line(&self) -> String {
        let names = self.takes.iter().map(|take| coded(&take.name));
        names.collect::<Vec<_>>().join(",")
    }
}

/// Takes of a job, at most. One that is sent goes alone.
fn most(takes: usize, request: &Night) -> usize {
    let processors = available_parallelism().map_or(1, |count| count.get());
    let machines = request.machines.len().max(1);
    match request.transfer && !request.check {
        true => 1,
        false => (takes / (JOBS_EACH * processors * machines)).clamp(1, MOST_TAKES),
    }
}

pub fn jobs(takes: &[Take], request: &Night) -> Vec<Job> {
    together(takes, most(takes.len(), request))
}

/// Long takes have a job each, and short ones go together.
fn together(takes: &[Take], most: usize) -> Vec<Job> {
    let mut jobs: Vec<Job> = Vec::new();
    let (mut bytes, mut width) = (0, 0);
    for take in takes {
        let (length, wide) = (take.length, coded(&take.name).len() + 1);
        let fits = |job: &Job| {
            job.takes.len() < most && bytes + length <= MOST_BYTES && width + wide <= LONGEST_LINE
        };
        match jobs.last_mut().filter(|job| fits(job)) {
            Some(job) => job.takes.push(take.clone()),
            None => {
                jobs.push(Job {
                    takes: vec![take.clone()],
                });
                (bytes, width) = (0, 0);
            }
        }
        (bytes, width) = (bytes + length, width + wide);
    }
    jobs
}

/// The list, a line for each job.
pub fn write(room: &Room, jobs: &[Job]) -> Result<(), End> {
    let lines: String = jobs.iter().map(|job| job.line() + "\n").collect();
    room::write(room, &room.kept("list"), &lines)
}

#[cfg(test)]
mod tests {
    use super::*;

    #[test]
    fn short_takes_go_together() {
        let take = |name: &str, length| Take {
            name: name.into(),
            length,
        };
        let takes = [
            take("a", 9 << 20),
            take("b", 3 << 20),
            take("c d", 1 << 20),
            take("e", 1),
        ];
        let lines = |most| {
            let jobs = together(&takes, most);
            jobs.iter().map(Job::line).collect::<Vec<_>>()
        };
        assert_eq!(lines(64), ["a", "b,c%20d", "e"]);
        assert_eq!(lines(1), ["a", "b", "c%20d", "e"]);
        let many: Vec<Take> = (0..200).map(|k| take(&k.to_string(), 100)).collect();
        assert_eq!(together(&many, 64).len(), 4);
        let long: Vec<Take> = (0..9).map(|_| take(&"x".repeat(4000), 100)).collect();
        assert_eq!(together(&long, 64).len(), 3);
    }

    #[test]
    fn names_of_takes() {
        for name in ["a.wav", "s/B.WAV", "-.Wav", "a\n.wav"] {
            assert!(is_take(Path::new(name)), "{name}");
        }
        for name in ["a.wave", "wav", ".wav", "a.wav.txt", "a.mid"] {
            assert!(!is_take(Path::new(name)), "{name}");
        }
    }
}
