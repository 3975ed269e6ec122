//! GNU parallel: how it is called, and what it is read by.

use super::record::{Record, State};
use super::room::{Lock, Room};
use super::summary::{clock, date, speed};
use super::takes::Job;
use super::transfer::Transfer;
use super::{at_a_terminal, own_program, song_words, version, PROGRAM};
use crate::seconds;
use std::collections::{HashMap, HashSet};
use std::ffi::{c_int, OsStr};
use std::fs::{File, OpenOptions};
use std::io::{BufRead, BufReader, Read, Write};
use std::os::fd::AsRawFd;
use std::os::unix::ffi::OsStrExt;
use std::os::unix::process::{CommandExt, ExitStatusExt};
use std::path::{Path, PathBuf};
use std::process::{Child, Command, Stdio};
use std::sync::mpsc::{channel, Receiver, RecvTimeoutError, Sender};
use std::thread;
use std::time::{Duration, Instant};
use words::coded::{coded, decoded};
use words::end::{failed, say, shown, End};
use words::request::Night;
use words::signals::ended;
use words::standard;

extern "C" {
    fn fcntl(file: c_int, command: c_int, ...) -> c_int;
    fn kill(process: c_int, signal: c_int) -> c_int;
    fn prctl(option: c_int, ...) -> c_int;
}

/// fcntl's: what becomes of a file at an exec.
const AT_EXEC: c_int = 2;
/// prctl's: the signal at a parent's death.
const SIGNAL_OF_PARENT: c_int = 1;
const KILL: c_int = 9;
const TERM: c_int = 15;

/// How long the engine has to end its takes when it is asked to.
const PATIENCE: Duration = Duration::from_secs(20);
/// How often signals, and what came back, are looked for.
const EVERY: Duration = Duration::from_millis(200);
/// No password is asked for at night, and a machine that is gone is given up.
const SSH: &str =
    "ssh -o BatchMode=yes -o ConnectTimeout=20 -o ServerAliveInterval=15 -o ServerAliveCountMax=4";

/// Debian has another program of this name too (moreutils), which takes other words.
pub fn is_there() -> Result<(), End> {
    let asked = Command::new("parallel")
        .arg("--version")
        .stdin(Stdio::null())
        .output();
    let gnu = asked.is_ok_and(|said| said.stdout.starts_with(b"GNU parallel"));
    match gnu {
        true => Ok(()),
        false => Err(End::File(
            "GNU parallel is not installed: apt-get install parallel (or --list, for another engine)".into(),
        )),
    }
}

/// A word as a shell and parallel take it: in quotes, and no brace is followed by what parallel would replace.
fn quoted(word: &OsStr) -> Vec<u8> {
    let mut text = b"'".to_vec();
    for byte in word.as_bytes() {
        match byte {
            b'\'' => text.extend(b"'\\''"),
            b'{' => text.extend(b"{''"),
            byte => text.push(*byte),
        }
    }
    text.push(b'\'');
    text
}

pub struct Engine<'a> {
    request: &'a Night,
    room: &'a Room,
    lock: &'a Lock,
    machines: Vec<String>,
    log: Option<File>,
}

/// What the words of a job are, as a shell takes them: its takes, folders and MIDI file.
struct Places {
    takes: &'static str,
    from: Vec<u8>,
    to: Vec<u8>,
    song: Vec<u8>,
}

/// What comes from the engine: a line of a job, or what it says itself.
enum Heard {
    Line(String),
    Words(String),
}

impl<'a> Engine<'a> {
    pub fn new(request: &'a Night, room: &'a Room, lock: &'a Lock) -> Engine<'a> {
        let log = OpenOptions::new()
            .append(true)
            .create(true)
            .open(room.kept("log"))
            .ok();
        let machines = request.machines.clone();
        Engine {
            request,
            room,
            lock,
            machines,
            log,
        }
    }

    fn program(&self) -> Result<PathBuf, End> {
        self.request.program.clone().map_or_else(own_program, Ok)
    }

    /// Only machines that answer, and with this version, take part; the others are named.
    pub fn machines(&mut self) -> Result<(), End> {
        let program = self.program()?;
        let asked: Vec<(String, Option<Child>)> = std::mem::take(&mut self.machines)
            .into_iter()
            .map(|machine| {
                let mut line = quoted(program.as_os_str());
                line.extend(b" --version");
                let mut command = parallel();
                command.args(["--nonall", "--sshlogin", &machine]);
                command.arg(OsStr::from_bytes(&line));
                let child = command
                    .stdout(Stdio::piped())
                    .stderr(Stdio::piped())
                    .spawn();
                (machine, child.ok())
            })
            .collect();
        let any = !asked.is_empty();
        for (machine, child) in asked {
            let done = child.and_then(|child| child.wait_with_output().ok());
            let text = |bytes: &[u8]| String::from_utf8_lossy(bytes).trim().to_string();
            let (is, why) = done.map_or_else(Default::default, |done| {
                (text(&done.stdout), text(&done.stderr))
            });
            if is == version() {
                self.machines.push(machine);
            } else if is.starts_with("daxfolin ") {
                let version = version();
                self.say(&format!(
                    "{machine} is left out: it has {is}, and this night is {version}'s"
                ));
            } else {
                let why = why
                    .lines()
                    .next_back()
                    .unwrap_or("it says nothing")
                    .to_string();
                self.say(&format!(
                    "{machine} is left out: no daxfolin answers there: {why}"
                ));
            }
        }
        ended()?;
        match any && self.machines.is_empty() {
            true => Err(End::File("no machine is left to tune on".to_string())),
            false => Ok(()),
        }
    }

    fn say(&mut self, what: &str) {
        say(PROGRAM, what);
        self.note(&format!("{}\t{what}\n", date()));
    }

    /// A line of the log. A night is not stopped by a log that cannot be written.
    fn note(&mut self, line: &str) {
        let _ = self.log.as_mut().map(|log| log.write_all(line.as_bytes()));
    }

    /// A job as a command line, of which parallel replaces the takes.
    fn command_line(&self, places: &Places, words: &[&str]) -> Result<Vec<u8>, End> {
        let mut text = b"exec ".to_vec();
        let mut add = |word: &[u8]| {
            text.extend(word);
            text.push(b' ');
        };
        add(&quoted(self.program()?.as_os_str()));
        add(b"night");
        let given = self.request.words.iter().cloned();
        for word in given.chain(song_words(self.request)) {
            add(&quoted(OsStr::new(&word)));
        }
        words.iter().for_each(|word| add(word.as_bytes()));
        if self.request.song.is_some() {
            add(&[b"--midi=", &places.song[..]].concat());
        }
        add(format!("--takes={} --", places.takes).as_bytes());
        add(&places.from);
        add(&places.to);
        Ok(text)
    }

    /// On this machine, and on those that have the same folders.
    fn places(&self) -> Places {
        Places {
            takes: "{}",
            from: quoted(self.room.from.as_os_str()),
            to: quoted(self.room.to.as_os_str()),
            song: quoted(self.room.kept("song.mid").as_os_str()),
        }
    }

    /// parallel over a list, but for the command line, which comes last.
    fn started(&self, list: &Path) -> Command {
        let mut command = parallel();
        let jobs = self
            .request
            .jobs
            .map_or("100%".to_string(), |jobs| jobs.to_string());
        let retries = self.request.retries.to_string();
        command.args(["--jobs", &jobs, "--retries", &retries, "--line-buffer"]);
        command.args(["--termseq", "TERM,5000,KILL,500"]);
        if !self.machines.is_empty() {
            command.args(["--sshlogin", &self.machines.join(",")]);
        }
        // with a folder for each job it fails itself; here machines that do not answer are left out already
        if !self.machines.is_empty() && !self.request.transfer {
            command.arg("--filter-hosts");
        }
        command.arg("--arg-file").arg(list);
        command.current_dir(&self.room.to);
        command
    }

    /// Tunes the takes of these jobs, of a night that has others which are done. Says whether the engine itself ended well.
    pub fn tune(&mut self, jobs: &[Job], passed: usize) -> Result<bool, End> {
        let words = [
            (self.request.mend, "--mend"),
            (self.request.pictures, "--pictures"),
        ];
        let words: Vec<&str> = words
            .iter()
            .filter(|word| word.0)
            .map(|word| word.1)
            .collect();
        let (command, transfer) = match self.request.transfer {
            false => {
                let mut command = self.started(&self.room.kept("list"));
                let line = self.command_line(&self.places(), &words)?;
                command.arg(OsStr::from_bytes(&line));
                (command, None)
            }
            true => {
                let (command, transfer) = self.transferring(jobs, &words)?;
                (command, Some(transfer))
            }
        };
        let mut progress = Progress::of(jobs, passed);
        let mut transfer = transfer;
        let done = self.run(command, |engine, line| match line {
            Some(line) => engine.ended(line, &mut progress, transfer.as_mut()),
            None => {
                let placed = transfer
                    .as_mut()
                    .map_or(Vec::new(), |transfer| transfer.place(engine.room));
                for (take, record) in placed {
                    engine.told(&take, &record, &mut progress);
                }
                progress.show();
            }
        });
        progress.wipe();
        if let Some(transfer) = transfer {
            transfer.end(self.room);
        }
        done
    }

    /// Each take is sent to a folder of its own on its machine, and what was made of it is fetched from there.
    fn transferring(&self, jobs: &[Job], words: &[&str]) -> Result<(Command, Transfer), End> {
        let transfer = Transfer::of(self.room, jobs, self.request.song.is_some())?;
        // on this machine nothing is sent: the folders are where they are
        let mut line = b"[ -d .night/send/{1} ] || cd ".to_vec();
        line.extend(quoted(self.room.to.as_os_str()));
        line.extend(b"; ");
        let places = Places {
            takes: "{2}",
            from: b".night/send/{1}".to_vec(),
            to: b".night/back/{1}".to_vec(),
            song: b".night/send/{1}/.song.mid".to_vec(),
        };
        line.extend(self.command_line(&places, words)?);
        let mut command = self.started(&self.room.kept("sent"));
        command.args(["--colsep", "\t"]);
        if self.machines.iter().any(|machine| machine != ":") {
            command.args(["--workdir", "...", "--cleanup"]);
            command.args([
                "--transferfile",
                ".night/send/{1}",
                "--return",
                ".night/back/{1}",
            ]);
            // what is sent is a link to the take
            command.env("PARALLEL_RSYNC_OPTS", "-rLDzR");
        }
        command.arg(OsStr::from_bytes(&line));
        Ok((command, transfer))
    }

    /// A job has ended a take.
    fn ended(&mut self, line: String, progress: &mut Progress, transfer: Option<&mut Transfer>) {
        let name = line.split('\t').next().and_then(decoded);
        let Some(take) = name else {
            return self.say(&line);
        };
        match transfer {
            // it is not back yet
            Some(transfer) => transfer.came(take),
            None => {
                let record = Record::read(&self.room.said(&take)).unwrap_or_default();
                self.told(&take, &record, progress);
            }
        }
    }

    /// A line in the log, and to people: where nobody looks at a progress, a line too.
    fn told(&mut self, take: &Path, record: &Record, progress: &mut Progress) {
        progress.count(take, record.state);
        let name = shown(take.as_os_str());
        let state = record.state.name();
        let what = match record.state {
            State::Done => {
                let sound = seconds(record.samples, record.hertz.max(1) as u32);
                format!("{name}: {sound} s of sound, {}", speed(record))
            }
            _ => name,
        };
        let (machine, version) = (&record.machine, &record.version);
        let said = record.words_of_it();
        let line = format!(
            "{}\t{state}\t{what}\t{machine}\t{version}\t{said}\n",
            date()
        );
        self.note(&line);
        if !self.request.quiet && !at_a_terminal() {
            let (done, all) = (progress.done(), progress.all);
            let line = match record.state {
                State::Done if record.undrawn.is_empty() => what,
                State::Done => format!("no picture: {}", record.undrawn),
                // the file is named in what was said of it
                _ => format!("{state}: {said}"),
            };
            say(PROGRAM, &format!("{done} of {all}: {line}"));
        }
    }

    /// Checks the takes of these jobs: what was found of each.
    pub fn check(&mut self, jobs: &[Job]) -> Result<HashMap<String, String>, End> {
        let mut found = HashMap::new();
        if jobs.is_empty() {
            return Ok(found);
        }
        let list = self.room.kept("checking");
        let lines: String = jobs.iter().map(|job| job.line() + "\n").collect();
        super::room::write(self.room, &list, &lines)?;
        if self.request.transfer {
            self.machines.clear();
        }
        let mut command = self.started(&list);
        let line = self.command_line(&self.places(), &["--check"])?;
        command.arg(OsStr::from_bytes(&line));
        let mut progress = Progress::of(jobs, 0);
        progress.what = "checking";
        self.run(command, |_, line| {
            if let Some((take, what)) = line.as_deref().and_then(|line| line.split_once('\t')) {
                found.insert(take.to_string(), what.to_string());
                decoded(take)
                    .iter()
                    .for_each(|take| progress.count(take, State::Done));
            }
            progress.show();
        })?;
        progress.wipe();
        let _ = std::fs::remove_file(list);
        Ok(found)
    }

    /// Runs the engine until it ends, and gives each line of a job to a call; and from time to time none. A signal to this night is one to
    /// the engine, which then ends its takes. The engine has the lock too; and it ends if this process is killed.
    fn run(
        &mut self,
        mut command: Command,
        mut hear: impl FnMut(&mut Engine, Option<String>),
    ) -> Result<bool, End> {
        let lock = self.lock.file.as_raw_fd();
        // SAFETY: between fork and exec two system calls are made, with numbers alone.
        unsafe {
            command.pre_exec(move || {
                fcntl(lock, AT_EXEC, 0);
                prctl(SIGNAL_OF_PARENT, KILL);
                Ok(())
            })
        };
        command.stdout(Stdio::piped()).stderr(Stdio::piped());
        let mut child = command
            .spawn()
            .map_err(|error| failed(Path::new("parallel"), &error))?;
        let heard = listening(&mut child);
        let mut said = HashSet::new();
        let mut asked: Option<Instant> = None;
        loop {
            match heard.recv_timeout(EVERY) {
                Ok(Heard::Line(line)) => hear(self, Some(line)),
                // a machine that is gone is named once, and not for each of its jobs
                Ok(Heard::Words(words)) => {
                    let words = words.replacen(&format!("{PROGRAM}: "), "", 1);
                    if said.insert(words.clone()) && asked.is_none() {
                        self.say(&words);
                    }
                }
                Err(RecvTimeoutError::Timeout) => hear(self, None),
                Err(RecvTimeoutError::Disconnected) => break,
            }
            if ended().is_err() {
                end(&child, &mut asked);
            }
        }
        hear(self, None);
        let status = child
            .wait()
            .map_err(|error| failed(Path::new("parallel"), &error))?;
        if let Err(end) = ended() {
            self.say("ended by a signal; start it again, and it goes on");
            return Err(end);
        }
        if let Some(signal) = status.signal() {
            self.say(&format!(
                "parallel was killed by signal {signal}; start it again, and it goes on"
            ));
        }
        // up to 101 it is how many jobs failed, whose takes say why
        let well = status.code().is_some_and(|code| code <= 101);
        if !well && status.signal().is_none() {
            self.say("parallel itself failed; start it again, and it goes on");
        }
        Ok(well)
    }
}

/// parallel, which the user's own settings of it do not alter.
fn parallel() -> Command {
    let mut command = Command::new("parallel");
    command.args(["--plain", "--will-cite", "--ssh", SSH]);
    command
        .env("PARALLEL_SHELL", "/bin/sh")
        .stdin(Stdio::null());
    command
}

/// Asked twice, it ends its takes too; where that takes too long, it is killed, and its takes with it.
fn end(child: &Child, asked: &mut Option<Instant>) {
    let process = child.id() as c_int;
    // SAFETY: it takes two numbers, and the process is not waited for yet, so that its number is its own.
    let send = |signal| unsafe { kill(process, signal) };
    match asked {
        None => {
            send(TERM);
            thread::sleep(EVERY);
            send(TERM);
            *asked = Some(Instant::now());
        }
        Some(since) if since.elapsed() > PATIENCE => {
            send(KILL);
        }
        Some(_) => {}
    }
}

/// What the engine prints and says, line by line, until it has ended.
fn listening(child: &mut Child) -> Receiver<Heard> {
    let (to, from) = channel();
    let lines = child.stdout.take().map(|from| (from, to.clone()));
    let words = child.stderr.take().map(|from| (from, to));
    lines.map(|(from, to)| thread::spawn(move || pass_on(from, &to, Heard::Line)));
    words.map(|(from, to)| thread::spawn(move || pass_on(from, &to, Heard::Words)));
    from
}

fn pass_on(from: impl Read, to: &Sender<Heard>, heard: fn(String) -> Heard) {
    for line in BufReader::new(from).split(b'\n').map_while(Result::ok) {
        let line = String::from_utf8_lossy(&line).trim_end().to_string();
        if !line.is_empty() && to.send(heard(line)).is_err() {
            return;
        }
    }
}

// ---- progress

/// The bytes of a second of sound, about: of a take at 44,100.
const SECOND: u64 = 88_200;

/// How far a night is, on a terminal.
struct Progress {
    what: &'static str,
    begun: Instant,
    takes: HashMap<String, (u64, State)>,
    passed: usize,
    all: usize,
    shown: bool,
}

impl Progress {
    fn of(jobs: &[Job], passed: usize) -> Progress {
        let takes = jobs.iter().flat_map(|job| &job.takes);
        let takes: HashMap<_, _> = takes
            .map(|take| (coded(&take.name), (take.length, State::Begun)))
            .collect();
        Progress {
            what: "night",
            begun: Instant::now(),
            passed,
            all: passed + takes.len(),
            takes,
            shown: false,
        }
    }

    /// A take that failed, and is tried once more, counts once.
    fn count(&mut self, take: &Path, state: State) {
        if let Some(one) = self.takes.get_mut(&coded(take)) {
            one.1 = state;
        }
    }

    fn done(&self) -> usize {
        let ended = self.takes.values().filter(|take| take.1 != State::Begun);
        self.passed + ended.count()
    }

    fn line(&self, spent: Duration) -> String {
        let all: u64 = self.takes.values().map(|take| take.0).sum();
        let ended = self.takes.values().filter(|take| take.1 != State::Begun);
        let sound: u64 = ended.map(|take| take.0).sum();
        let bad = self
            .takes
            .values()
            .filter(|take| [State::Refused, State::Failed].contains(&take.1));
        let bad = match bad.count() {
            0 => String::new(),
            count => format!(", {count} not tuned"),
        };
        let left = match sound {
            0 => String::new(),
            sound => {
                let left = spent.as_secs_f64() * (all - sound) as f64 / sound as f64;
                format!(", {} left", clock(left.ceil() as u64))
            }
        };
        format!(
            "{}: {} of {} takes{bad}, {} of {} of sound{left}",
            self.what,
            self.done(),
            self.all,
            clock(sound / SECOND),
            clock(all / SECOND)
        )
    }

    fn show(&mut self) {
        if at_a_terminal() {
            self.shown = true;
            standard::error(&format!("\r\x1b[K{}", self.line(self.begun.elapsed())));
        }
    }

    fn wipe(&mut self) {
        if std::mem::take(&mut self.shown) {
            standard::error("\r\x1b[K");
        }
    }
}

#[cfg(test)]
mod tests {
    use super::super::takes::Take;
    use super::*;

    #[test]
    fn words_for_a_shell_and_parallel() {
        for (word, right) in [
            ("plain", "'plain'"),
            ("it's", "'it'\\''s'"),
            ("{}", "'{''}'"),
            ("{= x =}", "'{''= x =}'"),
            ("a\nb", "'a\nb'"),
        ] {
            assert_eq!(quoted(OsStr::new(word)), right.as_bytes());
        }
    }

    #[test]
    fn how_far_it_is() {
        let take = |name: &str, length| Take {
            name: name.into(),
            length,
        };
        let jobs = [Job {
            takes: vec![take("a", 300 * SECOND), take("b", 100 * SECOND)],
        }];
        let mut progress = Progress::of(&jobs, 3);
        let minute = Duration::from_secs(60);
        assert_eq!(
            progress.line(minute),
            "night: 3 of 5 takes, 0:00 of 6:40 of sound"
        );
        progress.count(Path::new("b"), State::Failed);
        let line = "night: 4 of 5 takes, 1 not tuned, 1:40 of 6:40 of sound, 3:00 left";
        assert_eq!(progress.line(minute), line);
        progress.count(Path::new("b"), State::Done);
        progress.count(Path::new("a"), State::Done);
        assert_eq!(
            progress.line(minute),
            "night: 5 of 5 takes, 6:40 of 6:40 of sound, 0:00 left"
        );
    }
}
