//! Takes that are sent to machines without the folders of the night. Each has a
//! folder of its own there and back, named by a number, in which it keeps its
//! name: so no name is ever a word of a shell.

use super::record::{changed, Record, State};
use super::room::{made, outs, write, Room, KEPT, NOT_ITS_OWN};
use super::{removed, takes::Job};
use std::fs::{self, File};
use std::os::unix::fs::symlink;
use std::path::{Path, PathBuf};
use words::coded::coded;
use words::end::{failed, shown, End};

/// A take that is sent, as it was then.
struct Sent {
    take: PathBuf,
    length: u64,
    changed: String,
    /// A job has ended it.
    came: bool,
    placed: bool,
}

pub struct Transfer {
    sent: Vec<Sent>,
}

impl Transfer {
    /// Links to the takes, each in its folder, and the list of them: number and name. A take whose OUT the night did not make is not sent.
    pub fn of(room: &Room, jobs: &[Job], song: bool) -> Result<Transfer, End> {
        clear(room);
        let (mut sent, mut lines) = (Vec::new(), String::new());
        for take in jobs.iter().flat_map(|job| &job.takes) {
            let from = room.from.join(&take.name);
            let Ok(file) = fs::metadata(&from) else {
                continue;
            };
            if !may_be_written(room, &take.name) {
                let out = room.out(&take.name);
                let why = format!("{}: {NOT_ITS_OWN}", shown(out.as_os_str()));
                refuse(room, &take.name, why)?;
                continue;
            }
            let folder = room.kept("send").join(sent.len().to_string());
            let link = folder.join(&take.name);
            made(link.parent().unwrap_or(&folder))?;
            symlink(&from, &link).map_err(|error| failed(&link, &error))?;
            if song {
                let link = folder.join(".song.mid");
                symlink(room.kept("song.mid"), &link).map_err(|error| failed(&link, &error))?;
            }
            lines += &format!("{}\t{}\n", sent.len(), coded(&take.name));
            sent.push(Sent {
                take: take.name.clone(),
                length: file.len(),
                changed: changed(&file),
                came: false,
                placed: false,
            });
        }
        made(&room.kept("back"))?;
        write(room, &room.kept("sent"), &lines)?;
        Ok(Transfer { sent })
    }

    pub fn came(&mut self, take: PathBuf) {
        let sent = self.sent.iter_mut().find(|sent| sent.take == take);
        sent.into_iter().for_each(|sent| sent.came = true);
    }

    /// What is whole here takes its place: those takes, and what was said of them.
    pub fn place(&mut self, room: &Room) -> Vec<(PathBuf, Record)> {
        let mut placed = Vec::new();
        for (number, sent) in self.sent.iter_mut().enumerate() {
            if !sent.came || sent.placed {
                continue;
            }
            let back = room.kept("back").join(number.to_string());
            if let Some(record) = one(room, sent, &back, number) {
                sent.placed = record.state != State::Failed;
                placed.push((sent.take.clone(), record));
                let _ = fs::remove_dir_all(back);
            }
        }
        placed
    }

    pub fn end(mut self, room: &Room) {
        self.place(room);
        clear(room);
    }
}

fn clear(room: &Room) {
    for name in ["send", "back"] {
        let _ = fs::remove_dir_all(room.kept(name));
    }
    let _ = fs::remove_file(room.kept("sent"));
}

/// Whether OUT is not there, or the night's own.
fn may_be_written(room: &Room, take: &Path) -> bool {
    let there = room
        .outs(take)
        .iter()
        .any(|out| fs::symlink_metadata(out).is_ok());
    !there || Record::read(&room.said(take)).is_some_and(|said| said.own)
}

fn refuse(room: &Room, take: &Path, why: String) -> Result<(), End> {
    let record = Record {
        state: State::Failed,
        said: vec![why],
        own_picture: own_picture(room, take),
        ..Record::default()
    };
    record.write(room, take)
}

/// Whether the picture of a take is the night's own.
fn own_picture(room: &Room, take: &Path) -> bool {
    Record::read(&room.said(take)).is_some_and(|said| said.own_picture)
}

/// A take that is back, where all of it is. What was said is stored before OUT has its place, so that OUT is known for the night's own.
fn one(room: &Room, sent: &Sent, back: &Path, number: usize) -> Option<Record> {
    let said = back.join(KEPT).join("said").join(&sent.take);
    let mut record = Record::read(&said).filter(|record| record.state != State::Begun)?;
    let came = outs(back, &sent.take, room.voices);
    let copy = back.join(KEPT).join("mended").join(&sent.take);
    let whole = record.state != State::Done || record.is_made(&came);
    if !whole || (!record.mended.is_empty() && !copy.is_file()) {
        return None;
    }
    // the names that the machine had for it
    let there = format!(".night/send/{number}/");
    let here = format!("{}/", shown(room.from.as_os_str()));
    record
        .said
        .iter_mut()
        .for_each(|line| *line = line.replace(&there, &here));
    record.own = true;
    record.own_picture = own_picture(room, &sent.take);
    (record.length, record.changed) = (sent.length, sent.changed.clone());
    let unchanged = fs::metadata(room.from.join(&sent.take)).is_ok_and(|is| record.is_of(&is));
    if !unchanged {
        record.state = State::Failed;
        let from = shown(room.from.join(&sent.take).as_os_str());
        record.said = vec![format!(
            "{from}: it was changed while it was read; run it again"
        )];
    }
    // a picture of what the take was goes
    let stale = match record.own_picture {
        true => removed(&room.picture(&sent.take)),
        false => Ok(()),
    };
    let stored = stale.and_then(|()| record.write(room, &sent.take));
    let stored = stored.and_then(|()| match record.state {
        State::Done => moved(room, &sent.take, &came, &copy, &record),
        _ => Ok(()),
    });
    if let Err(End::File(why)) = stored {
        record.state = State::Failed;
        record.said = vec![why];
        let _ = record.write(room, &sent.take);
    }
    Some(record)
}

/// Each file is on the disk before it has its name, and OUT is the last.
fn moved(
    room: &Room,
    take: &Path,
    came: &[PathBuf],
    copy: &Path,
    record: &Record,
) -> Result<(), End> {
    let mut pairs: Vec<(&Path, PathBuf)> = Vec::new();
    if !record.mended.is_empty() {
        pairs.push((copy, room.mended(take)));
    }
    let named = came.iter().map(PathBuf::as_path).zip(room.outs(take));
    pairs.extend(named.collect::<Vec<_>>().into_iter().rev());
    for (from, to) in pairs {
        let folder = to.parent().unwrap_or(Path::new("."));
        made(folder)?;
        let synced = |file: &Path| File::open(file).and_then(|file| file.sync_all());
        let put = synced(from).and_then(|()| fs::rename(from, &to));
        put.map_err(|error| failed(&to, &error))?;
        // not every folder can be asked for that
        let _ = synced(folder);
    }
    Ok(())
}
