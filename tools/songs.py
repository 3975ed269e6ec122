"""MIDI files by mido, for tools/test-files.

songs.py write FILE SEED    writes a file: tracks with notes, tempos and what a reader passes over
songs.py copy FROM TO       reads a file and writes it again
songs.py rows FILE          prints its notes: key, first tick and ticks, as daxfolin notes has them
songs.py compare FILE       holds an answer of the readers (independent/src/songs.rs), on standard input, to what mido reads
"""

import random
import sys

import mido
from mido import Message, MetaMessage, MidiFile, MidiTrack

RATE = 44100


def event(dice):
    """A message of any sort."""
    channel, key = dice.randrange(16), dice.randrange(128)
    return dice.choice(
        [
            Message("note_on", channel=channel, note=key, velocity=dice.randrange(128)),
            Message("note_on", channel=channel, note=key, velocity=100),
            Message("note_off", channel=channel, note=key, velocity=dice.randrange(128)),
            Message("control_change", channel=channel, control=dice.randrange(128), value=7),
            Message("program_change", channel=channel, program=dice.randrange(128)),
            Message("aftertouch", channel=channel, value=3),
            Message("polytouch", channel=channel, note=key, value=3),
            Message("pitchwheel", channel=channel, pitch=dice.randrange(-8192, 8192)),
            Message("sysex", data=[dice.randrange(128) for _ in range(dice.randrange(200))]),
            MetaMessage("set_tempo", tempo=dice.randrange(1, 1 << 24)),
            MetaMessage("set_tempo", tempo=dice.randrange(200000, 900000)),
            MetaMessage("lyrics", text="la " * dice.randrange(60)),
            MetaMessage("time_signature", numerator=3, denominator=8),
            MetaMessage("key_signature", key="Am"),
            MetaMessage("sequencer_specific", data=[1, 2, 255]),
        ]
    )


def write(name, seed):
    dice = random.Random(seed)
    tracks = dice.randrange(1, 5)
    song = MidiFile(type=0 if tracks == 1 else 1, ticks_per_beat=dice.choice([1, 96, 480, 22050, 32767]))
    for _ in range(tracks):
        track = MidiTrack()
        for _ in range(dice.randrange(60)):
            longest = dice.choice([0, 1, 127, 128, 16383, 16384, 300000])
            track.append(event(dice).copy(time=dice.randint(0, longest)))
        song.tracks.append(track)
    song.save(name)


def copy(name, to):
    song = MidiFile(name)
    again = MidiFile(type=song.type, ticks_per_beat=song.ticks_per_beat)
    again.tracks.extend(MidiTrack(track) for track in song.tracks)
    again.save(to)


def rows(name):
    song = MidiFile(name)
    assert len(song.tracks) == 1, song
    tick, begun = 0, {}
    for message in song.tracks[0]:
        tick += message.time
        if message.type == "note_on" and message.velocity > 0:
            begun[message.note] = tick
        elif message.type in ("note_on", "note_off"):
            first = begun.pop(message.note)
            print(message.note, first, tick - first, sep="\t")
    assert not begun, begun


def what(message):
    """As the readers' answers have it."""
    if message.type == "set_tempo":
        return f"t{message.tempo}"
    if message.type == "end_of_track":
        return "end"
    if message.is_meta or message.type == "sysex":
        return "other"
    return message.hex().replace(" ", "").lower()


def events(song):
    for number, track in enumerate(song.tracks, 1):
        tick = 0
        for message in track:
            tick += message.time
            yield f"{number}:{tick}:{what(message)}"


def keys(song):
    """Seconds, key and sign of each note, by mido's own clock."""
    time = 0.0
    for message in song:
        time += message.time
        if message.type == "note_on" and message.velocity > 0:
            yield time, f"{message.note}+"
        elif message.type in ("note_on", "note_off"):
            yield time, f"{message.note}-"


def compare(name):
    song = MidiFile(name)
    answer = sys.stdin.readline().rstrip("\n").split("\t")
    at = answer.index("keys")
    right = ["0", str(song.type), str(song.ticks_per_beat), str(len(song.tracks)), *events(song)]
    assert answer[:at] == right, f"{name}: {answer[:at]} and not {right}"
    # those behind them are released at the end of the file
    played = [key.split(":") for key in answer[at + 1 : -1]]
    notes = list(keys(song))
    assert len(played) >= len(notes), f"{name}: {len(played)} keys and not {len(notes)}"
    for (sample, key), (seconds, note) in zip(played, notes):
        assert key == note, f"{name}: {key} and not {note}"
        # mido's clock is a float, and so it may be a sample off
        assert abs(int(sample) - seconds * RATE) < 1.5, f"{name}: {note} at {sample} and not {seconds * RATE}"


if __name__ == "__main__":
    {"write": write, "copy": copy, "rows": rows, "compare": compare}[sys.argv[1]](*sys.argv[2:])
