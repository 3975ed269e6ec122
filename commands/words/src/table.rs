//! The commands and their options. A further command is one more entry of
//! [`COMMANDS`] and one more case of [`crate::request::Request`]; one that
//! tunes takes its options from [`TAKE`].

/// What a shell offers for a value or a file.
#[derive(Clone, Copy, Debug, PartialEq, Eq)]
pub enum Offer {
    Nothing,
    Waves,
    Songs,
    Folders,
    Words(&'static [&'static str]),
}

/// An option. Its name is that by which the code asks for it.
#[derive(Debug, PartialEq, Eq)]
pub struct Opt {
    pub short: Option<char>,
    pub long: &'static str,
    /// What its value is called; none for an option that is there or not.
    pub value: Option<&'static str>,
    pub offer: Offer,
    pub says: &'static str,
}

impl Opt {
    /// As it is typed: `-f, --force`, `--scale NOTES`.
    pub fn typed(&self) -> String {
        let short = self.short.map(|short| format!("-{short}, "));
        let value = self.value.map(|value| format!(" {value}"));
        format!(
            "{}--{}{}",
            short.unwrap_or_default(),
            self.long,
            value.unwrap_or_default()
        )
    }
}

/// An option without a value.
const fn flag(short: char, long: &'static str, says: &'static str) -> Opt {
    Opt {
        short: Some(short),
        long,
        value: None,
        offer: Offer::Nothing,
        says,
    }
}

/// An option without a value, and without a short form.
const fn switch(long: &'static str, says: &'static str) -> Opt {
    Opt {
        short: None,
        ..flag(' ', long, says)
    }
}

const fn valued(long: &'static str, value: &'static str, says: &'static str) -> Opt {
    Opt {
        value: Some(value),
        ..switch(long, says)
    }
}

/// A command: a word behind `daxfolin`.
#[derive(Debug)]
pub struct Command {
    pub name: &'static str,
    /// In a line, for the overview.
    pub short: &'static str,
    /// What stands behind the name, a form each.
    pub forms: &'static [&'static str],
    pub options: &'static [&'static [Opt]],
    /// Paragraphs: before the options, and behind them.
    pub about: &'static [&'static str],
    pub more: &'static [&'static str],
    pub statuses: &'static [(u8, &'static str)],
    pub offer: Offer,
}

impl Command {
    pub fn options(&self) -> impl Iterator<Item = &'static Opt> {
        self.options.iter().copied().flatten()
    }

    /// What messages begin with.
    pub fn program(&self) -> String {
        format!("daxfolin {}", self.name)
    }
}

// ---- options

pub const SCALES: &[&str] = &[
    "chromatic",
    "list",
    "C-major",
    "A-minor",
    "A-harmonic-minor",
    "A-minor-pentatonic",
    "D-dorian",
    "A-blues",
];

/// How a take is tuned: the settings.
const TAKE: &[Opt] = &[
    Opt {
        offer: Offer::Words(SCALES),
        ..valued(
            "scale",
            "NOTES",
            "the notes to tune to: notes such as C,D,E; a scale such as A-minor, \"A minor\" or Am; chromatic; or a number from 1 to 4095 whose bit 0 is C (chromatic). --scale list prints all scales",
        )
    },
    valued(
        "eps",
        "N",
        "how far two cycles may differ and still count as equal, 0 to 409, in 1/1024 (100)",
    ),
    valued(
        "decay",
        "N",
        "how much of the old rate is kept at each step, 0 to 255, in 1/256; 0 is on the note at once (230)",
    ),
    valued(
        "speed",
        "MS",
        "the decay as a time constant, 0 to 29 milliseconds: at 44,100 decay 230 is 1.06 ms, 250 is 4.8 ms, 255 is 29 ms",
    ),
    valued(
        "floor",
        "N",
        "what is softer has no pitch: a mean square, 1 to 1000000 (100)",
    ),
];

const VOICE: &[Opt] = &[valued(
    "voice",
    "N",
    "a backing voice N semitones from the wanted note, -12 to 12; up to three of them",
)];

/// The octaves that a key is sent in: the first is the one without words.
pub const OCTAVES: &[&str] = &["nearest", "exact"];

/// What needs `--midi` beside it.
pub const OF_MIDI: &[&str] = &["channel", "track", "transpose", "offset", "octave"];

/// The line that takes are tuned to.
const MIDI: &[Opt] = &[
    Opt {
        offer: Offer::Songs,
        ..valued(
            "midi",
            "FILE.mid",
            "tune to the keys of a Standard MIDI File, and not to a scale",
        )
    },
    valued("channel", "N", "only the notes of channel N, 1 to 16 (all)"),
    valued("track", "N", "only the notes of track N; the first is 1 (all)"),
    valued(
        "transpose",
        "N",
        "the notes N semitones up, or down where it is below 0, -127 to 127 (0)",
    ),
    valued(
        "offset",
        "MS",
        "the notes MS whole milliseconds later, or earlier where it is below 0 (0)",
    ),
    Opt {
        offer: Offer::Words(OCTAVES),
        ..valued(
            "octave",
            "WORD",
            "the octave of each key: nearest, to what was sung there; or exact, as the file says (nearest)",
        )
    },
];

const OUT: &[Opt] = &[
    Opt {
        short: Some('o'),
        offer: Offer::Folders,
        ..valued(
            "output-dir",
            "DIR",
            "write each OUT into DIR, under the name of its IN",
        )
    },
    flag('f', "force", "write over files that exist"),
    flag(
        'k',
        "keep",
        "pass over each IN whose OUT is done: there, whole and not older than IN",
    ),
    flag(
        'n',
        "dry-run",
        "say what would be read, refused and written, and write nothing",
    ),
    flag('q', "quiet", "print no summary"),
];

const TSV: &[Opt] = &[switch(
    "tsv",
    "print tab-separated columns under a heading line",
)];

const COMMON: &[Opt] = &[
    flag('h', "help", "print this help"),
    flag('V', "version", "print the version"),
];

const NOTES: &[Opt] = &[
    Opt {
        offer: Offer::Songs,
        ..valued(
            "midi",
            "OUT.mid",
            "write the notes as a Standard MIDI File, and print how many",
        )
    },
    flag('f', "force", "write over OUT.mid if it exists"),
    valued("min", "MS", "leave out notes shorter than MS milliseconds"),
    switch(
        "labels",
        "print a label track for Audacity: start, end and name",
    ),
];

const PICTURE: &[Opt] = &[
    flag('f', "force", "write over OUT.svg and OUT.png if they exist"),
    valued(
        "from",
        "TIME",
        "draw from TIME on, in seconds or as 1:05 (0)",
    ),
    valued("to", "TIME", "draw up to TIME (the take's end)"),
    valued(
        "width",
        "PIXELS",
        "the width of the page, 700 to 6000 (1280)",
    ),
    switch(
        "png",
        "also write OUT.png beside OUT.svg, by rsvg-convert or ImageMagick, whichever is installed",
    ),
];

const MEND: &[Opt] = &[flag(
    'n',
    "dry-run",
    "print what would be changed, and write nothing",
)];

/// A night's own.
const NIGHT: &[Opt] = &[
    Opt {
        short: Some('j'),
        ..valued(
            "jobs",
            "N",
            "takes at a time on each machine (as many as it has processors)",
        )
    },
    Opt {
        short: Some('S'),
        ..valued(
            "machines",
            "MACHINE,..",
            "tune on these machines, by ssh; : is this one, and 4/NAME has four takes at a time (:)",
        )
    },
    valued(
        "program",
        "PATH",
        "where daxfolin stands on the machines (where it stands here)",
    ),
    switch(
        "transfer",
        "send each take to its machine and fetch what was made of it: the machines have neither IN_DIR nor OUT_DIR",
    ),
    valued("retries", "N", "how often a take is tried that fails (3)"),
    switch(
        "mend",
        "tune a mended copy of a take that a recorder left when it lost power; the take itself stays as it is",
    ),
    switch(
        "pictures",
        "also draw each take as daxfolin picture does, OUT.svg beside OUT, and write OUT_DIR/index.html over all of them",
    ),
    switch(
        "again",
        "begin anew: what this night made so far is removed, and every take is tuned",
    ),
    switch(
        "check",
        "when all is tuned, check every take as daxfolin check does",
    ),
    switch(
        "list",
        "write OUT_DIR/.night/list, a line for each job, and print how many there are: for another engine",
    ),
    valued(
        "takes",
        "LINE",
        "tune the takes of one line of that list, here and now: a job of that engine",
    ),
    flag(
        'n',
        "dry-run",
        "print the takes that would be tuned, the longest first, and write nothing",
    ),
    flag(
        'q',
        "quiet",
        "print neither a line for each take nor the report",
    ),
];

// ---- commands

const WRONG: (u8, &str) = (1, "usage error");
const UNBUILT: (u8, &str) = (4, "the program could not be built");
const REFUSED: (u8, &str) = (
    2,
    "a take or a setting is refused; standard output has the number of the refusal (docs/NUMBERS.md)",
);

const A_LINE: &str = "With --midi the key held at a place is the note there, the latest where there are several. Where none is held nothing is tuned. The file has format 0 or 1. It is read before the first take; one that is refused or cannot be read ends the command before anything is written or printed.";

const A_TAKE: &str = "A take is a WAVE file: PCM, one channel, 16 bits, 44,100 or 48,000 samples a second, up to 1,000,000,000 samples.";

pub const COMMANDS: &[Command] = &[
    Command {
        name: "tune",
        short: "tune a take, also with backing voices",
        forms: &["[OPTION..] IN.wav OUT.wav", "[OPTION..] -o DIR IN.wav .."],
        options: &[TAKE, VOICE, MIDI, OUT, TSV, COMMON],
        about: &[
            "Tunes the take in IN.wav and writes OUT.wav: the same sample rate, as many samples, and a header of 44 bytes.",
            A_TAKE,
            "Options may stand anywhere; -- ends them. IN may be -, standard input, also a pipe: the take is then stored first, next to OUT or in TMPDIR, and sizes that the pipe's writer left unknown are mended in that copy. OUT may be -, standard output: the summary then goes to standard error.",
        ],
        more: &[
            "Latency: OUT lies 4 to 1,004 samples behind IN (at most 22.8 ms at 44,100), about 470 on average while singing is tuned, since whole cycles are repeated and dropped. The summary ends with the take's mean and greatest, taken at the end of each block of 512 samples.",
            "Each voice has a file of its own: OUT-1.wav for the first --voice, OUT-2.wav for the second. It is silent where no note is wanted. OUT is the same with and without voices.",
            A_LINE,
            "With --midi the summary ends with the keys that were delivered, and --tsv has them as a last column. Standard error says what may not be meant: notes on several channels, notes left out, keys behind the take's end.",
            "OUT appears when it is whole, and not before: it is written next to it as .tune-PROCESS-N.part and renamed when it is on the disk. With -f it keeps mode and owner of the file it replaces. OUT is never IN. If one file of a set cannot take its place, the others are as they were.",
            "Chunks of IN other than fmt and data are not in OUT. Standard error names them, with the time reference of a bext chunk.",
            "With -o each line names its IN. A file that is refused or cannot be read does not stop the others. The status is then 3 if any file could not be read or written, else 2 if any was refused, else 5 if any OUT exists.",
        ],
        statuses: &[
            (0, "all is written"),
            WRONG,
            REFUSED,
            (
                3,
                "a file cannot be read or written, or a MIDI file is refused",
            ),
            UNBUILT,
            (5, "OUT exists; -f writes over it"),
        ],
        offer: Offer::Waves,
    },
    Command {
        name: "notes",
        short: "list the notes sung in a take",
        forms: &["[OPTION..] IN.wav", "<LINES"],
        options: &[TAKE, NOTES, TSV, COMMON],
        about: &[
            "Prints a row for each note sung in the take: its number (60 is middle C), first sample (from 0), length in samples, name and start in seconds, tab-separated.",
            A_TAKE,
        ],
        more: &[
            "With --tsv a row also has its end in seconds and cents: how far the singing was from the note, on average over the row, above it if positive. That takes about twenty times as long.",
            "In OUT.mid a tick is a sample, and each row is a note on and a note off at its samples. A list has any length there. daxfolin tune --midi OUT.mid IN.wav tunes the take as the list says: without --min, to the very samples that the scale of the list gives. OUT.mid appears when it is whole, and not before.",
            "There are 4,096 rows at most; standard error says how many more were left out.",
            "Without words it reads the lines of daxfolin lines from standard input and prints the rows of each take when it ends: note, first sample and length, then a line with end, the rows, and those left out.",
        ],
        statuses: &[
            (0, "the rows are printed, or OUT.mid is written"),
            WRONG,
            REFUSED,
            (3, "a file cannot be read, or the rows cannot be written"),
            UNBUILT,
            (5, "OUT.mid exists; -f writes over it"),
        ],
        offer: Offer::Waves,
    },
    Command {
        name: "report",
        short: "figures of takes, and their total",
        forms: &["[OPTION..] IN.wav ..", "<LINES"],
        options: &[TAKE, MIDI, TSV, COMMON],
        about: &[
            "Prints a line for each take, tuned as daxfolin tune would, and a last line for the total: samples, samples with a pitch, cycles repeated, cycles dropped, the sum over all samples of the distance of the rate from 65536 (the rate of what is not altered), and the mean of that distance as whole part and remainder; tab-separated.",
            A_TAKE,
        ],
        more: &[
            A_LINE,
            "Of several files, one that is refused has the number of its refusal as its line, and one that cannot be read has - as its line; the others have their figures, and the total is theirs. Of a single file that is refused the number is printed alone. Nothing is printed before all is read. A report has 1,000 takes at most; of more, 28 is printed alone.",
            "Without words it reads the lines of daxfolin lines from standard input and prints the same figures of their takes. Its status is then 0 if all was read and printed, 1 if a read or a write failed, 2 if the program could not be built.",
        ],
        statuses: &[
            (0, "the report is printed"),
            WRONG,
            REFUSED,
            (
                3,
                "a file cannot be read, a MIDI file is refused, or the report cannot be written",
            ),
            UNBUILT,
        ],
        offer: Offer::Waves,
    },
    Command {
        name: "picture",
        short: "draw what was sung, what was wanted and what was given",
        forms: &["[OPTION..] IN.wav OUT.svg"],
        options: &[TAKE, VOICE, MIDI, PICTURE, COMMON],
        about: &[
            "Tunes the take in IN.wav as daxfolin tune would, and draws it as a page, OUT.svg: in rows of some 15 seconds the sung pitch, the wanted notes and the pitch given out; below them the cents from the wanted note, the level, and the cycles repeated and dropped. At the head are the settings, figures of the take, and whether the scale fits what was sung.",
            A_TAKE,
        ],
        more: &[
            "The pitch is what the meter shows after each 256 samples. Notes are the rows of daxfolin notes, samples with a pitch and cycles are those of daxfolin report, and the latency is that of daxfolin tune. A pointer on a note shows its name, place, length and cents.",
            "A note that was sung counts for the nearest of all twelve. Where more than a fifth was sung outside of the scale, a banner says so and names scales that hold at least 95 %.",
            "With --from and --to the page has a part of the take. The figures at its head are those of the whole take.",
            A_LINE,
            "A page is one file, however long the take is, and the same bytes on every run. It appears when it is whole, and not before. rsvg-convert makes no PNG higher than 32,767 pixels, which a take of over a quarter of an hour may reach: give --from and --to then.",
        ],
        statuses: &[
            (0, "the picture is written"),
            WRONG,
            REFUSED,
            (
                3,
                "a file cannot be read or written, a MIDI file is refused, or a PNG cannot be made",
            ),
            UNBUILT,
            (5, "OUT.svg or OUT.png exists; -f writes over it"),
        ],
        offer: Offer::Waves,
    },
    Command {
        name: "mend",
        short: "mend the sizes of a recording that was cut off",
        forms: &["[OPTION..] FILE.wav"],
        options: &[MEND, COMMON],
        about: &[
            "Mends, in place, a WAVE file that a recorder left when it lost power: its RIFF size and its data size where they are 0, 4294967295 or run past the end of the file, and a RIFF size that stops short of the data. No other byte is changed.",
            "Prints a line for each size that it changed, tab-separated: its place in the file, the old value and the new one, RIFF's first. If nothing is to be mended it prints nothing.",
        ],
        more: &[
            "A second run changes nothing more. If it is stopped in the middle, by a power cut too, another run mends the file to the same. INT and TERM wait until both sizes are stored.",
        ],
        statuses: &[
            (0, "mended, or nothing to mend"),
            WRONG,
            (
                2,
                "the file is refused and not changed; standard output has the number of the refusal (docs/NUMBERS.md)",
            ),
            (3, "the file cannot be read or written"),
            UNBUILT,
        ],
        offer: Offer::Waves,
    },
    Command {
        name: "check",
        short: "check a tuned take, sample by sample, with a second program",
        forms: &["[OPTION..] IN.wav OUT.wav"],
        options: &[TAKE, VOICE, MIDI, COMMON],
        about: &[
            "Tunes IN.wav once more with the independent program, which shares no line with the one that it checks, and compares every sample of OUT.wav with its own. With --voice it compares OUT-1.wav and so on too. Give it the options that OUT was tuned with, a MIDI file among them.",
            "Prints equal, or the first difference with its sample and time.",
        ],
        more: &[
            A_LINE,
            "It takes about two seconds of processor time for each minute of sound, and twice as long for keys in the octave that was sung.",
        ],
        statuses: &[
            (0, "equal"),
            WRONG,
            REFUSED,
            (3, "a file cannot be read"),
            UNBUILT,
            (6, "not equal"),
        ],
        offer: Offer::Waves,
    },
    Command {
        name: "night",
        short: "tune a folder of takes, on one machine or several",
        forms: &["[OPTION..] IN_DIR OUT_DIR"],
        options: &[TAKE, VOICE, MIDI, NIGHT, TSV, COMMON],
        about: &[
            "Tunes every take below IN_DIR to the same name below OUT_DIR, several at a time, the longest first, and prints a report. It runs daxfolin tune by GNU parallel, which has to be installed.",
            "A take is a file whose name ends in .wav. Names that begin with a dot, and folders that are links, are passed over.",
        ],
        more: &[
            "A take is done when its OUT is there. So a night that was stopped in any way goes on where it was when it is started again, and a take that is new, or newer than its OUT, is tuned by the next run. OUT_DIR keeps its settings: other ones are refused, unless with --again. A file that the night did not make is never written over.",
            "With voices the files of a take stand in a folder of its name: OUT_DIR/x.wav/x.wav, and beside it x-1.wav and so on. No two takes can meet there.",
            "With --pictures the picture of x.wav is x.wav.svg beside its OUT, and a take is done when both are there: a later run draws what is missing, also of takes that were tuned without it. OUT_DIR/index.html has the night's figures, what to look at first, and every take with its picture. A picture that fails makes the status 3, and the take stays tuned.",
            "OUT_DIR/.night has report.txt and report.tsv over all takes, the log, the settings, said/ with what was said of each take, and mended/ with mended copies.",
            "A refused take does not stop the others; the report names it with its number and what to do. Takes to look at first stand at the top: more than 20 % sung on notes outside of the scale, clipped input, nothing pitched.",
            "Machines need ssh without a password, and daxfolin of this version: others are left out, and said. They have IN_DIR and OUT_DIR at the same places, or get their takes with --transfer, which needs rsync here and there. A machine that dies gives its takes to the others.",
        ],
        statuses: &[
            (0, "every take is tuned"),
            (1, "usage error, or OUT_DIR was begun with other settings"),
            (
                2,
                "a setting is refused, or takes are, and all others are tuned",
            ),
            (
                3,
                "takes or pictures failed, another night is at work there, or GNU parallel is missing",
            ),
            UNBUILT,
            (6, "--check found a difference"),
        ],
        offer: Offer::Folders,
    },
    Command {
        name: "lines",
        short: "the line program: a line in, an answer out",
        forms: &["<LINES >ANSWERS"],
        options: &[COMMON],
        about: &[
            "Reads lines from standard input, their fields tab-separated, and answers each with a line as soon as it has come: start with scale, eps, decay, floor and, unless it is 44100, the sample rate; change with scale, eps, decay, floor; mode (0 scale, 1 keyboard); channel; midi with bytes; block with number and samples; reset. Before a start line the settings are 4095, 100, 230 and 100.",
            "An answer is a number (docs/NUMBERS.md); that of a block also has samples written, cycles repeated, cycles dropped and the samples.",
        ],
        more: &[],
        statuses: &[
            (0, "every line is answered"),
            (
                1,
                "a read or a write failed, or standard input is a terminal or a WAVE file",
            ),
            (2, "the line program is not there, and could not be built"),
        ],
        offer: Offer::Nothing,
    },
];

/// The shells that completion is made for.
pub const SHELLS: &[&str] = &["bash", "zsh", "fish"];
