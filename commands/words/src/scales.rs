//! Scales in musicians' words, as the mask that a start takes: bit 0 is C.

use crate::parse::whole;

/// Scales that a tonic stands before, as the steps above it. Where one has several names, the first is printed.
const SCALES: &[(&[&str], &[u32])] = &[
    (&["major", "ionian", "maj"], &[0, 2, 4, 5, 7, 9, 11]),
    (&["minor", "aeolian", "min"], &[0, 2, 3, 5, 7, 8, 10]),
    (&["harmonic-minor"], &[0, 2, 3, 5, 7, 8, 11]),
    (&["melodic-minor"], &[0, 2, 3, 5, 7, 9, 11]),
    (&["dorian"], &[0, 2, 3, 5, 7, 9, 10]),
    (&["phrygian"], &[0, 1, 3, 5, 7, 8, 10]),
    (&["lydian"], &[0, 2, 4, 6, 7, 9, 11]),
    (&["mixolydian"], &[0, 2, 4, 5, 7, 9, 10]),
    (&["locrian"], &[0, 1, 3, 5, 6, 8, 10]),
    (&["pentatonic", "major-pentatonic"], &[0, 2, 4, 7, 9]),
    (&["minor-pentatonic"], &[0, 3, 5, 7, 10]),
    (&["blues", "minor-blues"], &[0, 3, 5, 6, 7, 10]),
    (&["major-blues"], &[0, 2, 3, 4, 7, 9]),
    (&["whole-tone"], &[0, 2, 4, 6, 8, 10]),
];

/// The twelve notes. Sharps, no flats.
pub const NAMES: [&str; 12] = [
    "C", "C#", "D", "D#", "E", "F", "F#", "G", "G#", "A", "A#", "B",
];

/// A scale's mask. A number is handed on as it is, for the start to judge.
pub fn mask(text: &str) -> Option<u32> {
    if let Some(number) = whole(text) {
        return Some(number);
    }
    let lower = text.to_lowercase();
    if lower == "chromatic" {
        return Some(4095);
    }
    notes(&lower)
        .or_else(|| chord(text))
        .or_else(|| scale(&lower))
}

/// Notes with commas between them.
fn notes(text: &str) -> Option<u32> {
    text.split(',')
        .try_fold(0, |mask, name| Some(mask | 1 << note(name.trim())?))
}

/// A minor scale as on a chord sheet, Am: a small m, since AM would be a major one to some.
fn chord(text: &str) -> Option<u32> {
    let tonic = text.strip_suffix('m')?;
    steps_above(note(&tonic.to_lowercase())?, "minor")
}

/// A tonic, then a dash or a blank, then the scale's name.
fn scale(text: &str) -> Option<u32> {
    let (tonic, kind) = text.split_once([' ', '-'])?;
    let kind: Vec<&str> = kind.split([' ', '-']).collect();
    steps_above(note(tonic)?, &kind.join("-"))
}

fn steps_above(tonic: u32, kind: &str) -> Option<u32> {
    let (_, steps) = SCALES.iter().find(|(names, _)| names.contains(&kind))?;
    let mask = |mask: u32, step: &u32| mask | 1 << ((tonic + step) % 12);
    Some(steps.iter().fold(0, mask))
}

/// A note's number in its octave, C 0 to B 11, by its name in small letters: a letter, and a sharp or a flat behind it.
fn note(name: &str) -> Option<u32> {
    let mut letters = name.chars();
    let natural = match letters.next()? {
        'c' => 0,
        'd' => 2,
        'e' => 4,
        'f' => 5,
        'g' => 7,
        'a' => 9,
        'b' => 11,
        _ => return None,
    };
    match (letters.next(), letters.next()) {
        (None, _) => Some(natural),
        (Some('#' | '♯'), None) => Some((natural + 1) % 12),
        (Some('b' | '♭'), None) => Some((natural + 11) % 12),
        _ => None,
    }
}

/// The name of a note, 0 to 127, with its octave: 60 is C4. Sharps, no flats.
pub fn name(note: u32) -> String {
    let octave = i64::from(note / 12) - 1;
    format!("{}{octave}", NAMES[(note % 12) as usize])
}

/// A set of notes that is a scale above some tonic.
#[derive(Debug, PartialEq)]
pub struct Set {
    pub mask: u32,
    /// Where it has several names the first two, as C-major / A-minor.
    pub name: String,
    /// The first name's, C 0 to B 11.
    pub tonic: u32,
    /// The place of its kind in the list of scales: what is more common comes first.
    pub kind: usize,
}

/// Every set of notes that is a scale, once.
pub fn sets() -> Vec<Set> {
    let mut sets: Vec<Set> = Vec::new();
    for (kind, (names, _)) in SCALES.iter().enumerate() {
        for (tonic, note) in (0..).zip(NAMES) {
            let mask = steps_above(tonic, names[0]).unwrap_or_default();
            let name = format!("{note}-{}", names[0]);
            match sets.iter_mut().find(|set| set.mask == mask) {
                Some(set) if !set.name.contains('/') => set.name += &format!(" / {name}"),
                Some(_) => {}
                None => sets.push(Set {
                    mask,
                    name,
                    tonic,
                    kind,
                }),
            }
        }
    }
    sets
}

/// What `--scale list` prints: each scale above C, its notes and its mask.
pub fn list() -> String {
    let mut text = String::from(
        "A scale is a note from C to B, with # or b, and one of these names behind a\n\
         dash or a blank: C-major, \"Bb dorian\". Am is A minor. Above C they are:\n\n",
    );
    text += &format!("  {:18}  {:6}  {}\n", "chromatic", 4095, NAMES.join(" "));
    for (names, steps) in SCALES {
        let mask = steps_above(0, names[0]).unwrap_or_default();
        let notes: Vec<&str> = steps.iter().map(|step| NAMES[*step as usize]).collect();
        let others = match names.len() {
            1 => String::new(),
            _ => format!("  (also {})", names[1..].join(", ")),
        };
        text += &format!("  {:18}  {mask:6}  {}{others}\n", names[0], notes.join(" "));
    }
    text + "\nOr notes with commas between them: C,Eb,F#. Or a number from 1 to 4095: the sum\n\
            of 1 for C, 2 for C#, 4 for D, and so on to 2048 for B.\n"
}

#[cfg(test)]
mod tests {
    use super::*;

    #[test]
    fn scales_in_musicians_words() {
        let bits = |notes: &[u32]| Some(notes.iter().fold(0, |mask, note| mask | 1 << note));
        let a_minor = bits(&[9, 11, 0, 2, 4, 5, 7]);
        for (text, mask) in [
            ("4095", Some(4095)),
            ("0", Some(0)),
            ("99999999999", Some(u32::MAX)),
            ("chromatic", Some(4095)),
            ("Chromatic", Some(4095)),
            ("C", bits(&[0])),
            ("b", bits(&[11])),
            ("Bb", bits(&[10])),
            ("bB", bits(&[10])),
            ("C,D,E", bits(&[0, 2, 4])),
            ("c, d ,E", bits(&[0, 2, 4])),
            ("C,C,B#", bits(&[0])),
            ("C#,Db,C♯,d♭", bits(&[1])),
            ("Cb,E#,Fb", bits(&[11, 5, 4])),
            ("C-major", bits(&[0, 2, 4, 5, 7, 9, 11])),
            ("C major", bits(&[0, 2, 4, 5, 7, 9, 11])),
            ("C-maj", bits(&[0, 2, 4, 5, 7, 9, 11])),
            ("C-ionian", bits(&[0, 2, 4, 5, 7, 9, 11])),
            ("A-minor", a_minor),
            ("a-MINOR", a_minor),
            ("A minor", a_minor),
            ("Am", a_minor),
            ("am", a_minor),
            ("A-aeolian", a_minor),
            ("D-dorian", a_minor),
            ("e phrygian", a_minor),
            ("F Lydian", a_minor),
            ("G-mixolydian", a_minor),
            ("B-locrian", a_minor),
            ("F#m", bits(&[6, 8, 9, 11, 1, 2, 4])),
            ("Bbm", bits(&[10, 0, 1, 3, 5, 6, 8])),
            ("bm", bits(&[11, 1, 2, 4, 6, 7, 9])),
            ("Bb-major", bits(&[10, 0, 2, 3, 5, 7, 9])),
            ("F#-minor", bits(&[6, 8, 9, 11, 1, 2, 4])),
            ("A-harmonic-minor", bits(&[9, 11, 0, 2, 4, 5, 8])),
            ("A harmonic minor", bits(&[9, 11, 0, 2, 4, 5, 8])),
            ("A-melodic-minor", bits(&[9, 11, 0, 2, 4, 6, 8])),
            ("C-pentatonic", bits(&[0, 2, 4, 7, 9])),
            ("A-minor-pentatonic", bits(&[9, 0, 2, 4, 7])),
            ("A blues", bits(&[9, 0, 2, 3, 4, 7])),
            ("C-whole-tone", bits(&[0, 2, 4, 6, 8, 10])),
            ("", None),
            ("H", None),
            ("C,", None),
            (",", None),
            ("C,,D", None),
            ("C##", None),
            ("Cbb", None),
            ("#", None),
            ("m", None),
            ("Hm", None),
            ("AM", None),
            ("major", None),
            ("-major", None),
            ("C-", None),
            ("C  major", None),
            ("C-major-minor", None),
            ("C-chromatic", None),
            ("-1", None),
            ("12a", None),
        ] {
            assert_eq!(super::mask(text), mask, "{text}");
        }
    }

    #[test]
    fn names_of_notes() {
        for (note, right) in [
            (60, "C4"),
            (61, "C#4"),
            (69, "A4"),
            (59, "B3"),
            (32, "G#1"),
            (102, "F#7"),
            (12, "C0"),
            (11, "B-1"),
            (0, "C-1"),
            (127, "G9"),
        ] {
            assert_eq!(name(note), right);
        }
        // What is named so is wanted by a scale of that name.
        for at in 60..72 {
            let name = name(at).to_lowercase();
            assert_eq!(note(name.trim_end_matches('4')), Some(at % 12));
        }
    }

    /// The twelve major scales each have seven notes, and no two are the same; a minor is the major three steps up.
    #[test]
    fn every_key() {
        let names = [
            "C", "Db", "D", "Eb", "E", "F", "F#", "G", "Ab", "A", "Bb", "B",
        ];
        let major = |name: &&str| mask(&format!("{name}-major")).unwrap();
        let majors: Vec<u32> = names.iter().map(major).collect();
        for (at, name) in names.iter().enumerate() {
            assert_eq!(majors[at].count_ones(), 7);
            assert_eq!(
                majors.iter().filter(|major| **major == majors[at]).count(),
                1
            );
            let minor = Some(majors[(at + 3) % 12]);
            assert_eq!(mask(&format!("{name}-minor")), minor);
            assert_eq!(mask(&format!("{name}m")), minor);
            assert_eq!(mask(name), Some(1 << at));
        }
    }

    /// A name of a set is one of its notes; the modes of a major scale are one set, and no set is there twice.
    #[test]
    fn sets_of_notes() {
        let sets = sets();
        let name = "C-major / A-minor".to_string();
        let first = Set {
            mask: 2741,
            name,
            tonic: 0,
            kind: 0,
        };
        assert_eq!(sets[0], first);
        let sevens = sets.iter().filter(|set| set.mask.count_ones() == 7);
        assert_eq!(sevens.count(), 36);
        for (at, set) in sets.iter().enumerate() {
            assert!(sets[..at].iter().all(|other| other.mask != set.mask));
            for name in set.name.split(" / ") {
                assert_eq!(mask(name), Some(set.mask), "{name}");
            }
        }
    }

    #[test]
    fn the_list_fits_a_terminal() {
        let list = list();
        assert!(
            list.lines().all(|line| line.chars().count() <= 80),
            "{list}"
        );
        let blues = list.lines().find(|line| line.starts_with("  blues "));
        let words: Vec<&str> = blues.unwrap().split_whitespace().take(8).collect();
        assert_eq!(words.join(" "), "blues 1257 C D# F F# G A#");
    }
}
