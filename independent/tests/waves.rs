//! Cases of WAVE files: their bytes, their answers, and what they reach.

use independent::generator::files::{listed, Files};
use independent::wave::{read, write};
use independent::waves::{answer_all, Case, Independent};
use std::collections::HashMap;

/// A file of no samples at 44,100.
const EMPTY: &str = "524946462400000057415645666d74201000000001000100\
                     44ac0000885801000200100064617461";

fn answer(case: Case) -> String {
    case.answer(&Independent)
}

/// A file of two samples.
fn file() -> Vec<u8> {
    write(44_100, &[258, -2], 48).unwrap()
}

#[test]
fn answers_are_lines_of_all_that_was_answered_and_left() {
    let read = |room, file| answer(Case::Read { room, file });
    assert_eq!(read(3, file()), "r\t0\t44100\t2\t258\t-2\t-21931");
    assert_eq!(read(1, file()), "r\t25\t0\t0\t-21931");
    assert_eq!(read(0, vec![]), "r\t20\t0\t0");
    let write = |hertz, room| {
        let samples = vec![];
        answer(Case::Write {
            hertz,
            room,
            samples,
        })
    };
    assert_eq!(write(44_100, 45), format!("w\t0\t44\t{EMPTY}00000000a5"));
    assert_eq!(write(44_100, 2), "w\t25\t0\ta5a5");
    assert_eq!(write(44_101, 0), "w\t16\t0\t");
    let header = |hertz, samples| answer(Case::Header { hertz, samples });
    assert_eq!(header(44_100, 0), format!("h\t0\t{EMPTY}00000000"));
    assert_eq!(header(44_100, 1_000_000_001), "h\t7\t");
    assert_eq!(answer(Case::SeekTake(file())), "s\t0\t44100\t44\t2");
    assert_eq!(answer(Case::SeekTake(vec![])), "s\t20\t0\t0\t0");
    let stopped = || [&file()[..43], &[255, 1, 2, 3]].concat();
    assert_eq!(
        answer(Case::SeekMending(stopped())),
        "t\t0\t4\t40\t39\t40\t4278190084\t2"
    );
    let mended = "524946462700000057415645666d7420100000000100010044ac0000\
                  88580100020010006461746102000000010203";
    assert_eq!(
        answer(Case::Mend(stopped())),
        format!(
            "m\t0\t4\t40\t39\t40\t4278190084\t2\t{mended}\t0\t4\t39\t39\t40\t2\t2\t0\t44100\t1"
        )
    );
    assert_eq!(
        answer(Case::Mend(b"RIFF".to_vec())),
        "m\t20\t0\t0\t0\t0\t0\t0\t52494646\t20\t0\t0\t0\t0\t0\t0\t20\t0\t0"
    );
}

#[test]
fn cases_are_read_back_from_their_bytes() {
    let mut source = Files::seeded(1);
    let cases: Vec<Case> = (0..6_000).map(|_| source.case()).collect();
    let bytes: Vec<u8> = cases.iter().flat_map(Case::bytes).collect();
    let mut rest = &bytes[..];
    for case in &cases {
        assert_eq!(Case::read(&mut rest).unwrap().as_ref(), Some(case));
    }
    assert_eq!(Case::read(&mut rest).unwrap(), None);
    let mut lines = Vec::new();
    answer_all(&Independent, &mut &bytes[..], &mut lines).unwrap();
    let right: String = cases
        .iter()
        .map(|case| answer(case.clone()) + "\n")
        .collect();
    assert!(lines == right.as_bytes());
    // A case cut short, and one that there is not.
    assert!(answer_all(&Independent, &mut &b"m\x01\0\0\0"[..], &mut lines).is_err());
    assert!(answer_all(&Independent, &mut &b"x"[..], &mut lines).is_err());
}

/// The list comes first, and every call and refusal is reached often by it and by
/// chance; 29 and a take over its limit need longer files than these.
#[test]
fn every_refusal_is_reached_by_the_list_and_by_chance() {
    let first = listed().len();
    assert_eq!(first, 4_362);
    let mut source = Files::seeded(1);
    let count = |cases: usize, source: &mut Files| {
        let mut seen: HashMap<String, usize> = HashMap::new();
        for _ in 0..cases {
            let said = answer(source.case());
            let fields: Vec<&str> = said.splitn(3, '\t').take(2).collect();
            *seen.entry(fields.join(" ")).or_default() += 1;
        }
        seen
    };
    for seen in [count(first, &mut source), count(first, &mut source)] {
        let reached = [
            ("r", &[0, 20, 21, 22, 23, 24, 25][..]),
            ("s", &[0, 20, 21, 22, 23, 24]),
            ("m", &[0, 20, 26, 27]),
            ("t", &[0, 20, 26, 27]),
            ("w", &[0, 16, 25]),
            ("h", &[0, 7, 16]),
        ];
        for (call, numbers) in reached {
            for number in numbers {
                let times = seen.get(&format!("{call} {number}")).copied().unwrap_or(0);
                assert!(times >= 8, "{call} {number}: {times}");
            }
        }
    }
}

/// A file that was mended is not mended again; one that is read is written in the
/// form that is a fixed point.
#[test]
fn mending_and_writing_are_done_after_one_time() {
    let mut source = Files::seeded(2);
    let (mut mended, mut rewritten) = (0, 0);
    for _ in 0..20_000 {
        match source.case() {
            case @ Case::Mend(_) => {
                let said = answer(case);
                let fields: Vec<&str> = said.split('\t').collect();
                let changes = fields[3] != fields[4] || fields[6] != fields[7];
                mended += usize::from(changes);
                assert_eq!(fields[9], fields[1], "{said}");
                assert_eq!(fields[11], fields[12], "{said}");
                assert_eq!(fields[14], fields[15], "{said}");
            }
            Case::SeekTake(file) => {
                let Ok((hertz, samples)) = read(&file, usize::MAX) else {
                    continue;
                };
                let canonical = write(hertz, &samples, usize::MAX).unwrap();
                assert_eq!(read(&canonical, samples.len()), Ok((hertz, samples)));
                rewritten += usize::from(canonical != file);
            }
            _ => {}
        }
    }
    assert!(mended > 1_000, "{mended} mended");
    assert!(rewritten > 200, "{rewritten} rewritten");
}

/// Fowler, Noll and Vo's 64-bit sum, 1a.
fn sum(bytes: &[u8]) -> u64 {
    bytes.iter().fold(0xCBF2_9CE4_8422_2325, |sum, &byte| {
        (sum ^ u64::from(byte)).wrapping_mul(0x0000_0100_0000_01B3)
    })
}

#[test]
fn a_seed_gives_the_same_cases_on_every_machine() {
    let mut source = Files::seeded(1);
    let bytes: Vec<u8> = (0..20_000).flat_map(|_| source.case().bytes()).collect();
    assert_eq!(sum(&bytes), 0x2EA5_3A4C_E050_D7E0, "{:#X}", sum(&bytes));
}
