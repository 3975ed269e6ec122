//! The scripted take of calls: what its blocks and nights over the record lent are
//! answered.

use independent::play::{play, script, Call, RECORD};
use independent::tuner::Tuner;
use std::collections::BTreeSet;

/// The answers to the script's records of a call: the numbers of each line.
fn answers(call: Call) -> Vec<Vec<u64>> {
    let mut tuner = Tuner::default_start();
    let mut answers = Vec::new();
    for record in script().chunks_exact(RECORD) {
        let line = play(&mut tuner, record);
        if record[0] == call as u8 {
            let numbers = line.split_whitespace().map(|word| word.parse().unwrap());
            answers.push(numbers.collect());
        }
    }
    answers
}

fn numbers(answers: &[Vec<u64>]) -> Vec<u64> {
    let all: BTreeSet<u64> = answers.iter().map(|answer| answer[0]).collect();
    all.into_iter().collect()
}

#[test]
fn lent_blocks_are_taken_given_again_and_refused_with_each_number() {
    let by_value = numbers(&answers(Call::Block));
    assert_eq!(by_value, [0, 1, 2, 3, 4, 5, 6, 7, 9]);
    assert_eq!(numbers(&answers(Call::BlockLent)), by_value);
}

#[test]
fn nights_are_taken_begun_again_and_refused_with_each_number() {
    let nights = answers(Call::Night);
    assert_eq!(numbers(&nights), [0, 3, 4, 5, 6, 7, 9]);
    let some = |sort: &dyn Fn(&[u64]) -> bool| assert!(nights.iter().any(|night| sort(night)));
    // Number, refused, taken, written, repeated, dropped; and the block given again.
    some(&|night| night[2] > 1 && night[4] > 0);
    some(&|night| night[2] > 1 && night[5] > 0);
    some(&|night| night[0] == 0 && night[2] > 1 && night[6] == 1);
    some(&|night| night[0] == 0 && night[2] == 0 && night[6] == 1);
    some(&|night| night[0] == 0 && night[2] == 0 && night[6] == 0);
    // Refused behind blocks that were taken, and behind one given again.
    some(&|night| night[0] == 7 && night[2] > 0);
    some(&|night| night[0] == 7 && night[2] == 0 && night[6] == 1);
}
