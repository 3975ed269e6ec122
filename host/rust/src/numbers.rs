//! The words for every number that a call answers, from `host/numbers.txt`.

const TABLE: &str = include_str!("../../numbers.txt");

/// What a number means, in a few words of English; of one that no call answers, that it is unknown.
pub fn words(number: u32) -> &'static str {
    field(number, 1).unwrap_or("an unknown number")
}

/// What to do about it.
pub fn remedy(number: u32) -> &'static str {
    field(number, 2).unwrap_or("")
}

fn field(number: u32, at: usize) -> Option<&'static str> {
    let line = TABLE.lines().nth(usize::try_from(number).ok()?)?;
    line.split('\t').nth(at)
}
