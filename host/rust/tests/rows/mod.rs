//! A store for rows, and what it holds.

use independent::list::List;

/// What a store holds before a call.
pub const FILL: u32 = 0xA5A5_A5A5;

/// The rows in a store, and that it is otherwise as it was.
pub fn holds(store: &[u32], list: &List) {
    let numbers = list.numbers();
    assert_eq!(store[..numbers.len()], numbers);
    assert!(store[numbers.len()..].iter().all(|&number| number == FILL));
}
