//! Lines that cannot be read, of every sort.

use super::random::Random;
use crate::lines::LONGEST_LINE;

/// Lines that cannot be read, whatever the tuner holds.
pub const SPOILT: &[&[u8]] = &[
    b"",
    b"\t",
    b"\r",
    b" ",
    b"block",
    b"block\t",
    b"block\t0\t",
    b"block\t\t1",
    b"block\t0\t\t1",
    b"block\t0\t1\t",
    b"block\t0\t1\r",
    b"block 0 1",
    b"block\t 0\t1",
    b"block\t65536\t1",
    b"block\t65536",
    b"block\t-1\t1",
    b"block\t-0\t1",
    b"block\t+0\t1",
    b"block\tzero\t1",
    b"block\t0\t32768",
    b"block\t0\t-32769",
    b"block\t0\t+1",
    b"block\t0\t-",
    b"block\t0\t--1",
    b"block\t0\t1-",
    b"block\t0\t1.5",
    b"block\t0\t1e3",
    b"block\t0\t0x10",
    b"block\t0\t18446744073709551617",
    b"block\t0\t340282366920938463463374607431768211457",
    b"block\t18446744073709551616\t1",
    b"Block\t0\t1",
    b"blocks\t0\t1",
    b" block\t0\t1",
    b"\tblock\t0\t1",
    b"reset\t",
    b"reset\t0",
    b"reset ",
    b"reset\r",
    b"Reset",
    b"rese",
    b"start",
    b"start\t",
    b"start\t4095\t100\t0",
    b"start\t4095\t100\t0\t",
    b"start\t4095\t100\t0\t100\t",
    b"start\t4095\t100\t0\t100\t44100\t",
    b"start\t4095\t100\t0\t100\t48000\t0",
    b"start\t4095\t100\t0\t100\t\t48000",
    b"start\t4095\t100\t0\t100\t-48000",
    b"start\t4095\t100\t0\t100\t48000Hz",
    b"start\t4095\t100\t0\t100\t4294967296",
    b"start\t4095\t100\t-0\t100",
    b"start\t4095\t100\t0\t-100",
    b"start\t4095\t4294967296\t0\t100",
    b"start\t4294967296\t100\t0\t100",
    b"start\t4095\t100\t18446744073709551616\t100",
    b"change",
    b"change\t\t100\t0\t100",
    b"change\t4095\t100\t0",
    b"change\t4095\t100\t0\t100\t0",
    b"change\t4095\t100\t0\t100\t48000",
    b"change\t4095\t100\t0\t4294967296",
    b"change\t0x1\t100\t0\t100",
    b"change\t4095\t1.0\t0\t100",
    b"change\t4095\t+1\t0\t100",
    b"change\t4095 100 0 100",
    b"stop",
    b"10",
    b"\xEF\xBB\xBFreset",
    b"block\t0\t\xEF\xBC\x91",
    b"reset\0",
    b"\xFF\xFE",
];

/// A line that cannot be read, without its end.
pub fn spoilt_line(random: &mut Random) -> Vec<u8> {
    match random.whole(0, 9) {
        0 => {
            // Any bytes but a line's end; no word begins with byte 1.
            let length = random.whole(0, 60);
            let bytes = (0..length).map(|_| random.next() as u8);
            let bytes = bytes.filter(|&byte| byte != b'\n');
            std::iter::once(1).chain(bytes).collect()
        }
        1 => {
            let over = random.one_of(&[1, 2, 100, 9_000, 70_000]);
            filled_line(b"block\t0\t", LONGEST_LINE + over)
        }
        2 => filled_line(b"reset", LONGEST_LINE + 1),
        _ => random.one_of(SPOILT).to_vec(),
    }
}

/// A line of this length, zeros after its beginning.
pub fn filled_line(beginning: &[u8], length: usize) -> Vec<u8> {
    let mut line = beginning.to_vec();
    line.resize(length, b'0');
    line
}
