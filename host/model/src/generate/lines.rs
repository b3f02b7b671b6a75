//! Writing bench lines: good ones in varied spelling, and bad ones of every sort.

use super::random::Random;

/// Lines of every sort that the bench program must call bad.
const BAD_LINES: [&[u8]; 41] = [
    b"",
    b"\t",
    b"A",
    b"A\t0\t2\t0\t001000",
    b"A\t0\t2\t0\t001000\t000000\t0",
    b"A\t0\t2\t0\t001000\t000000\t",
    b"A\t0\t2\t0\t001000\t",
    b"A\t0\t2\t0\t001000\t000000\r",
    b"A\t0\t2\t0\t001000\t0000000",
    b"A\t0\t2\t0\t200000\t000000",
    b"A\t0\t2\t0\t001008\t000000",
    b"A\t0\t9\t0\t001000\t000000",
    b"A 0 2 0 001000 000000",
    b"A\t0\t2\t0\t 01000\t000000",
    b"A\t0\t2\t0\t001000\t000000 ",
    b"A\t-1\t2\t0\t001000\t000000",
    b"A\t+1\t2\t0\t001000\t000000",
    b"a\t0\t2\t0\t001000\t000000",
    b"W\t001001\t000000",
    b"W\t001000",
    b"W\t001000\t000000\t0",
    b"W\t001000\t177778",
    b"W\t001000\t777777",
    b"W\t0001000\t000001",
    b"W\t\t000001",
    b"I\t",
    b"I\t0",
    b" I",
    b"I\r",
    b"T",
    b"T\t",
    b"T\t8",
    b"T\t34\t0",
    b"T\t0000034",
    b"X ",
    b"X\t0",
    b"XX",
    b"Z",
    b"# remark",
    b"\xff\xfe",
    b"T\t3\x00",
];

/// A number in six digits, or as short as it goes, or in between.
fn number(random: &mut Random, value: u64) -> String {
    let digits = match random.below(20) {
        0..=14 => 6,
        15..=18 => 1,
        _ => 1 + random.below(6) as usize,
    };
    format!("{value:0digits$o}")
}

/// A small number, now and then with leading zeros.
fn small(random: &mut Random, value: u64) -> String {
    if random.one_in(50) {
        number(random, value)
    } else {
        format!("{value:o}")
    }
}

pub fn word_line(random: &mut Random, address: u16, value: u16) -> Vec<u8> {
    let address = number(random, u64::from(address & !1));
    let value = number(random, u64::from(value));
    format!("W\t{address}\t{value}").into_bytes()
}

pub fn access_line(random: &mut Random, kind: [u64; 3], address: u16, data: u16) -> Vec<u8> {
    let [operation, state, width] = kind.map(|value| small(random, value));
    let address = number(random, u64::from(address));
    let data = number(random, u64::from(data));
    format!("A\t{operation}\t{state}\t{width}\t{address}\t{data}").into_bytes()
}

pub fn trap_line(random: &mut Random, vector: u64) -> Vec<u8> {
    format!("T\t{}", small(random, vector)).into_bytes()
}

/// A line the bench program must call bad.
pub fn bad_line(random: &mut Random) -> Vec<u8> {
    random.pick(&BAD_LINES).to_vec()
}

#[cfg(test)]
mod tests {
    use super::*;
    use crate::bench::{parse, Line};

    #[test]
    fn bad_lines_are_bad() {
        for line in BAD_LINES {
            assert_eq!(parse(line), None, "{}", line.escape_ascii());
        }
    }

    #[test]
    fn good_lines_are_good_in_every_spelling() {
        let mut random = Random::new(5);
        for _ in 0..1_000 {
            let value = random.word();
            let expected = Line::Word { address: value & !1, value };
            assert_eq!(parse(&word_line(&mut random, value, value)), Some(expected));
            let line = access_line(&mut random, [3, 4, 1], value, value);
            assert!(matches!(parse(&line), Some(Line::Call(_))));
        }
    }
}
