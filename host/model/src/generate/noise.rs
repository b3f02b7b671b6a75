//! Random bytes as bench input: of all bytes, or of those that good and nearly good lines are made of.

use super::random::Random;

const NEAR_LINES: &[u8] = b"WAITX\t\t\t\t\t\t000111224467\n\n\n8 \r";

pub struct Noise {
    random: Random,
    near: bool,
}

impl Noise {
    pub fn bytes(seed: u64) -> Noise {
        Noise { random: Random::new(seed), near: false }
    }

    pub fn near_lines(seed: u64) -> Noise {
        Noise { random: Random::new(seed), near: true }
    }
}

impl Iterator for Noise {
    type Item = u8;

    fn next(&mut self) -> Option<u8> {
        let byte = if self.near { self.random.pick(NEAR_LINES) } else { self.random.word() as u8 };
        Some(byte)
    }
}
