//! The generator's lines, kept to where units of both counts agree: "While fewer than eight walks were made since all cells were last
//! emptied, and away from 777640o to 777677o, the two counts agree in every answer and register".

use super::Generator;
use crate::bench::Machine;
use crate::state::{Reply, Unit, FEW_CELLS, FIRST_CELL, MANY_CELLS};

/// The lines of a generator but for accesses that end at 777640o to 777677o, with an INIT before each that would make the eighth walk.
pub struct FewWalks {
    generator: Generator,
    /// A machine with 24 cells, which has followed every line given and tries the next.
    judge: Machine,
    left_out: u64,
    emptied: u64,
}

impl FewWalks {
    /// The lines of a generator that steers by this fresh unit, which may be of either count.
    pub fn new(seed: u64, unit: Unit) -> FewWalks {
        let judge = Machine::of(Unit::fresh_of(MANY_CELLS));
        FewWalks { generator: Generator::new(seed, unit), judge, left_out: 0, emptied: 0 }
    }

    /// How many accesses to the upper words were left out.
    pub fn left_out(&self) -> u64 {
        self.left_out
    }

    /// How many times an INIT came before an eighth walk.
    pub fn emptied(&self) -> u64 {
        self.emptied
    }

    /// The next line, without its newline.
    pub fn next_line(&mut self) -> Vec<u8> {
        loop {
            let line = self.generator.chosen();
            let before = self.judge.clone();
            let reply = self.judge.follow(&line);
            if ends_at_upper_word(reply) {
                self.judge = before;
                self.left_out += 1;
            } else if walks_since_emptied(&self.judge.unit) < FEW_CELLS {
                self.generator.follow(&line);
                return line;
            } else {
                self.judge = before;
                self.emptied += 1;
                self.generator.queue.push_front(line);
                return self.init();
            }
        }
    }

    fn init(&mut self) -> Vec<u8> {
        let line = b"X".to_vec();
        self.judge.follow(&line);
        self.generator.follow(&line);
        line
    }
}

/// With 24 cells each access that ends there has a physical address.
fn ends_at_upper_word(reply: Option<Reply>) -> bool {
    let physical = reply.and_then(|reply| reply.physical);
    matches!(physical, Some(0o777640..=0o777677))
}

/// Each walk steps the counter; with 24 cells it is not round before the twenty-fourth.
fn walks_since_emptied(unit: &Unit) -> usize {
    usize::from(unit.counter() - FIRST_CELL)
}
