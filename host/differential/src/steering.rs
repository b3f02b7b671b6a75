//! Which call comes next, and how much memory it is lent.

use crate::pair::{Pair, BUFFER};
use crate::random::Random;
use kt11b::LONGEST_MEMORY;
use kt11b_model::bench::{parse, Call, Line, MEMORY_BYTES};
use kt11b_model::generate::Generator;
use kt11b_model::{Unit, Wait};

/// How a run lends memory.
#[derive(Clone, Copy, PartialEq, Eq, Debug)]
pub enum Lengths {
    /// Always the bench program's, for which the generator steers exactly.
    Bench,
    /// One length for most of the run; odd, too large and other lengths between.
    Varied,
}

/// A run's next steps: the generator's lines, and beside them what is due in the pair's own state.
pub struct Steering {
    random: Random,
    generator: Generator,
    lengths: Lengths,
    length: usize,
}

impl Steering {
    /// The steering for a seed and a number of cells, 8 or 24, and the memory that the run begins with.
    pub fn new(seed: u64, cells: u64, lengths: Lengths) -> (Steering, Vec<u8>) {
        let mut random = Random::new(seed ^ 0x6b74_3131_6221);
        let length = match lengths {
            Lengths::Bench => MEMORY_BYTES,
            Lengths::Varied => usual_length(&mut random),
        };
        let unit = Unit::with_cells(cells).expect("the model makes the unit");
        let generator = Generator::new(seed, unit);
        let memory = first_memory(&mut random, lengths);
        (Steering { random, generator, lengths, length }, memory)
    }

    /// Makes the next step of the pair: a word stored in memory, a call, or nothing for a bad line.
    pub fn step(&mut self, pair: &mut Pair) {
        let due = match self.lengths {
            Lengths::Bench => None,
            Lengths::Varied => self.due(pair),
        };
        let line = match due {
            Some(call) => Some(Line::Call(call)),
            None => parse(&self.generator.next_line()),
        };
        match line {
            Some(Line::Word { address, value }) => pair.put_word(usize::from(address), value),
            Some(Line::Call(call)) => {
                let length = self.next_length();
                let call = self.widened(call);
                pair.call(call, length);
            }
            None => {}
        }
    }

    /// The call that the pair waits for, most times; the generator's own unit may not be waiting.
    fn due(&mut self, pair: &Pair) -> Option<Call> {
        if self.random.one_in(8) {
            return None;
        }
        let [address, data] = [self.random.word(), self.random.word()];
        let state = 1 + self.random.below(4);
        match (pair.model().wait(), pair.model().fcn()) {
            (Wait::Status | Wait::ProgramCounter, _) => {
                Some(Call::Access { operation: 2, state: 4, width: 0, address, data })
            }
            (Wait::SecondStart, _) | (Wait::None, 3) => {
                Some(Call::Access { operation: 0, state, width: 0, address, data })
            }
            _ => None,
        }
    }

    fn next_length(&mut self) -> usize {
        if self.lengths == Lengths::Bench || !self.random.one_in(25) {
            return self.length;
        }
        match self.random.below(4) {
            0 => self.random.below(BUFFER as u64) as usize | 1,
            1 => LONGEST_MEMORY + 1 + self.random.below(4095) as usize,
            2 => LONGEST_MEMORY,
            _ => usual_length(&mut self.random),
        }
    }

    /// Seldom, the same numbers with bits above 32 set: they are other numbers.
    fn widened(&mut self, call: Call) -> Call {
        if self.lengths == Lengths::Bench || !self.random.one_in(200) {
            return call;
        }
        let above = (self.random.number() | 1) << (32 + self.random.below(16));
        match call {
            Call::Access { operation, state, width, address, data } => {
                let [operation, state, width] = match self.random.below(3) {
                    0 => [operation | above, state, width],
                    1 => [operation, state | above, width],
                    _ => [operation, state, width | above],
                };
                Call::Access { operation, state, width, address, data }
            }
            Call::Trap { vector } => Call::Trap { vector: vector | above },
            Call::Interrupt | Call::Init => call,
        }
    }
}

/// An even length from 0 to 760000, often one that ends among the generator's maps (pages 1 to 6) or data (8 to 23 octal).
fn usual_length(random: &mut Random) -> usize {
    let bound = match random.below(10) {
        0 => 8,
        1 => 0o010000,
        2..=3 => 0o024000,
        4..=5 => 0o200000,
        6..=7 => LONGEST_MEMORY as u64 + 2,
        _ => return LONGEST_MEMORY,
    };
    random.below(bound) as usize & !1
}

/// Zero as the bench program's, or with random words beyond what the generator stores into.
fn first_memory(random: &mut Random, lengths: Lengths) -> Vec<u8> {
    let mut memory = vec![0; BUFFER];
    if lengths == Lengths::Varied {
        memory[MEMORY_BYTES..].fill_with(|| random.number() as u8);
    }
    memory
}
