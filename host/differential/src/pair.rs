//! The library and the model side by side.

use crate::words::words_of;
use kt11b::{NumberedAccess, Register};
use kt11b_model::bench::Call;
use kt11b_model::generate::{boundary_walks, filled_all_cells, went_round};

/// More than the longest memory, so that lengths that are too large can be lent too.
pub const BUFFER: usize = kt11b::LONGEST_MEMORY + 4096;

const MOST_CELLS: usize = kt11b_model::MANY_CELLS;

/// "Cell i (from 0) is the one that the counter names at 10o + i".
const FIRST_CELL: u8 = 0o10;

/// The registers that the model gives as an array, in its order.
const EIGHT: [Register; 8] = [
    Register::Ktic,
    Register::Ktsp,
    Register::Ktpc,
    Register::Ktps,
    Register::Ktad,
    Register::Ktdt,
    Register::Ktum,
    Register::Ktem,
];

/// How often something came in a run.
#[derive(Clone, Copy, Default, Debug)]
pub struct Counts {
    /// Each answer, 0 to 10.
    pub answers: [u64; 11],
    /// A call left every cell of the unit held, where one or more were empty before it.
    pub filled: u64,
    /// The counter stepped from the unit's last cell to 10o.
    pub rounds: u64,
    /// Finished walks at a boundary: exec simple at p = N, exec per process at N + 1, user simple at N, user shared at N + 1.
    pub boundary: [u64; 4],
}

impl Counts {
    /// Adds those of another run.
    pub fn add(&mut self, other: Counts) {
        for (all, one) in self.answers.iter_mut().zip(other.answers) {
            *all += one;
        }
        self.filled += other.filled;
        self.rounds += other.rounds;
        for (all, one) in self.boundary.iter_mut().zip(other.boundary) {
            *all += one;
        }
    }
}

/// A unit of the library and one of the model, with as many cells, each with a memory of its own.
pub struct Pair {
    library: kt11b::Unit,
    library_memory: Vec<u8>,
    model: kt11b_model::Unit,
    model_memory: Vec<u8>,
    counts: Counts,
}

impl Pair {
    /// Two fresh units with so many cells, 8 or 24, over the same memory.
    pub fn new(cells: u64, memory: Vec<u8>) -> Pair {
        assert_eq!(memory.len(), BUFFER);
        let pair = Pair {
            library: kt11b::Unit::with_cells(cells).expect("the library makes the unit"),
            library_memory: memory.clone(),
            model: kt11b_model::Unit::with_cells(cells).expect("the model makes the unit"),
            model_memory: memory,
            counts: Counts::default(),
        };
        pair.compare_words(Call::Init);
        pair.compare_readings();
        pair.compare_whole();
        pair
    }

    /// The model's unit, for steering.
    pub fn model(&self) -> &kt11b_model::Unit {
        &self.model
    }

    /// The library's unit, to be held against another pair's.
    pub fn library(&self) -> &kt11b::Unit {
        &self.library
    }

    /// The library's memory.
    pub fn library_memory(&self) -> &[u8] {
        &self.library_memory
    }

    /// What was counted so far.
    pub fn counts(&self) -> Counts {
        self.counts
    }

    /// Stores a word in both memories behind the units' backs.
    pub fn put_word(&mut self, place: usize, word: u16) {
        for memory in [&mut self.library_memory, &mut self.model_memory] {
            memory[place..place + 2].copy_from_slice(&word.to_le_bytes());
        }
    }

    /// Makes one call of both, lending as much memory as that, and compares reply, state and the bytes about the address. Gives the
    /// reply.
    pub fn call(&mut self, call: Call, length: usize) -> kt11b::Reply {
        let before = self.model;
        for (walk, _) in boundary_walks(&before, &self.model_memory[..length], call) {
            self.counts.boundary[walk as usize] += 1;
        }
        let wanted = self.call_model(call, length);
        let given = self.call_library(call, length);
        let parts = (given.answer_number(), given.data(), given.physical());
        assert_eq!(parts, (wanted.answer, wanted.data, wanted.physical), "{call:?}, L={length:o}");
        self.counts.answers[usize::from(wanted.answer)] += 1;
        self.counts.filled += u64::from(filled_all_cells(&before, &self.model));
        self.counts.rounds += u64::from(went_round(&before, &self.model));
        self.compare_words(call);
        self.compare_readings();
        // The cell that a walk of this call filled first.
        self.compare_cell(usize::from(before.counter() - FIRST_CELL));
        let place = wanted.physical.unwrap_or(0) as usize;
        let first = place.saturating_sub(8).min(BUFFER);
        let near = first..(place + 8).clamp(first, BUFFER);
        assert_eq!(self.library_memory[near.clone()], self.model_memory[near], "{call:?}");
        given
    }

    fn call_model(&mut self, call: Call, length: usize) -> kt11b_model::Reply {
        let memory = &mut self.model_memory[..length];
        match call {
            Call::Access { operation, state, width, address, data } => {
                self.model.access(memory, operation, state, width, address, data)
            }
            Call::Interrupt => self.model.interrupt(),
            Call::Trap { vector } => self.model.trap(vector),
            Call::Init => self.model.init(),
        }
    }

    fn call_library(&mut self, call: Call, length: usize) -> kt11b::Reply {
        let memory = &mut self.library_memory[..length];
        match call {
            Call::Access { operation, state, width, address, data } => {
                let access = NumberedAccess { operation, state, width, address, data };
                self.library.access_numbered(memory, access)
            }
            Call::Interrupt => self.library.interrupt(),
            Call::Trap { vector } => self.library.trap_numbered(vector),
            Call::Init => self.library.init(),
        }
    }

    /// The whole unit, word by word: the fetch memory too, which no reading shows.
    fn compare_words(&self, after: Call) {
        let pairs = self.library.words().iter().zip(words_of(&self.model));
        for (place, (&given, wanted)) in pairs.enumerate() {
            assert!(given == wanted, "word {place} is {given:o}, not {wanted:o}, after {after:?}");
        }
    }

    /// What a front panel reads: every register, the counter, the number of cells and the wait.
    fn compare_readings(&self) {
        let read = |register| self.library.register(register);
        let counter = u16::from(self.model.counter());
        assert_eq!(read(Register::Ktcs), Some(self.model.ktcs()));
        assert_eq!(read(Register::Ktmr), Some(counter * 256));
        assert_eq!(self.library.counter(), Some(counter));
        assert_eq!(EIGHT.map(read), self.model.registers().map(Some));
        assert_eq!(self.library.cells(), Some(self.model.cells()));
        let wait = self.library.wait().map(|wait| wait as u8);
        assert_eq!(wait, Some(self.model.wait_number()));
    }

    /// A cell's tag and word: there below the unit's own number of cells, and none at or beyond it.
    fn compare_cell(&self, cell: usize) {
        let tag = self.model.tags().get(cell).copied().map(u16::from);
        let word = self.model.words().get(cell).copied();
        let given = (self.library.cell_tag(cell), self.library.cell_word(cell));
        assert_eq!(given, (tag, word), "cell {cell}");
    }

    /// Compares every cell and every byte of the two memories, which would be dear after each call.
    pub fn compare_whole(&self) {
        for cell in 0..=MOST_CELLS {
            self.compare_cell(cell);
        }
        assert!(self.library_memory == self.model_memory, "the memories differ");
    }
}
