//! A unit with its memory, for the tests.
#![allow(dead_code)]

pub mod answers;

use kt11b::{Answer, NumberedAccess, Operation, Reply, State, Unit, Width, CELLS_24, CELLS_8};

/// The numbers of cells that a unit can be made with.
pub const BOTH: [u64; 2] = [CELLS_8, CELLS_24];

pub struct Rig {
    pub unit: Unit,
    pub memory: Vec<u8>,
}

impl Rig {
    /// A fresh unit with 8 cells and 65,536 bytes of zero.
    pub fn new() -> Rig {
        Rig::with_cells(CELLS_8)
    }

    /// The same with so many cells.
    pub fn with_cells(cells: u64) -> Rig {
        let unit = Unit::with_cells(cells).expect("one of the two numbers");
        Rig { unit, memory: vec![0; 65_536] }
    }

    /// The first two stores of 01's listing: KTEM N=127, M=1, so all pages are simple, then FCN 2, with exec page 1 in physical
    /// page 2.
    pub fn paged() -> Rig {
        let mut rig = Rig::new();
        rig.put(0o001402, 0o160002);
        rig.put(0o002004, 0o000123);
        assert_eq!(rig.write(0o177616, 0o177001).answer(), Answer::Done);
        assert_eq!(rig.write(0o177576, 0o000002).answer(), Answer::Done);
        rig
    }

    /// A user in FCN 2: KTUM N=20 (octal, as all numbers here), M=5, so pages 0 to 20 are simple; user page 1 open (page 20),
    /// page 2 not resident, page 3 read-only (page 21).
    pub fn user() -> Rig {
        Rig::user_with_cells(CELLS_8)
    }

    /// The same with so many cells.
    pub fn user_with_cells(cells: u64) -> Rig {
        let mut rig = Rig::with_cells(cells);
        rig.put(0o005402, 0o120020);
        rig.put(0o005404, 0o020022);
        rig.put(0o005406, 0o100021);
        rig.write(0o177614, 0o020005);
        rig.write(0o177576, 0o000003);
        rig.read(0);
        rig.read(0);
        rig
    }

    pub fn put(&mut self, place: usize, word: u16) {
        self.memory[place..place + 2].copy_from_slice(&word.to_le_bytes());
    }

    pub fn word(&self, place: usize) -> u16 {
        u16::from_le_bytes([self.memory[place], self.memory[place + 1]])
    }

    /// A word DATI in a state.
    pub fn read_in(&mut self, state: State, address: u16) -> Reply {
        self.unit.access(&mut self.memory, Operation::Dati, state, Width::Word, address, 0)
    }

    /// A DATO in a state.
    pub fn write_in(&mut self, state: State, address: u16, data: u16) -> Reply {
        self.unit.access(&mut self.memory, Operation::Dato, state, Width::Word, address, data)
    }

    pub fn read(&mut self, address: u16) -> Reply {
        self.read_in(State::Destination, address)
    }

    pub fn fetch(&mut self, address: u16) -> Reply {
        self.read_in(State::Fetch, address)
    }

    pub fn write(&mut self, address: u16, data: u16) -> Reply {
        self.write_in(State::Destination, address, data)
    }

    pub fn serve(&mut self, address: u16, data: u16) -> Reply {
        self.write_in(State::Service, address, data)
    }

    pub fn by_number(&mut self, access: NumberedAccess) -> Reply {
        self.unit.access_numbered(&mut self.memory, access)
    }

    /// Does something that must change neither the unit nor the memory.
    pub fn unchanged<T>(&mut self, call: impl FnOnce(&mut Rig) -> T) -> T {
        let unit = self.unit.clone();
        let memory = self.memory.clone();
        let given = call(self);
        assert_eq!(self.unit.words(), unit.words());
        assert!(self.memory == memory, "a refused call changed memory");
        given
    }
}

/// Answer, data and physical address of a reply.
pub fn parts(reply: Reply) -> (Answer, u16, Option<u32>) {
    (reply.answer(), reply.data(), reply.physical())
}
