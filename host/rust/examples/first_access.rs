//! A first access from Rust: the exec's map, paging on, a read through the map, and a violation.
//!
//! Run it in this crate's folder by `cargo run --example first_access`.

use kt11b::{Operation, Register, Reply, State, Unit, Width};

/// A processor's side of the bus: its memory, and the unit that each of its accesses goes through.
struct Machine {
    unit: Unit,
    memory: Vec<u8>,
}

impl Machine {
    /// A word of memory, stored behind the unit's back.
    fn put(&mut self, place: usize, word: u16) {
        self.memory[place..place + 2].copy_from_slice(&word.to_le_bytes());
    }

    fn read(&mut self, address: u16) -> Reply {
        let (operation, state) = (Operation::Dati, State::Destination);
        self.unit.access(&mut self.memory, operation, state, Width::Word, address, 0)
    }

    fn store(&mut self, address: u16, data: u16) -> Reply {
        let (operation, state) = (Operation::Dato, State::Destination);
        self.unit.access(&mut self.memory, operation, state, Width::Word, address, data)
    }

    fn show(&self, what: &str, reply: Reply) {
        let ktcs = self.unit.register(Register::Ktcs).unwrap_or(0);
        println!("{what:<24} {reply:?}, KTCS {ktcs:06o}");
    }
}

fn main() {
    let mut machine = Machine { unit: Unit::fresh(), memory: vec![0; 65_536] };
    // KTEM 177001 puts the exec's map into physical page 1; exec page 1's word is at 001402.
    machine.put(0o001402, 0o160002);
    machine.put(0o002004, 0o000123);

    let reply = machine.store(0o177616, 0o177001);
    machine.show("store 177001 in KTEM", reply);
    let reply = machine.store(0o177576, 0o000002);
    machine.show("store 2 in KTCS", reply);
    let reply = machine.read(0o001004);
    machine.show("read 001004", reply);
    let reply = machine.read(0o001005);
    machine.show("read the word at 001005", reply);
}
