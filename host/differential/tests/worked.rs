//! The inputs of tests/numbers, whose outputs were worked out by hand, through the library with 8 cells and with 24.

use kt11b::{NumberedAccess, Register, Reply, Unit};
use kt11b_model::bench::{parse, Call, Line, HEADER, MEMORY_BYTES};
use std::fmt::Write;
use std::path::Path;

/// A unit of the library with the bench program's memory.
struct Machine {
    unit: Unit,
    memory: Vec<u8>,
}

impl Machine {
    fn call(&mut self, call: Call) -> Reply {
        match call {
            Call::Access { operation, state, width, address, data } => {
                let access = NumberedAccess { operation, state, width, address, data };
                self.unit.access_numbered(&mut self.memory, access)
            }
            Call::Interrupt => self.unit.interrupt(),
            Call::Trap { vector } => self.unit.trap_numbered(vector),
            Call::Init => self.unit.init(),
        }
    }

    /// A call's row, without its number.
    fn row(&mut self, call: Call) -> String {
        let reply = self.call(call);
        let physical = match reply.physical() {
            Some(physical) => format!("{physical:06o}"),
            None => "-".to_string(),
        };
        let ktcs = self.unit.register(Register::Ktcs).expect("a unit that was made");
        format!("{}\t{:06o}\t{physical}\t{ktcs:06o}", reply.answer_number(), reply.data())
    }
}

/// What the bench program prints for an input, with this fresh unit.
fn printed(unit: Unit, input: &[u8]) -> String {
    let mut machine = Machine { unit, memory: vec![0; MEMORY_BYTES] };
    let mut output = String::from_utf8_lossy(HEADER).into_owned();
    let mut calls = 0;
    let whole = input.strip_suffix(b"\n").unwrap_or(input);
    let lines =
        whole.split(|&byte| byte == b'\n').take(if input.is_empty() { 0 } else { usize::MAX });
    for (number, line) in (1..).zip(lines) {
        let written = match parse(line) {
            None => writeln!(output, "BAD\t{number}"),
            Some(Line::Word { address, value }) => {
                let place = usize::from(address);
                machine.memory[place..place + 2].copy_from_slice(&value.to_le_bytes());
                Ok(())
            }
            Some(Line::Call(call)) => {
                calls += 1;
                writeln!(output, "{calls}\t{}", machine.row(call))
            }
        };
        written.expect("a string takes every line");
    }
    output
}

/// The output of an input. One that prints otherwise with 24 cells has a file of its own for them.
fn output_of(input: &Path, cells: u64) -> String {
    let own = input.with_extension(format!("{cells}.out"));
    let output = if own.exists() { own } else { input.with_extension("out") };
    std::fs::read_to_string(output).expect("its output")
}

fn every_worked_input(cells: u64) {
    let folder = Path::new(env!("CARGO_MANIFEST_DIR")).join("../../tests/numbers");
    let mut tried = 0;
    for file in std::fs::read_dir(folder).expect("tests/numbers is there") {
        let input = file.expect("a folder that can be read").path();
        if input.extension().is_some_and(|extension| extension == "in") {
            let unit = Unit::with_cells(cells).expect("8 and 24 give a unit");
            let given = printed(unit, &std::fs::read(&input).expect("an input"));
            let wanted = output_of(&input, cells);
            assert!(given == wanted, "{} prints otherwise with {cells} cells", input.display());
            tried += 1;
        }
    }
    assert!(tried >= 10, "only {tried} inputs found");
}

#[test]
fn every_worked_input_with_8_cells() {
    every_worked_input(8);
}

#[test]
fn every_worked_input_with_24_cells() {
    every_worked_input(24);
}
