//! The bench program: one line in, at most one line out, over 65,536 bytes of zeroed memory.

use crate::state::{Reply, Unit};
use std::io::Write;

pub const HEADER: &[u8] = b"CALL\tANS\tDATA\tPHYS\tKTCS\n";
pub const MEMORY_BYTES: usize = 65_536;

/// A line of bench input.
#[derive(Clone, Copy, PartialEq, Eq, Debug)]
pub enum Line {
    Word { address: u16, value: u16 },
    Call(Call),
}

/// A call of the unit.
#[derive(Clone, Copy, PartialEq, Eq, Debug)]
pub enum Call {
    Access { operation: u64, state: u64, width: u64, address: u16, data: u16 },
    Interrupt,
    Trap { vector: u64 },
    Init,
}

/// The line read, or none if it is bad.
pub fn parse(line: &[u8]) -> Option<Line> {
    let mut fields: [&[u8]; 7] = [&[]; 7];
    let mut count = 0;
    for field in line.split(|&byte| byte == b'\t') {
        *fields.get_mut(count)? = field;
        count += 1;
    }
    match (fields[0], count) {
        (b"W", 3) => parse_word(fields[1], fields[2]),
        (b"A", 6) => parse_access(&fields[1..6]),
        (b"I", 1) => Some(Line::Call(Call::Interrupt)),
        (b"T", 2) => {
            let vector = u64::from(octal(fields[1])?);
            Some(Line::Call(Call::Trap { vector }))
        }
        (b"X", 1) => Some(Line::Call(Call::Init)),
        _ => None,
    }
}

fn parse_word(address: &[u8], value: &[u8]) -> Option<Line> {
    let address = octal(address)?;
    let value = octal(value)?;
    (address % 2 == 0).then_some(Line::Word { address, value })
}

fn parse_access(fields: &[&[u8]]) -> Option<Line> {
    Some(Line::Call(Call::Access {
        operation: u64::from(octal(fields[0])?),
        state: u64::from(octal(fields[1])?),
        width: u64::from(octal(fields[2])?),
        address: octal(fields[3])?,
        data: octal(fields[4])?,
    }))
}

/// "Numbers are 1-6 octal digits up to 177777."
fn octal(digits: &[u8]) -> Option<u16> {
    if digits.is_empty() || digits.len() > 6 {
        return None;
    }
    let mut value: u32 = 0;
    for &digit in digits {
        if !(b'0'..=b'7').contains(&digit) {
            return None;
        }
        value = value * 8 + u32::from(digit - b'0');
    }
    u16::try_from(value).ok()
}

/// The unit and the memory lent to it.
#[derive(Clone)]
pub struct Machine {
    pub unit: Unit,
    pub memory: Vec<u8>,
}

impl Machine {
    /// A machine of this unit, over zeroed memory.
    pub fn of(unit: Unit) -> Machine {
        Machine { unit, memory: vec![0; MEMORY_BYTES] }
    }

    /// A W line stores one memory word behind the unit's back; cells stay.
    pub fn put_word(&mut self, address: u16, value: u16) {
        let place = usize::from(address);
        self.memory[place..place + 2].copy_from_slice(&value.to_le_bytes());
    }

    /// Does what a line says, and gives the reply of a call.
    pub fn follow(&mut self, line: &[u8]) -> Option<Reply> {
        match parse(line)? {
            Line::Word { address, value } => {
                self.put_word(address, value);
                None
            }
            Line::Call(call) => Some(self.call(call)),
        }
    }

    pub fn call(&mut self, call: Call) -> Reply {
        match call {
            Call::Access { operation, state, width, address, data } => {
                let memory = &mut self.memory;
                self.unit.access(memory, operation, state, width, address, data)
            }
            Call::Interrupt => self.unit.interrupt(),
            Call::Trap { vector } => self.unit.trap(vector),
            Call::Init => self.unit.init(),
        }
    }
}

/// The lines of an input; a last line without a newline counts.
fn lines(input: &[u8]) -> impl Iterator<Item = &[u8]> {
    let body = input.strip_suffix(b"\n").unwrap_or(input);
    let whole = (!input.is_empty()).then_some(body);
    whole.into_iter().flat_map(|body| body.split(|&byte| byte == b'\n'))
}

/// Writes the bench program's whole output for an input, with this fresh unit.
pub fn run(unit: Unit, input: &[u8], output: &mut impl Write) -> std::io::Result<()> {
    let mut machine = Machine::of(unit);
    let mut calls = 0u64;
    output.write_all(HEADER)?;
    for (number, line) in (1u64..).zip(lines(input)) {
        match parse(line) {
            None => writeln!(output, "BAD\t{number}")?,
            Some(Line::Word { address, value }) => machine.put_word(address, value),
            Some(Line::Call(call)) => {
                calls += 1;
                let reply = machine.call(call);
                write_reply(output, calls, reply, machine.unit.ktcs())?;
            }
        }
    }
    Ok(())
}

fn write_reply(output: &mut impl Write, call: u64, reply: Reply, ktcs: u16) -> std::io::Result<()> {
    write!(output, "{call}\t{}\t{:06o}\t", reply.answer, reply.data)?;
    match reply.physical {
        Some(physical) => write!(output, "{physical:06o}")?,
        None => output.write_all(b"-")?,
    }
    writeln!(output, "\t{ktcs:06o}")
}
