//! The lists of numbers that the rules name.

/// Unibus operations.
#[derive(Clone, Copy, PartialEq, Eq, Hash, Debug)]
#[repr(u8)]
pub enum Operation {
    /// Data in.
    Dati = 0,
    /// Data in, pause: a read that a store will follow, so it needs the write key.
    Datip = 1,
    /// Data out, a word.
    Dato = 2,
    /// Data out, a byte: the low 8 bits of the data.
    Datob = 3,
}

/// The processor's states.
#[derive(Clone, Copy, PartialEq, Eq, Hash, Debug)]
#[repr(u8)]
pub enum State {
    /// Fetching an instruction, by word DATI only.
    Fetch = 0,
    /// Getting the source operand.
    Source = 1,
    /// Getting or storing the destination operand.
    Destination = 2,
    /// Executing.
    Execute = 3,
    /// Serving a trap or an interrupt.
    Service = 4,
}

/// The width of an access.
#[derive(Clone, Copy, PartialEq, Eq, Hash, Debug)]
#[repr(u8)]
pub enum Width {
    /// A word.
    Word = 0,
    /// A byte; a read gives the whole word all the same.
    Byte = 1,
}

/// The vectors that a trap call may name.
#[derive(Clone, Copy, PartialEq, Eq, Hash, Debug)]
#[repr(u8)]
pub enum Vector {
    /// 4: bus errors and illegal instructions.
    BusError = 0o4,
    /// 10: reserved instructions.
    ReservedInstruction = 0o10,
    /// 14: the T bit.
    TraceTrap = 0o14,
    /// 20: IOT.
    Iot = 0o20,
    /// 24: power failure.
    PowerFail = 0o24,
    /// 30: EMT.
    Emt = 0o30,
    /// 34: TRAP.
    Trap = 0o34,
}

/// The registers that can be read for a front panel or a debugger, by their place in the table of addresses.
///
/// KTWN, place 0, is a window on the user's memory and holds nothing of its own.
#[derive(Clone, Copy, PartialEq, Eq, Hash, Debug)]
#[repr(u8)]
pub enum Register {
    /// 777574: the replacement counter times 256.
    Ktmr = 1,
    /// 777576: page status control.
    Ktcs = 2,
    /// 777600: the address of the last paged fetch.
    Ktic = 3,
    /// 777602: the stack pointer of the modified sequence.
    Ktsp = 4,
    /// 777604: the program counter of the modified sequence.
    Ktpc = 5,
    /// 777606: the processor's status of the modified sequence.
    Ktps = 6,
    /// 777610: the address of the last violation, and of the window.
    Ktad = 7,
    /// 777612: the data of the last violation.
    Ktdt = 8,
    /// 777614: the user map. The low 9 bits are its physical page, the high 7 bits the number of the last simple page.
    Ktum = 9,
    /// 777616: the exec map, in the same form.
    Ktem = 10,
}

impl Register {
    /// Every register, in the order of the addresses.
    pub const ALL: [Register; 10] = [
        Register::Ktmr,
        Register::Ktcs,
        Register::Ktic,
        Register::Ktsp,
        Register::Ktpc,
        Register::Ktps,
        Register::Ktad,
        Register::Ktdt,
        Register::Ktum,
        Register::Ktem,
    ];

    /// The variant's name as a text that needs no allocation.
    pub(crate) fn name(self) -> &'static str {
        match self {
            Register::Ktmr => "Ktmr",
            Register::Ktcs => "Ktcs",
            Register::Ktic => "Ktic",
            Register::Ktsp => "Ktsp",
            Register::Ktpc => "Ktpc",
            Register::Ktps => "Ktps",
            Register::Ktad => "Ktad",
            Register::Ktdt => "Ktdt",
            Register::Ktum => "Ktum",
            Register::Ktem => "Ktem",
        }
    }
}

/// What the unit waits for.
#[derive(Clone, Copy, PartialEq, Eq, Hash, Debug)]
#[repr(u8)]
pub enum Wait {
    /// Nothing.
    Nothing = 0,
    /// The first SERVICE DATO, which brings the processor's status.
    Status = 1,
    /// The second SERVICE DATO, which brings its program counter.
    ProgramCounter = 2,
    /// The second START read, which takes KTPS.
    SecondRead = 3,
}

impl Wait {
    pub(crate) fn of(number: u16) -> Option<Wait> {
        match number {
            0 => Some(Wait::Nothing),
            1 => Some(Wait::Status),
            2 => Some(Wait::ProgramCounter),
            3 => Some(Wait::SecondRead),
            _ => None,
        }
    }
}

/// The answers.
///
/// 1, 2, 3, `OtherCount` and `NoUnit` change nothing at all. 4 to 8 set their flag in KTCS, put the unit into exec and leave it
/// waiting for two SERVICE DATOs. `OffMap` does the same and has no flag, and so does `TimeOut` of a paged access. The two say
/// what was not there: with `TimeOut` the target itself, with `OffMap` a word of the maps on the way to it.
#[derive(Clone, Copy, PartialEq, Eq, Hash, Debug)]
#[non_exhaustive]
pub enum Answer {
    /// 0: done.
    Done,
    /// 1: a number outside its list, a bad shape, or a memory of a bad length.
    Misshapen,
    /// 2: the unit waits for another access, or it is in FCN 3 and this is no START read.
    NotDue,
    /// 3: a word at an odd address, unpaged.
    UnpagedOdd,
    /// 4, AV: a word at an odd address, paged.
    AddressViolation,
    /// 5, RV: the page is not resident.
    ResidencyViolation,
    /// 6, WV: the page is not write-enabled.
    WriteViolation,
    /// 7, PV: code of a public page reached for a private page.
    PrivacyViolation,
    /// 8, IV: a user's HALT, WAIT or RESET, or a private page entered at no entry point.
    InstructionViolation,
    /// 9: nothing answers at the target's address.
    TimeOut,
    /// 10: the walk ran off memory: no map word or pointer at that address. Look at KTUM, KTEM or the pointer.
    OffMap,
    /// 30: a unit is made with 8 or 24 cells, and this is another number. It answers
    /// [`Unit::with_cells`](crate::Unit::with_cells), and no call of a unit.
    OtherCount,
    /// 70: the words don't hold a unit.
    NoUnit,
    /// A number that no rule lists; no call of the library gives one.
    Other(u8),
}

impl Answer {
    pub(crate) fn of(number: u8) -> Answer {
        match number {
            0 => Answer::Done,
            1 => Answer::Misshapen,
            2 => Answer::NotDue,
            3 => Answer::UnpagedOdd,
            4 => Answer::AddressViolation,
            5 => Answer::ResidencyViolation,
            6 => Answer::WriteViolation,
            7 => Answer::PrivacyViolation,
            8 => Answer::InstructionViolation,
            9 => Answer::TimeOut,
            10 => Answer::OffMap,
            30 => Answer::OtherCount,
            70 => Answer::NoUnit,
            other => Answer::Other(other),
        }
    }
}
