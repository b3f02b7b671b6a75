//! The KT11-B paging unit of the PDP-11/20, for emulators.
//!
//! The unit stands between the processor and the bus: the host gives it every access of its processor, and it answers with
//! the word read and the physical address, or with the violation that stopped the access. The processor, its priority and T
//! bit, and all other devices are the host's. Every number in the rules is octal, and so are the addresses below.
//!
//! This crate wraps the static library `libkt11b.a`, whose functions are proved to meet the unit's rules for every input. It
//! has no dependencies, not even the standard library, and no `unsafe` in its interface.
//!
//! # A first access
//!
//! Exec page 1 is mapped to physical page 2, paging is switched on, and the word at 001004 is read:
//!
//! ```
//! use kt11b::{Answer, Operation, State, Unit, Width};
//!
//! let mut memory = vec![0u8; 65_536];
//! // Exec page 1's map word: resident, public, write-enabled, physical page 2. Low byte first.
//! memory[0o001402..0o001404].copy_from_slice(&0o160002u16.to_le_bytes());
//! memory[0o002004..0o002006].copy_from_slice(&0o000123u16.to_le_bytes());
//!
//! let mut unit = Unit::fresh();
//! let (dati, dato) = (Operation::Dati, Operation::Dato);
//! let at = State::Destination;
//! // KTEM: the exec's map is in physical page 1. KTCS: FCN 2, normal paging.
//! unit.access(&mut memory, dato, at, Width::Word, 0o177616, 0o177001);
//! unit.access(&mut memory, dato, at, Width::Word, 0o177576, 0o000002);
//!
//! let reply = unit.access(&mut memory, dati, at, Width::Word, 0o001004, 0);
//! assert_eq!(reply.answer(), Answer::Done);
//! assert_eq!(reply.data(), 0o000123);
//! assert_eq!(reply.physical(), Some(0o002004));
//!
//! let odd = unit.access(&mut memory, dati, at, Width::Word, 0o001005, 0);
//! assert_eq!(odd.answer(), Answer::AddressViolation);
//! assert_eq!(odd.physical(), None);
//! ```
//!
//! # Eight cells or 24
//!
//! A unit keeps the map words that it has read in associative cells: 8 of them, or the 24 of the option. [`Unit::fresh`] makes a
//! unit with 8, [`Unit::with_cells`] one with either number. The scratchpad words of the cells stand at 777620 to 777636, or to
//! 777676:
//!
//! ```
//! use kt11b::{Answer, Operation, State, Unit, Width, CELLS_24};
//!
//! let mut memory = vec![0u8; 65_536];
//! let mut last_word = |unit: &mut Unit| {
//!     unit.access(&mut memory, Operation::Dati, State::Source, Width::Word, 0o177676, 0)
//! };
//!
//! let mut unit = Unit::fresh();
//! assert_eq!(unit.cells(), Some(8));
//! assert_eq!(last_word(&mut unit).answer(), Answer::TimeOut);
//!
//! let mut unit = Unit::with_cells(CELLS_24).expect("24 is one of the two numbers");
//! assert_eq!(unit.cells(), Some(24));
//! assert_eq!(last_word(&mut unit).answer(), Answer::Done);
//! ```

#![no_std]
#![deny(missing_docs)]

pub mod ktcs;
mod library;
mod numbered;
mod numbers;
mod reply;
mod unit;

pub use numbered::NumberedAccess;
pub use numbers::{Answer, Operation, Register, State, Vector, Wait, Width};
pub use reply::Reply;
pub use unit::{map_page, Unit, CELLS_24, CELLS_8, LONGEST_MEMORY, UNIT_WORDS};

/// The version of the library's interface, the same number as the C header's `KT11B_VERSION`.
///
/// It rises with each change of a function of the library, of an answer, of the unit's words or of what a call makes of them.
/// Words that were saved are for the same version alone. Those of versions 2 and 3 have the same layout, so they are taken for a
/// unit; but version 4 moved the boundary of the simple pages by one, and a cell may hold what was read by the older one. So
/// [`Unit::init`] comes before any other call with such words.
pub const VERSION: u32 = 4;
