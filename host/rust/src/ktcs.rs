//! The fields of KTCS, the unit's status and control register, as masks of its word.
//!
//! [`Unit::register`](crate::Unit::register) gives that word for [`Register::Ktcs`](crate::Register::Ktcs), and so does a
//! read of 777576. Bits 10 to 6 belong to no field and read 0.

/// The function, bits 1-0: 0 unpaged, 1 destination-only paging, 2 normal paging, 3 start user.
pub const FCN: u16 = 0o000003;
/// Source state, bit 2.
pub const SS: u16 = 0o000004;
/// Destination state, bit 3.
pub const DS: u16 = 0o000010;
/// User mode, bit 4.
pub const UM: u16 = 0o000020;
/// Interrupted user, bit 5.
pub const IU: u16 = 0o000040;
/// Residency violation, bit 11.
pub const RV: u16 = 0o004000;
/// Privacy violation, bit 12.
pub const PV: u16 = 0o010000;
/// Write violation, bit 13.
pub const WV: u16 = 0o020000;
/// Address violation, bit 14.
pub const AV: u16 = 0o040000;
/// Instruction violation, bit 15.
pub const IV: u16 = 0o100000;
