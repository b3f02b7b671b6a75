//! The numbers of operations and states, and the registers' offsets in their page.

pub const DATI: u64 = 0;
pub const DATO: u64 = 2;
pub const DATOB: u64 = 3;
pub const FETCH: u64 = 0;
pub const DESTINATION: u64 = 2;
pub const SERVICE: u64 = 4;

/// Offsets of the registers in the register page.
pub const KTWN_OFFSET: u16 = 0o572;
pub const KTMR_OFFSET: u16 = 0o574;
pub const KTCS_OFFSET: u16 = 0o576;
pub const KTPC_OFFSET: u16 = 0o604;
pub const KTPS_OFFSET: u16 = 0o606;
pub const KTAD_OFFSET: u16 = 0o610;
pub const KTUM_OFFSET: u16 = 0o614;
pub const KTEM_OFFSET: u16 = 0o616;
pub const SCRATCHPAD_OFFSET: u16 = 0o620;
/// The first scratchpad word that a unit with 8 cells has not.
pub const UPPER_OFFSET: u16 = 0o640;
/// What follows the last scratchpad word of a unit with 24 cells.
pub const PAST_ALL_OFFSET: u16 = 0o700;
