//! The thirteen answers, each with a call of the library that gives it.

use super::Rig;
use kt11b::{ktcs, Answer, NumberedAccess, Reply, Unit, UNIT_WORDS};

/// An answer, and a situation whose last call gives it.
pub struct Case {
    /// The answer's name in the header, behind KT11B_.
    pub name: &'static str,
    /// Its number in 01's table "What comes back"; 10 is T-01's, 30 is that of a making, and 70 the library's own.
    pub number: u8,
    /// Answer, data and physical address of the reply.
    pub parts: (Answer, u16, Option<u32>),
    /// The error flag that it sets in KTCS, or 0.
    pub flag: u16,
    pub call: fn() -> (Rig, Reply),
}

/// A case with no data, no physical address and no flag.
const fn bare(name: &'static str, number: u8, answer: Answer, call: fn() -> (Rig, Reply)) -> Case {
    Case { name, number, parts: (answer, 0, None), flag: 0, call }
}

/// Every answer once, in the order of the numbers.
pub const CASES: [Case; 13] = [
    Case {
        parts: (Answer::Done, 0o000123, Some(0o020010)),
        ..bare("DONE", 0, Answer::Done, a_read_that_is_done)
    },
    bare("MISSHAPEN", 1, Answer::Misshapen, a_dato_as_byte),
    bare("NOT_DUE", 2, Answer::NotDue, an_interrupt_in_fcn_3),
    bare("UNPAGED_ODD", 3, Answer::UnpagedOdd, an_odd_word_unpaged),
    Case { flag: ktcs::AV, ..bare("AV", 4, Answer::AddressViolation, an_odd_word_paged) },
    Case { flag: ktcs::RV, ..bare("RV", 5, Answer::ResidencyViolation, a_page_not_resident) },
    Case { flag: ktcs::WV, ..bare("WV", 6, Answer::WriteViolation, a_store_without_the_key) },
    Case { flag: ktcs::PV, ..bare("PV", 7, Answer::PrivacyViolation, public_code_in_private_data) },
    Case {
        parts: (Answer::InstructionViolation, 0o000005, Some(0o020012)),
        flag: ktcs::IV,
        ..bare("IV", 8, Answer::InstructionViolation, a_users_reset)
    },
    bare("TIME_OUT", 9, Answer::TimeOut, an_address_that_nothing_answers),
    bare("OFF_MAP", 10, Answer::OffMap, a_map_past_memory),
    bare("OTHER_COUNT", 30, Answer::OtherCount, a_unit_with_16_cells),
    bare("NO_UNIT", 70, Answer::NoUnit, words_of_zero),
];

/// User page 1 is physical page 20, so 001010 is 020010.
fn a_read_that_is_done() -> (Rig, Reply) {
    let mut rig = Rig::user();
    rig.put(0o020010, 0o000123);
    let reply = rig.read(0o001010);
    (rig, reply)
}

/// 1: "DATO as byte".
fn a_dato_as_byte() -> (Rig, Reply) {
    let mut rig = Rig::user();
    let dato = NumberedAccess { operation: 2, state: 2, width: 1, address: 0o001010, data: 7 };
    let reply = rig.by_number(dato);
    (rig, reply)
}

/// 2: "FCN 3: interrupt".
fn an_interrupt_in_fcn_3() -> (Rig, Reply) {
    let mut rig = Rig::new();
    rig.write(0o177576, 0o000003);
    let reply = rig.unit.interrupt();
    (rig, reply)
}

/// 3: "unpaged odd word".
fn an_odd_word_unpaged() -> (Rig, Reply) {
    let mut rig = Rig::new();
    let reply = rig.read(0o001011);
    (rig, reply)
}

/// "5. Paged odd word (4)."
fn an_odd_word_paged() -> (Rig, Reply) {
    let mut rig = Rig::user();
    let reply = rig.read(0o001011);
    (rig, reply)
}

/// "7. Residency (5)": user page 2's word is 020022, without bit 15.
fn a_page_not_resident() -> (Rig, Reply) {
    let mut rig = Rig::user();
    let reply = rig.read(0o002010);
    (rig, reply)
}

/// "8. Write key for operations 1-3 (6)": user page 3's word is 100021, without bit 13.
fn a_store_without_the_key() -> (Rig, Reply) {
    let mut rig = Rig::user();
    let reply = rig.write(0o003010, 7);
    (rig, reply)
}

/// "Privacy: not a fetch, flag set, page private": page 4 is public, and the word fetched there is a plain one.
fn public_code_in_private_data() -> (Rig, Reply) {
    let mut rig = Rig::user();
    rig.put(0o005410, 0o140023);
    rig.put(0o023010, 0o010001);
    assert_eq!(rig.fetch(0o004010).answer(), Answer::Done);
    let reply = rig.read(0o001010);
    (rig, reply)
}

/// "user HALT 0, WAIT 1, RESET 5"; "Answers 0 and 8 of an access give the physical address".
fn a_users_reset() -> (Rig, Reply) {
    let mut rig = Rig::user();
    rig.put(0o020012, 0o000005);
    let reply = rig.fetch(0o001012);
    (rig, reply)
}

/// "10. Target at or beyond L and not a register above (9)": unpaged 160000 is 760000.
fn an_address_that_nothing_answers() -> (Rig, Reply) {
    let mut rig = Rig::new();
    let reply = rig.read(0o160000);
    (rig, reply)
}

/// "10 takes 9's place at step 6": KTEM names physical page 200, so page 1's word would be at 200402, and L is 200000.
fn a_map_past_memory() -> (Rig, Reply) {
    let mut rig = Rig::new();
    rig.write(0o177616, 0o177200);
    rig.write(0o177576, 0o000002);
    let reply = rig.read(0o001010);
    (rig, reply)
}

/// "Every other number gives 30 and no unit"; a unit that is there has no part in it.
fn a_unit_with_16_cells() -> (Rig, Reply) {
    let reply = Unit::with_cells(16).expect_err("16 is neither 8 nor 24");
    (Rig::new(), reply)
}

fn words_of_zero() -> (Rig, Reply) {
    let mut rig = Rig::new();
    rig.unit = Unit::from_words([0; UNIT_WORDS]);
    let reply = rig.unit.init();
    (rig, reply)
}
