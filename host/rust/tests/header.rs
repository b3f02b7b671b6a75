//! Every constant of host/include/kt11b.h is the crate's number of the same name, and the header has no others.

mod common;

use common::answers::CASES;
use kt11b::{
    ktcs, Operation, Register, State, Wait, Width, CELLS_24, CELLS_8, LONGEST_MEMORY, UNIT_WORDS,
    VERSION,
};
use std::collections::BTreeMap;

extern "C" {
    // The crate gives a part of the memory in its place, so the number for no page is the library's own.
    fn kt11b_map_page(length: u64, word: u16) -> u64;
}

/// What a line of the header defines, by the name behind KT11B_.
enum Defined {
    Number(String, u64),
    Macro(String),
}

/// Every definition of the header but that of its guard. A line that can't be read fails the test, so that none goes unseen.
fn definitions() -> Vec<Defined> {
    let path = concat!(env!("CARGO_MANIFEST_DIR"), "/../include/kt11b.h");
    let header = std::fs::read_to_string(path).expect("host/include/kt11b.h is there");
    let lines = header.lines().filter_map(|line| line.trim_start().strip_prefix('#'));
    let defining = lines.filter_map(|line| line.trim_start().strip_prefix("define"));
    defining.map(str::trim).filter(|&text| text != "KT11B_H").map(definition).collect()
}

fn definition(text: &str) -> Defined {
    let named = text.strip_prefix("KT11B_").unwrap_or_else(|| panic!("not by KT11B_: {text}"));
    let end = named.find(|letter: char| letter != '_' && !letter.is_ascii_alphanumeric());
    let (name, value) = named.split_at(end.unwrap_or(named.len()));
    if value.starts_with('(') {
        return Defined::Macro(name.to_string());
    }
    let digits = value.split("/*").next().unwrap_or("").trim();
    let number = number(digits).unwrap_or_else(|| panic!("no number: {text}"));
    Defined::Number(name.to_string(), number)
}

/// A number as C writes it: decimal, octal or hexadecimal, with a U or UL behind it or without.
fn number(digits: &str) -> Option<u64> {
    let digits = digits.strip_suffix('L').unwrap_or(digits);
    let digits = digits.strip_suffix('U').unwrap_or(digits);
    let number = match digits.strip_prefix("0x") {
        Some(hex) => u64::from_str_radix(hex, 16),
        None if digits.starts_with('0') => u64::from_str_radix(digits, 8),
        None => digits.parse(),
    };
    number.ok()
}

/// The names and numbers of this crate, but for the registers and the answers.
fn lists() -> Vec<(&'static str, u64)> {
    vec![
        ("VERSION", u64::from(VERSION)),
        ("UNIT_WORDS", UNIT_WORDS as u64),
        ("MEMORY_MOST", LONGEST_MEMORY as u64),
        ("CELLS_8", CELLS_8),
        ("CELLS_24", CELLS_24),
        ("DATI", Operation::Dati as u64),
        ("DATIP", Operation::Datip as u64),
        ("DATO", Operation::Dato as u64),
        ("DATOB", Operation::Datob as u64),
        ("FETCH", State::Fetch as u64),
        ("SOURCE", State::Source as u64),
        ("DESTINATION", State::Destination as u64),
        ("EXECUTE", State::Execute as u64),
        ("SERVICE", State::Service as u64),
        ("WORD", Width::Word as u64),
        ("BYTE", Width::Byte as u64),
        ("WAIT_NOTHING", Wait::Nothing as u64),
        ("WAIT_STATUS", Wait::Status as u64),
        ("WAIT_PROGRAM_COUNTER", Wait::ProgramCounter as u64),
        ("WAIT_SECOND_READ", Wait::SecondRead as u64),
    ]
}

fn masks() -> [(&'static str, u64); 10] {
    [
        ("KTCS_FCN", ktcs::FCN),
        ("KTCS_SS", ktcs::SS),
        ("KTCS_DS", ktcs::DS),
        ("KTCS_UM", ktcs::UM),
        ("KTCS_IU", ktcs::IU),
        ("KTCS_RV", ktcs::RV),
        ("KTCS_PV", ktcs::PV),
        ("KTCS_WV", ktcs::WV),
        ("KTCS_AV", ktcs::AV),
        ("KTCS_IV", ktcs::IV),
    ]
    .map(|(name, mask)| (name, u64::from(mask)))
}

/// Every name that the header may have, with its number here: an answer's is what the library gives in a call.
fn known() -> BTreeMap<String, u64> {
    let registers = Register::ALL.map(|register| (format!("{register:?}"), register as u64));
    let registers = registers.map(|(name, number)| (name.to_uppercase(), number));
    let answers = CASES.map(|case| (case.name, u64::from((case.call)().1.answer_number())));
    // Sound: the library gets two numbers and no pointer.
    let no_page = ("NO_PAGE", unsafe { kt11b_map_page(0, 0) });
    let named = lists().into_iter().chain(masks()).chain(answers).chain([no_page]);
    named.map(|(name, number)| (name.to_string(), number)).chain(registers).collect()
}

#[test]
fn every_constant() {
    let known = known();
    let mut defined = BTreeMap::new();
    for definition in definitions() {
        if let Defined::Number(name, number) = definition {
            assert_eq!(defined.insert(name.clone(), number), None, "KT11B_{name} comes twice");
        }
    }
    for name in defined.keys().chain(known.keys()) {
        let numbers = (defined.get(name), known.get(name));
        assert_eq!(numbers.0, numbers.1, "KT11B_{name} in the header, and in the crate");
    }
}

/// The macros that take a reply apart; host/tests/answers.c tries each of them.
#[test]
fn every_macro() {
    let macros = definitions().into_iter().filter_map(|definition| match definition {
        Defined::Macro(name) => Some(name),
        Defined::Number(..) => None,
    });
    let expected = ["REPLY_DATA", "REPLY_PHYSICAL", "REPLY_HAS_PHYSICAL", "REPLY_ANSWER"];
    assert_eq!(macros.collect::<Vec<_>>(), expected);
}
