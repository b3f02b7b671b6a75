//! The fields of KTCS by name, from calls that set them. The error flags are with the answers, in answers.rs.

mod common;

use common::Rig;
use kt11b::{ktcs, Register, State};

fn word(rig: &Rig) -> u16 {
    rig.unit.register(Register::Ktcs).expect("a unit that was made")
}

/// "FCN bits 1-0, SS 2, DS 3, UM 4, IU 5, RV 11, PV 12, WV 13, AV 14, IV 15; others read 0."
#[test]
fn every_bit_has_one_field() {
    let fields = [
        ktcs::FCN,
        ktcs::SS,
        ktcs::DS,
        ktcs::UM,
        ktcs::IU,
        ktcs::RV,
        ktcs::PV,
        ktcs::WV,
        ktcs::AV,
        ktcs::IV,
    ];
    assert_eq!(fields.iter().sum::<u16>(), 0o174077);
    assert_eq!(fields.iter().fold(0, |all, field| all | field), 0o174077);
}

/// "a store that covers bits 1-0 sets FCN".
#[test]
fn the_function() {
    for function in 0..4 {
        let mut rig = Rig::new();
        rig.write(0o177576, 0o177774 | function);
        assert_eq!(word(&rig) & ktcs::FCN, function);
    }
}

/// The second START read "sets UM, FCN 2"; an interrupt: "IU takes UM; from user mode UM clears".
#[test]
fn user_mode_and_interrupted_user() {
    let mut rig = Rig::user();
    assert_eq!(word(&rig), ktcs::UM | 2);
    rig.unit.interrupt();
    assert_eq!(word(&rig), ktcs::IU | 2);
}

/// In normal paging a SOURCE access sets SS, and a DESTINATION access DS.
#[test]
fn source_and_destination_state() {
    for (state, mark) in [(State::Source, ktcs::SS), (State::Destination, ktcs::DS)] {
        let mut rig = Rig::user();
        rig.read_in(state, 0o001010);
        assert_eq!(word(&rig), ktcs::UM | mark | 2);
    }
}
