//! 01's listing, and a user's start, fault and restart, through the wrapper.

mod common;

use common::{parts, Rig, BOTH};
use kt11b::{Answer, Register, Vector, Wait};

/// "The listing of 01 prints the same with both counts."
#[test]
fn the_listing_of_01() {
    for cells in BOTH {
        listing_with_cells(cells);
    }
}

fn listing_with_cells(cells: u64) {
    let mut rig = Rig::with_cells(cells);
    rig.put(0o001402, 0o160002);
    rig.put(0o002004, 0o000123);
    let expected = [
        (rig.write(0o177616, 0o177001), Answer::Done, 0, Some(0o777616)),
        (rig.write(0o177576, 0o000002), Answer::Done, 0, Some(0o777576)),
        (rig.read(0o001004), Answer::Done, 0o000123, Some(0o002004)),
        (rig.read(0o001005), Answer::AddressViolation, 0, None),
    ];
    for (reply, answer, data, physical) in expected {
        assert_eq!(parts(reply), (answer, data, physical));
    }
    assert_eq!(rig.unit.register(Register::Ktcs), Some(0o040012));
}

/// "the unit waits for two SERVICE DATOs. The first puts data in KTPS; the second puts address in KTSP and data in KTPC."
#[test]
fn a_residency_fault_and_the_way_back() {
    for cells in BOTH {
        fault_and_way_back_with_cells(cells);
    }
}

fn fault_and_way_back_with_cells(cells: u64) {
    let mut rig = Rig::user_with_cells(cells);
    let refused = rig.write(0o002004, 0o000041);
    assert_eq!(parts(refused), (Answer::ResidencyViolation, 0, None));
    assert_eq!(rig.unit.register(Register::Ktcs), Some(0o004052));
    assert_eq!(rig.unit.register(Register::Ktad), Some(0o002004));
    assert_eq!(rig.unit.register(Register::Ktdt), Some(0o000041));
    assert_eq!(rig.unit.wait(), Some(Wait::Status));
    assert_eq!(parts(rig.serve(0o000676, 0o000340)), (Answer::Done, 0, None));
    assert_eq!(rig.unit.wait(), Some(Wait::ProgramCounter));
    assert_eq!(parts(rig.serve(0o000674, 0o000016)), (Answer::Done, 0, None));
    assert_eq!(rig.unit.wait(), Some(Wait::Nothing));
    assert_eq!(rig.unit.register(Register::Ktps), Some(0o000340));
    assert_eq!(rig.unit.register(Register::Ktsp), Some(0o000674));
    assert_eq!(rig.unit.register(Register::Ktpc), Some(0o000016));

    rig.put(0o005404, 0o120022);
    rig.unit.init();
    rig.write(0o177576, 0o000003);
    assert_eq!(parts(rig.read(0)), (Answer::Done, 0o000016, None));
    assert_eq!(rig.unit.wait(), Some(Wait::SecondRead));
    assert_eq!(parts(rig.read(0)), (Answer::Done, 0o000340, None));
    assert_eq!(parts(rig.write(0o002004, 0o000041)), (Answer::Done, 0, Some(0o022004)));
    assert_eq!(rig.word(0o022004), 0o000041);
}

/// "Interrupt: IU takes UM; from user mode UM clears ... and the same wait begins. Trap from user mode: the same".
#[test]
fn interrupts_and_traps_of_a_user() {
    let mut rig = Rig::user();
    let ktcs = |rig: &Rig| rig.unit.register(Register::Ktcs);
    assert_eq!(ktcs(&rig), Some(0o000022));
    assert_eq!(rig.unit.trap(Vector::Trap).answer(), Answer::Done);
    assert_eq!(ktcs(&rig), Some(0o000022), "no two TRAPs were fetched");
    assert_eq!(parts(rig.unit.interrupt()), (Answer::Done, 0, None));
    assert_eq!(ktcs(&rig), Some(0o000042));
    assert_eq!(rig.unit.wait(), Some(Wait::Status));

    let mut rig = Rig::user();
    assert_eq!(parts(rig.unit.trap(Vector::Emt)), (Answer::Done, 0, None));
    assert_eq!(ktcs(&rig), Some(0o000042));
    assert_eq!(rig.unit.wait(), Some(Wait::Status));
}
