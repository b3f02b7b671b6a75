//! What is refused, by number and by length, and that a refusal changes nothing.

mod common;

use common::{parts, Rig};
use kt11b::{Answer, NumberedAccess, Reply, Unit, Vector, LONGEST_MEMORY};

const REFUSED: (Answer, u16, Option<u32>) = (Answer::Misshapen, 0, None);

/// A DATO in DESTINATION, of which the tests change one number or two.
const STORE: NumberedAccess =
    NumberedAccess { operation: 2, state: 2, width: 0, address: 0o001004, data: 7 };

/// "a number outside its list": operations from 4 on, whatever the rest.
#[test]
fn operations_outside_their_list() {
    let mut rig = Rig::paged();
    for operation in (4..300).chain([1 << 16, 1 << 32, (1 << 32) + 2, u64::MAX]) {
        for width in [0, 1] {
            let access = NumberedAccess { operation, width, ..STORE };
            let reply = rig.unchanged(|rig| rig.by_number(access));
            assert_eq!(parts(reply), REFUSED, "{access:?}");
        }
    }
}

#[test]
fn states_and_widths_outside_their_lists() {
    let mut rig = Rig::paged();
    for number in (5..300).chain([1 << 32, u64::MAX]) {
        let state = NumberedAccess { state: number, ..STORE };
        let width = NumberedAccess { operation: 0, width: number, ..STORE };
        for access in [state, width] {
            let reply = rig.unchanged(|rig| rig.by_number(access));
            assert_eq!(parts(reply), REFUSED, "{access:?}");
        }
    }
}

/// "DATO as byte, DATOB as word; FETCH not a word DATI".
#[test]
fn bad_shapes() {
    let mut rig = Rig::paged();
    let fetch = NumberedAccess { operation: 0, state: 0, ..STORE };
    let shapes = [
        NumberedAccess { width: 1, ..STORE },
        NumberedAccess { operation: 3, ..STORE },
        NumberedAccess { width: 1, ..fetch },
        NumberedAccess { operation: 1, ..fetch },
        NumberedAccess { operation: 2, ..fetch },
        NumberedAccess { operation: 3, width: 1, ..fetch },
    ];
    for access in shapes {
        let reply = rig.unchanged(|rig| rig.by_number(access));
        assert_eq!(parts(reply), REFUSED, "{access:?}");
    }
}

/// "for an access, L bad": odd, or above 760000.
#[test]
fn lengths() {
    let mut unit = Unit::fresh();
    for length in [1, 3, 511, 65_535, LONGEST_MEMORY - 1, LONGEST_MEMORY + 1, LONGEST_MEMORY + 2] {
        assert_eq!(parts(store(&mut unit, &mut vec![0; length])), REFUSED, "{length}");
    }
    for length in [4, 512, 65_536, LONGEST_MEMORY - 2, LONGEST_MEMORY] {
        let mut memory = vec![0; length];
        assert_eq!(parts(store(&mut unit, &mut memory)), (Answer::Done, 0, Some(2)), "{length}");
        assert_eq!(memory[2..4], [0o41, 0]);
    }
}

/// "L=0: unpaged 0 times out", and so does 2 with L=2.
#[test]
fn no_memory_at_all() {
    let mut unit = Unit::fresh();
    assert_eq!(parts(store(&mut unit, &mut [])), (Answer::TimeOut, 0, None));
    assert_eq!(parts(store(&mut unit, &mut [0; 2])), (Answer::TimeOut, 0, None));
}

/// A DATO of 41 at 2.
fn store(unit: &mut Unit, memory: &mut [u8]) -> Reply {
    unit.access_numbered(memory, NumberedAccess { state: 3, address: 2, data: 0o41, ..STORE })
}

/// "Vectors: 4, 10, 14, 20, 24, 30, 34 (o)."
#[test]
fn vectors() {
    let listed = [
        Vector::BusError,
        Vector::ReservedInstruction,
        Vector::TraceTrap,
        Vector::Iot,
        Vector::PowerFail,
        Vector::Emt,
        Vector::Trap,
    ];
    let mut rig = Rig::paged();
    for number in (0..300).chain([1 << 32, (1 << 32) + 4, u64::MAX]) {
        let known = listed.iter().any(|&vector| vector as u64 == number);
        let reply = rig.unchanged(|rig| rig.unit.trap_numbered(number));
        let answer = if known { Answer::Done } else { Answer::Misshapen };
        assert_eq!(parts(reply), (answer, 0, None), "vector {number}");
    }
}

/// "while waiting, another call than the one due (INIT excepted)"; "In every call 1 comes before 2".
#[test]
fn while_waiting() {
    let mut rig = Rig::paged();
    rig.read(0o001005);
    let not_due = (Answer::NotDue, 0, None);
    assert_eq!(parts(rig.unchanged(|rig| rig.read(0o001004))), not_due);
    assert_eq!(parts(rig.unchanged(|rig| rig.unit.interrupt())), not_due);
    assert_eq!(parts(rig.unchanged(|rig| rig.unit.trap(Vector::Emt))), not_due);
    assert_eq!(parts(rig.unchanged(|rig| rig.unit.trap_numbered(5))), REFUSED);
    let unlisted = NumberedAccess { operation: 4, ..STORE };
    assert_eq!(parts(rig.unchanged(|rig| rig.by_number(unlisted))), REFUSED);
    assert_eq!(parts(rig.unit.init()), (Answer::Done, 0, None));
    assert_eq!(parts(rig.read(0o001004)), (Answer::Done, 0, Some(0o001004)));
}

#[test]
fn an_unpaged_odd_word() {
    let mut rig = Rig::new();
    let reply = rig.unchanged(|rig| rig.read(0o000001));
    assert_eq!(parts(reply), (Answer::UnpagedOdd, 0, None));
}
