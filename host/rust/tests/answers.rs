//! Every answer by name, from a call that gives it, with its number, its data, its physical address and its flag in KTCS.

mod common;

use common::answers::CASES;
use common::parts;
use kt11b::{ktcs, Register, Wait};

#[test]
fn each_by_a_call_that_gives_it() {
    for case in CASES {
        let (_, reply) = (case.call)();
        assert_eq!(parts(reply), case.parts, "{}", case.name);
        assert_eq!(reply.answer_number(), case.number, "{}", case.name);
        assert_eq!(reply.is_done(), case.name == "DONE");
    }
}

/// "its flag is set (9 has none)", and no other one; 10 has none either: "State changes are as for 9".
#[test]
fn each_with_its_flag() {
    let flags = ktcs::RV | ktcs::PV | ktcs::WV | ktcs::AV | ktcs::IV;
    for case in CASES {
        let (rig, _) = (case.call)();
        // Words that don't hold a unit have no KTCS.
        let set = rig.unit.register(Register::Ktcs).map_or(0, |word| word & flags);
        assert_eq!(set, case.flag, "{}", case.name);
    }
}

/// After answers 4 to 8 and 10 "the unit waits for two SERVICE DATOs"; none of the others here leaves it waiting, since the 9 is
/// unpaged.
#[test]
fn each_with_its_wait() {
    for case in CASES {
        let (rig, _) = (case.call)();
        let expected = match case.number {
            4..=8 | 10 => Some(Wait::Status),
            70 => None,
            _ => Some(Wait::Nothing),
        };
        assert_eq!(rig.unit.wait(), expected, "{}", case.name);
    }
}
