//! The fetch memory, which no reading shows, by the unit's words: what each sequence, INIT and trap leaves of it.

mod common;

use common::Rig;
use kt11b::{Answer, Vector, Wait};

/// "Fetch memory: the last two fetched words, counts of DATOs and of all non-fetch accesses since .., and the public flag":
/// words 9 to 13 of the unit, the newer word first.
fn fetch_memory(rig: &Rig) -> [u16; 5] {
    let mut held = [0; 5];
    held.copy_from_slice(&rig.unit.words()[9..14]);
    held
}

/// "cleared is all zero"
const CLEARED: [u16; 5] = [0; 5];

/// Exec in FCN 2: page 1, public, holds 104400 and 012700, which are fetched; page 2, public, is the registers. Then KTAD is
/// stored into and read: one DATO, two accesses, and the flag is set.
fn exec_with_all_five() -> Rig {
    let mut rig = Rig::paged();
    rig.put(0o001404, 0o160777);
    rig.put(0o002000, 0o104400);
    rig.put(0o002002, 0o012700);
    for fetched in [rig.fetch(0o001000), rig.fetch(0o001002)] {
        assert_eq!(fetched.answer(), Answer::Done);
    }
    for done in [rig.write(0o002610, 0o001000), rig.read(0o002610)] {
        assert_eq!(done.answer(), Answer::Done);
    }
    assert_eq!(fetch_memory(&rig), [0o012700, 0o104400, 1, 2, 1]);
    rig
}

/// A user in page 4, public, which holds 104400 and 012700; two reads there follow the two fetches.
fn user_with_words() -> Rig {
    let mut rig = Rig::user();
    rig.put(0o005410, 0o160024);
    rig.put(0o024000, 0o104400);
    rig.put(0o024002, 0o012700);
    for done in
        [rig.fetch(0o004000), rig.fetch(0o004002), rig.write(0o004010, 1), rig.read(0o004010)]
    {
        assert_eq!(done.answer(), Answer::Done);
    }
    assert_eq!(fetch_memory(&rig), [0o012700, 0o104400, 1, 2, 1]);
    rig
}

/// "2. The wait (2); a due sequence access ends here" comes before "4. Counts": the due stores count nothing.
#[test]
fn due_stores_count_nothing() {
    let mut rig = user_with_words();
    assert_eq!(rig.read(0o002000).answer(), Answer::ResidencyViolation);
    assert_eq!(fetch_memory(&rig), CLEARED, "a violation clears it at once");
    assert_eq!(rig.serve(0o000676, 0).answer(), Answer::Done);
    assert_eq!((rig.unit.wait(), fetch_memory(&rig)), (Some(Wait::ProgramCounter), CLEARED));
    assert_eq!(rig.serve(0o000674, 0).answer(), Answer::Done);
    assert_eq!((rig.unit.wait(), fetch_memory(&rig)), (Some(Wait::Nothing), CLEARED));
}

/// START reads count nothing either; "the second .. clears fetch memory", and the first does not.
#[test]
fn start_reads() {
    let mut rig = Rig::new();
    rig.put(0o001000, 0o104400);
    rig.put(0o001002, 0o000002);
    rig.fetch(0o001000);
    rig.fetch(0o001002);
    rig.write(0o177576, 0o000003);
    let before = [0o000002, 0o104400, 1, 1, 0];
    assert_eq!(fetch_memory(&rig), before);
    assert_eq!(rig.read(0).answer(), Answer::Done);
    assert_eq!((rig.unit.wait(), fetch_memory(&rig)), (Some(Wait::SecondRead), before));
    assert_eq!(rig.read(0).answer(), Answer::Done);
    assert_eq!((rig.unit.wait(), fetch_memory(&rig)), (Some(Wait::Nothing), CLEARED));
}

/// The flag is cleared by the second START read too: it was set by a fetch in FCN 3, which is normal paging for a fetch.
#[test]
fn start_reads_with_the_flag() {
    let mut rig = exec_with_all_five();
    rig.write(0o002576, 0o000003);
    rig.fetch(0o001002);
    let before = [0o012700, 0o012700, 0, 0, 1];
    assert_eq!(fetch_memory(&rig), before);
    rig.read(0);
    assert_eq!(fetch_memory(&rig), before);
    rig.read(0);
    assert_eq!(fetch_memory(&rig), CLEARED);
}

/// "INIT clears KTCS, the wait, the fetch memory and the cells"
#[test]
fn init_clears_all_five() {
    let mut rig = exec_with_all_five();
    rig.unit.init();
    assert_eq!(fetch_memory(&rig), CLEARED);
}

/// "Interrupt: .. from user mode UM clears, fetch memory clears"; in exec it stays. "Trap from exec changes nothing."
#[test]
fn interrupts_and_traps() {
    let mut rig = exec_with_all_five();
    assert_eq!(rig.unchanged(|rig| rig.unit.trap(Vector::Trap)).answer(), Answer::Done);
    assert_eq!(rig.unit.interrupt().answer(), Answer::Done);
    assert_eq!(fetch_memory(&rig), [0o012700, 0o104400, 1, 2, 1]);

    let mut rig = user_with_words();
    assert_eq!(rig.unit.interrupt().answer(), Answer::Done);
    assert_eq!(fetch_memory(&rig), CLEARED);
    let mut rig = user_with_words();
    assert_eq!(rig.unit.trap(Vector::Emt).answer(), Answer::Done);
    assert_eq!(fetch_memory(&rig), CLEARED);
}

/// "except vector 34o when the last two fetched words are not both TRAP; that changes nothing"
#[test]
fn a_users_own_trap() {
    let mut rig = user_with_words();
    assert_eq!(rig.unchanged(|rig| rig.unit.trap(Vector::Trap)).answer(), Answer::Done);
    rig.put(0o024004, 0o104777);
    rig.fetch(0o004004);
    rig.fetch(0o004000);
    assert_eq!(fetch_memory(&rig), [0o104400, 0o104777, 0, 0, 1]);
    assert_eq!(rig.unit.trap(Vector::Trap).answer(), Answer::Done);
    assert_eq!(fetch_memory(&rig), CLEARED, "two TRAPs in a row go to the monitor");
}

/// "unpaged: step 4, KTAD, KTDT": words and flag stay, and a fetch is not counted.
#[test]
fn an_unpaged_time_out() {
    let mut rig = exec_with_all_five();
    rig.write(0o002576, 0o000000);
    assert_eq!(
        fetch_memory(&rig),
        [0o012700, 0o104400, 2, 2, 1],
        "the store that ends paging is the second DATO"
    );
    assert_eq!(rig.fetch(0o160000).answer(), Answer::TimeOut);
    assert_eq!(rig.read(0o160000).answer(), Answer::TimeOut);
    assert_eq!(fetch_memory(&rig), [0o012700, 0o104400, 2, 2, 1]);
}
