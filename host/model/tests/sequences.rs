//! Sequences: violations, the wait for two stores, interrupts, traps and the start of a user.
//! Expected values are worked out by hand from 01's words, which stand above each test.

mod common;

use common::{bare, done, Rig};
use kt11b_model::{FetchMemory, Reply};

fn start(data: u16) -> Reply {
    Reply { answer: 0, data, physical: None }
}

/// A user with two TRAP words fetched.
fn trap_loop() -> Rig {
    let mut rig = Rig::user();
    rig.fetch_word(0o010000, 0o000000, 0o104400);
    rig.fetch_word(0o010002, 0o000002, 0o104777);
    rig
}

/// "the unit waits for two SERVICE DATOs. The first puts data in KTPS; the second puts address in KTSP and data in
/// KTPC. Memory and cells stay."
/// Answer 2: "while waiting, another call than the one due (INIT excepted)"
#[test]
fn only_the_due_service_stores_are_taken_in_a_wait() {
    let mut rig = Rig::exec();
    rig.read(0o001001);
    let before = rig.unit;
    for kind in [[2, 3, 0], [3, 4, 1], [0, 4, 0], [0, 0, 0]] {
        assert_eq!(rig.access(kind, 0, 0), bare(2));
    }
    assert_eq!(rig.unit.interrupt(), bare(2));
    assert_eq!(rig.unit.trap(4), bare(2));
    assert_eq!(rig.unit, before);
    assert_eq!(rig.access([2, 4, 0], 0o000777, 0o000341), bare(0));
    assert_eq!((rig.ktps(), rig.unit.wait_number()), (0o000341, 2));
    assert_eq!(rig.access([2, 4, 0], 0o000775, 0o001235), bare(0));
    assert_eq!((rig.ktsp(), rig.ktpc(), rig.unit.wait_number()), (0o000775, 0o001235, 0));
    assert_eq!((rig.word(0o001776), rig.word(0o001774)), (0o160777, 0));
}

/// "its flag is set (9 has none), KTAD takes the virtual address (for the inner window access KTAD stays), KTDT the
/// store's data or, for 8, the fetched word, else 0"; by T-01 "9 and 10 have none".
#[test]
fn ktdt_after_each_violation_and_flags_that_pile_up() {
    let mut rig = Rig::exec();
    assert_eq!(rig.write_quietly(0o003000, 0o000123), bare(6));
    assert_eq!(rig.ktdt(), 0o000123);
    rig.service();
    assert_eq!(rig.read_quietly(0o004000), bare(5));
    assert_eq!((rig.ktad(), rig.ktdt(), rig.ktcs()), (0o004000, 0, 0o024002));
    rig.service();
    rig.write_quietly(0o003000, 0o000123);
    rig.service();
    assert_eq!(rig.access([1, 3, 0], 0o003000, 0o000456), bare(6));
    assert_eq!(rig.ktdt(), 0);
    // For 8 the word.
    let mut rig = Rig::user();
    rig.put(0o010000, 0o000005);
    let expected = Reply { answer: 8, data: 0o000005, physical: Some(0o010000) };
    assert_eq!(rig.fetch(0o000000), expected);
    assert_eq!((rig.ktad(), rig.ktdt(), rig.ktcs()), (0, 0o000005, 0o100042));
}

/// "KTDT the store's data"; "the low 8 bits of data" is said of what a DATOB writes.
#[test]
fn ktdt_takes_all_bits_of_a_refused_datob() {
    let mut rig = Rig::exec();
    assert_eq!(rig.write_byte(0o003001, 0o123456), bare(6));
    assert_eq!(rig.ktdt(), 0o123456);
    assert_eq!(rig.ktcs(), 0o020002);
}

/// "Interrupt: IU takes UM; from user mode UM clears, fetch memory clears, and the same wait begins."
/// "Trap from exec changes nothing."
#[test]
fn iu_takes_um_by_interrupt_and_violation_and_stays_by_a_trap_in_exec() {
    let mut rig = Rig::user();
    assert_eq!(rig.unit.interrupt(), bare(0));
    assert_eq!((rig.ktcs(), rig.unit.wait_number()), (0o000042, 1));
    rig.service();
    assert_eq!(rig.unit.trap(0o4), bare(0));
    assert_eq!(rig.ktcs(), 0o000042);
    let user_interrupted = rig.unit;
    assert_eq!(rig.unit.interrupt(), bare(0));
    assert_eq!((rig.ktcs(), rig.unit.wait_number()), (0o000002, 0));
    rig.unit = user_interrupted;
    rig.read_quietly(0o001001);
    assert_eq!(rig.ktcs(), 0o040002);
}

/// "IU takes UM; UM clears"; "for the inner window access KTAD stays"
#[test]
fn a_windows_inner_fault_takes_the_real_um() {
    let mut rig = Rig::exec();
    rig.write(0o177610, 0o000001);
    rig.read(0o177572);
    assert_eq!(rig.ktcs(), 0o040012);
    let mut rig = Rig::user();
    rig.write(0o002610, 0o000001);
    rig.read(0o002572);
    assert_eq!((rig.ktcs(), rig.ktad()), (0o040052, 0o000001));
}

/// "unpaged: step 4, KTAD, KTDT"
#[test]
fn an_unpaged_time_out_of_a_user_begins_no_sequence() {
    let mut rig = Rig::user();
    rig.fetch_word(0o010000, 0o000000, 0o010101);
    rig.write_quietly(0o002576, 0);
    assert_eq!(rig.ktcs(), 0o000020);
    assert_eq!(rig.write(0o160002, 0o000123), bare(9));
    assert_eq!((rig.ktcs(), rig.unit.wait_number()), (0o000020, 0));
    assert_eq!((rig.ktad(), rig.ktdt()), (0o160002, 0o000123));
    let expected = FetchMemory { last: 0o010101, before: 0, datos: 2, accesses: 2, public: true };
    assert_eq!(rig.unit.fetch_memory(), expected);
}

/// "from user mode UM clears"; "Trap from user mode: the same"
/// The words are judged by "Word rule, paged fetches", so HALT passes unpaged.
#[test]
fn from_user_mode_is_um_whatever_fcn_is() {
    let mut rig = Rig::user();
    rig.write_quietly(0o002576, 0);
    assert_eq!(rig.fetch(0o020000), done(0, 0o020000));
    assert_eq!(rig.unit.trap(0o10), bare(0));
    assert_eq!((rig.ktcs(), rig.unit.wait_number()), (0o000040, 1));
    let mut rig = Rig::user();
    rig.write_quietly(0o002576, 1);
    assert_eq!(rig.unit.interrupt(), bare(0));
    assert_eq!((rig.ktcs(), rig.unit.wait_number()), (0o000041, 1));
}

/// "except vector 34o when the last two fetched words are not both TRAP; that changes nothing"
#[test]
fn trap_34_asks_both_words() {
    let mut rig = trap_loop();
    assert_eq!(rig.unit.trap(0o34), bare(0));
    assert_eq!((rig.ktcs(), rig.unit.wait_number()), (0o000042, 1));
    assert_eq!(rig.unit.fetch_memory(), FetchMemory::default());
    // One TRAP word only: nothing at all changes.
    let mut rig = Rig::user();
    rig.fetch_word(0o010000, 0o000000, 0o010101);
    rig.fetch_word(0o010002, 0o000002, 0o104400);
    let before = rig.unit;
    assert_eq!(rig.unit.trap(0o34), bare(0));
    assert_eq!(rig.unit, before);
    assert_eq!(rig.unit.trap(0o30), bare(0));
    assert_eq!(rig.unit.wait_number(), 1);
}

/// "Fetch memory: the last two fetched words"; "A fetch with answer 0 updates it"
/// "Trap from exec changes nothing."
#[test]
fn unpaged_and_register_fetches_count_for_trap_34() {
    let mut rig = Rig::user();
    rig.write_quietly(0o002604, 0o104444);
    assert_eq!(rig.fetch(0o002604), done(0o104444, 0o777604));
    rig.write_quietly(0o002576, 0);
    rig.fetch_word(0o020000, 0o020000, 0o104400);
    assert_eq!(rig.unit.trap(0o34), bare(0));
    // SS is there because the store into KTCS was a TRAP's first DATO.
    assert_eq!((rig.ktcs(), rig.unit.wait_number()), (0o000044, 1));
    // In exec it changes nothing.
    let mut rig = Rig::exec();
    rig.fetch_word(0o002000, 0o001000, 0o104400);
    rig.fetch_word(0o002000, 0o001000, 0o104400);
    let before = rig.unit;
    assert_eq!(rig.unit.trap(0o34), bare(0));
    assert_eq!(rig.unit, before);
}

/// Exec with FCN 3, KTPC 001234o, KTPS 000340o, DS set.
fn starting() -> Rig {
    let mut rig = Rig::exec();
    rig.write(0o177604, 0o001234);
    rig.write(0o177606, 0o000340);
    rig.write(0o177576, 3);
    assert_eq!(rig.ktcs(), 0o000013);
    rig
}

/// "FCN 3: the next two accesses other than a fetch must be word DATIs. They give KTPC, then KTPS, address ignored; the
/// second sets UM, FCN 2 and clears fetch memory. Fetches may come before the first and not between."
#[test]
fn the_two_start_reads_are_word_datis_in_any_state_at_any_address() {
    let mut rig = starting();
    let before = rig.unit;
    assert_eq!(rig.access([1, 2, 0], 0, 0), bare(2));
    assert_eq!(rig.access([0, 2, 1], 0, 0), bare(2));
    assert_eq!(rig.access([2, 4, 0], 0, 0), bare(2));
    assert_eq!(rig.unit.interrupt(), bare(2));
    assert_eq!(rig.unit.trap(0o34), bare(2));
    assert_eq!(rig.unit, before);
    assert_eq!(rig.access([0, 4, 0], 0o177777, 0), start(0o001234));
    assert_eq!((rig.ktcs(), rig.unit.wait_number()), (0o000013, 3));
    assert_eq!(rig.fetch(0o001000), bare(2));
    assert_eq!(rig.access([1, 1, 0], 0, 0), bare(2));
    assert_eq!(rig.unit.interrupt(), bare(2));
    assert_eq!(rig.access([0, 1, 0], 0o000001, 0), start(0o000340));
    assert_eq!((rig.ktcs(), rig.unit.wait_number()), (0o000032, 0));
    assert_eq!(rig.unit.fetch_memory(), FetchMemory::default());
}

/// "Fetches may come before the first and not between."; ""Normal paging" is FCN 2, and FCN 3 for a fetch."
/// After a violation "FCN 3 becomes 2".
#[test]
fn a_fetch_before_the_first_start_read_is_normal_paging() {
    let mut rig = starting();
    rig.fetch_word(0o002004, 0o001004, 0o000002);
    assert_eq!((rig.ktcs(), rig.ktic()), (0o000003, 0o001004));
    assert!(rig.unit.fetch_memory().public);
    assert_eq!(rig.read(0), start(0o001234));
    // Its violation makes FCN 2.
    let mut rig = starting();
    assert_eq!(rig.fetch(0o004000), bare(5));
    assert_eq!((rig.ktcs(), rig.unit.wait_number()), (0o004002, 1));
}

/// Answer 2: "FCN 3: interrupt, trap, or an access neither a fetch nor a word DATI"
/// A fetch is still judged: "user HALT 0, WAIT 1, RESET 5".
#[test]
fn a_user_who_stores_fcn_3() {
    let mut rig = Rig::user();
    rig.write_quietly(0o002576, 3);
    assert_eq!(rig.ktcs(), 0o000023);
    assert_eq!(rig.unit.interrupt(), bare(2));
    assert_eq!(rig.unit.trap(0o4), bare(2));
    rig.put(0o010000, 0o000001);
    assert_eq!(rig.fetch(0o000000).answer, 8);
    assert_eq!((rig.ktcs(), rig.unit.wait_number()), (0o100042, 1));
}

/// "In every call 1 comes before 2"
/// INIT: "It is always accepted."
#[test]
fn answer_1_comes_before_answer_2() {
    let mut rig = Rig::exec();
    rig.read(0o001001);
    let before = rig.unit;
    assert_eq!(rig.unit.trap(5), bare(1));
    assert_eq!(rig.access([2, 4, 1], 0, 0), bare(1));
    assert_eq!(rig.unit.access(&mut [0; 3], 2, 4, 0, 0, 0), bare(1));
    assert_eq!(rig.unit, before);
    let mut rig = starting();
    assert_eq!(rig.unit.trap(0o36), bare(1));
    assert_eq!(rig.access([4, 1, 0], 0, 0), bare(1));
    assert_eq!(rig.unit.init(), bare(0));
    assert_eq!(rig.ktcs(), 0);
}

/// "A fetch with answer 0 updates it (counts go to 0, the flag to the page's public bit); the flag only in normal paging"
/// "from user mode UM clears, fetch memory clears": an interrupt in exec leaves it; a violation and "INIT" clear it.
#[test]
fn what_moves_the_public_flag_and_what_clears_it() {
    // Kept through unpaged fetches.
    let mut rig = Rig::exec_from_public();
    rig.write_quietly(0o177576, 0);
    rig.fetch(0o020000);
    assert!(rig.unit.fetch_memory().public);
    rig.write_quietly(0o177576, 1);
    rig.fetch(0o020000);
    assert!(rig.unit.fetch_memory().public);
    // An interrupt in exec leaves fetch memory.
    let before = rig.unit.fetch_memory();
    rig.unit.interrupt();
    assert_eq!(rig.unit.fetch_memory(), before);
    // A private fetch at an entry point clears it; so do a violation and INIT.
    let mut rig = Rig::exec_from_public();
    rig.fetch_word(0o003000, 0o002000, 0o000400);
    assert!(!rig.unit.fetch_memory().public);
    let mut rig = Rig::exec_from_public();
    assert_eq!(rig.read_quietly(0o002000), bare(7));
    assert_eq!(rig.unit.fetch_memory(), FetchMemory::default());
    let mut rig = Rig::exec_from_public();
    rig.unit.init();
    assert_eq!(rig.unit.fetch_memory(), FetchMemory::default());
}

/// "from user mode UM clears, fetch memory clears, and the same wait begins. Trap from user mode: the same"
#[test]
fn an_interrupt_and_a_trap_from_user_mode_clear_the_fetch_memory() {
    for trap in [false, true] {
        let mut rig = Rig::user();
        rig.fetch_word(0o010000, 0o000000, 0o010101);
        assert!(rig.unit.fetch_memory().public);
        let reply = if trap { rig.unit.trap(0o20) } else { rig.unit.interrupt() };
        assert_eq!(reply, bare(0));
        assert_eq!(rig.unit.fetch_memory(), FetchMemory::default());
    }
}

/// "Answers 0 and 8 of an access give the physical address"; data "for 8 the word"
/// "user HALT 0": exec may fetch it.
#[test]
fn answers_0_and_8_give_the_physical_address() {
    let mut rig = Rig::exec_from_public();
    rig.put(0o003000, 0o010101);
    let expected = Reply { answer: 8, data: 0o010101, physical: Some(0o003000) };
    assert_eq!(rig.fetch(0o002000), expected);
    assert_eq!((rig.ktdt(), rig.ktcs()), (0o010101, 0o100002));
    assert!(!rig.holds(2));
    // Exec may fetch HALT.
    let mut rig = Rig::exec();
    assert_eq!(rig.fetch(0o001000), done(0, 0o002000));
}
