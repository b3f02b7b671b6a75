//! From address to entry: maps, cells and keys; then the registers and the window.
//! Expected values are worked out by hand from 01's words, which stand above each test.

mod common;

use common::{bare, done, Rig};
use kt11b_model::FetchMemory;

/// "Exec page 0: physical page M of KTEM, no cell, every key passes."
/// "exec page 0 counts as private and is never judged for privacy or entry point"
#[test]
fn exec_page_0_has_no_cell_and_is_never_judged() {
    // No entry point asked for, and the flag becomes 0.
    let mut rig = Rig::exec_from_public();
    rig.fetch_word(0o001010, 0o000010, 0o010203);
    assert!(!rig.unit.fetch_memory().public);
    // Not judged for privacy; every key passes; no cell.
    let mut rig = Rig::exec_from_public();
    assert_eq!(rig.write_quietly(0o000010, 0o000007), done(0, 0o001010));
    assert_eq!(rig.unit.tags(), [1, 0, 0, 0, 0, 0, 0, 0]);
    // Still an odd word.
    assert_eq!(rig.read_quietly(0o000011), bare(4));
    assert_eq!(rig.unit.tags(), [1, 0, 0, 0, 0, 0, 0, 0]);
}

/// "Exec page 0: physical page M of KTEM"; "10. Target at or beyond L and not a register above (9)."
/// The flag moves "never from a KT register".
#[test]
fn exec_page_0_beyond_memory_and_at_the_registers() {
    let mut rig = Rig::exec();
    rig.write(0o177616, 0o000200);
    assert_eq!(rig.read_quietly(0o000010), bare(9));
    assert_eq!((rig.ktad(), rig.unit.wait_number()), (0o000010, 1));
    let mut rig = Rig::exec();
    rig.write(0o177616, 0o000777);
    assert_eq!(rig.read(0o000614), done(0o004005, 0o777614));
    assert_eq!(rig.read(0o000572), done(0, 0o010000));
    // A fetch from a register moves no flag, exec page 0 or not.
    let mut rig = Rig::exec_from_public();
    rig.write_quietly(0o177616, 0o000777);
    assert_eq!(rig.fetch(0o000614), done(0o004005, 0o777614));
    assert!(rig.unit.fetch_memory().public);
}

/// "Tag: 128 for user plus p; 0 means empty."
/// A window "goes on as a user access to KTAD".
#[test]
fn user_page_0_has_tag_128_in_a_window_too() {
    let mut rig = Rig::exec();
    assert_eq!(rig.read(0o177572), done(0, 0o010000));
    assert_eq!(rig.unit.tags()[..2], [0o177, 0o200]);
    assert_eq!(rig.unit.words()[..2], [0o160777, 0o160010]);
    assert_eq!(rig.ktcs() & 0o000020, 0);
}

/// "A finished walk fills the cell the counter names, then the counter steps 10o to 17o and round"
/// After answer 5 "the cell of the page at fault .. empties"; the counter has stepped.
#[test]
fn a_page_not_resident_fills_a_cell_which_then_empties() {
    let mut rig = Rig::exec();
    assert_eq!(rig.read(0o004000), bare(5));
    assert_eq!((rig.unit.tags()[0], rig.unit.words()[0], rig.unit.counter()), (0, 0, 0o11));
    rig.service();
    rig.read(0o001000);
    assert_eq!(rig.unit.tags()[..2], [0, 1]);
    assert_eq!(rig.unit.counter(), 0o12);
}

/// "A map word or pointer at or beyond L is a time-out.": by T-01 it is answered 10, "10 takes 9's place at step 6".
/// "A walk that times out fills nothing.": by T-01 it is one that ran off memory.
#[test]
fn a_walk_that_ran_off_memory_fills_nothing_and_does_not_step() {
    let mut rig = Rig::exec();
    rig.write(0o177616, 0o177777);
    assert_eq!(rig.read(0o001000), bare(10));
    assert_eq!((rig.unit.tags(), rig.unit.counter()), (&[0; 8][..], 0o10));
    // A pointer that leads beyond memory.
    let mut rig = Rig::user();
    rig.put(0o005412, 0o000200);
    assert_eq!(rig.read(0o005000), bare(10));
    assert_eq!((rig.unit.tags(), rig.unit.counter()), (&[0; 8][..], 0o10));
}

/// "A hit uses the cell.": it walks nothing, so that it can't run off memory.
#[test]
fn a_hit_never_runs_off_memory() {
    let mut rig = Rig::exec();
    rig.put(0o100402, 0o160002);
    rig.write(0o177616, 0o177100);
    assert_eq!(rig.read(0o001000), done(0, 0o002000));
    rig.memory.truncate(0o010000);
    assert_eq!(rig.read(0o001002), done(0, 0o002002));
    assert_eq!(rig.read(0o002000), bare(10));
}

/// "Other exec pages: word at 512·M(KTUM)+2p."
/// By T-02 "pages 0 to N are simple, N=0 means one page, and N=127 means all".
#[test]
fn exec_pages_beyond_n_are_read_in_ktums_page() {
    let mut rig = Rig::exec();
    rig.put(0o005002, 0o160030);
    rig.write(0o177616, 0o000001);
    assert_eq!(rig.read(0o001000), done(0, 0o030000));
    assert_eq!(rig.unit.tags()[0], 1);
    // N=127 means all for KTUM: page 5's word is then no pointer.
    let mut rig = Rig::exec();
    rig.write(0o177614, 0o177005);
    rig.put(0o005412, 0o160031);
    rig.write(0o177610, 0o005000);
    assert_eq!(rig.read(0o177572), done(0, 0o031000));
}

/// "the word at that same place is a pointer, high 7 bits n, low 9 bits m; the map word is at 512·m+256+2n"
#[test]
fn a_pointer_has_no_keys() {
    let mut rig = Rig::user();
    assert_eq!(rig.write(0o005000, 1), done(0, 0o013000));
    assert_eq!(rig.unit.words()[0], 0o160013);
    // A pointer with bits 15-13 set leads to entry 160o and up, and the word there decides.
    let mut rig = Rig::user();
    rig.put(0o005412, 0o160007);
    rig.put(0o007740, 0o100014);
    assert_eq!(rig.write(0o005000, 1), bare(6));
}

/// "Any of answers 4-8, or a paged 9: .. the cell of the page at fault .. empties"; answer 4 comes before "6. Walk (9).", which
/// T-01 answers 10.
#[test]
fn an_odd_word_empties_the_pages_cell() {
    let mut rig = Rig::exec();
    rig.read(0o001000);
    assert!(rig.holds(1));
    assert_eq!(rig.read(0o001001), bare(4));
    assert_eq!((rig.unit.tags(), rig.unit.counter()), (&[0; 8][..], 0o11));
}

/// "7. Residency (5). 8. Write key for operations 1-3 (6). 9. Privacy (7). 10. Target at or beyond L and not a register above (9)."
#[test]
fn residency_then_write_key_then_privacy_then_target() {
    let mut rig = Rig::exec_from_public();
    rig.put(0o001410, 0o000006);
    assert_eq!(rig.write_quietly(0o004000, 0), bare(5));
    let mut rig = Rig::exec_from_public();
    rig.put(0o001410, 0o100006);
    assert_eq!(rig.write_quietly(0o004000, 0), bare(6));
    let mut rig = Rig::exec_from_public();
    rig.put(0o001410, 0o120200);
    assert_eq!(rig.write_quietly(0o004000, 0), bare(7));
    let mut rig = Rig::exec_from_public();
    rig.put(0o001410, 0o160200);
    assert_eq!(rig.write_quietly(0o004000, 0), bare(9));
}

/// "8. Write key for operations 1-3 (6)."; a window goes "through steps 5-8 and 10 again".
#[test]
fn a_datip_asks_both_pages_of_a_window_for_the_write_key() {
    let mut rig = Rig::exec();
    rig.write(0o177610, 0o003000);
    assert_eq!(rig.access([1, 3, 0], 0o177572, 0), bare(6));
    assert_eq!(rig.ktad(), 0o003000);
    let mut rig = Rig::exec();
    rig.put(0o001776, 0o140777);
    assert_eq!(rig.access([1, 3, 0], 0o177572, 0), bare(6));
    assert_eq!(rig.ktad(), 0o177572);
    // A DATIP that may, reads and stores nothing.
    let mut rig = Rig::exec();
    rig.put(0o002000, 0o000077);
    assert_eq!(rig.access([1, 3, 0], 0o001000, 0o123456), done(0o000077, 0o002000));
    assert_eq!(rig.word(0o002000), 0o000077);
}

/// "8-0 physical page; 12-9 ignored"; the cell and its "scratchpad word" keep all 16 bits.
#[test]
fn bits_12_to_9_of_a_map_word_are_ignored_and_kept() {
    let mut rig = Rig::exec();
    rig.put(0o001402, 0o177002);
    assert_eq!(rig.read(0o001004), done(0, 0o002004));
    assert_eq!(rig.read(0o177620), done(0o177002, 0o777620));
}

/// "A store into KTUM or KTEM, byte or word, empties all cells and sets the counter to 10o."
#[test]
fn an_equal_byte_of_ktum_through_a_window_empties_all_cells() {
    let mut rig = Rig::exec();
    rig.write(0o177610, 0o002615);
    assert_eq!(rig.write_byte(0o177572, 0o000010), done(0, 0o777615));
    assert_eq!(rig.ktum(), 0o004005);
    assert_eq!((rig.unit.tags(), rig.unit.words()), (&[0; 8][..], &[0; 8][..]));
    assert_eq!(rig.unit.counter(), 0o10);
}

/// "A store into a scratchpad word leaves the tag, and does nothing in an empty cell (H)."
/// "Other registers take words and bytes."
#[test]
fn scratchpad_words_of_held_and_of_empty_cells() {
    let mut rig = Rig::exec();
    rig.read(0o001000);
    rig.write(0o177576, 0);
    assert_eq!(rig.unit.tags()[..3], [1, 0o177, 0]);
    assert_eq!(rig.read(0o177620), done(0o160002, 0o777620));
    assert_eq!(rig.write_byte(0o177621, 0o000240), done(0, 0o777621));
    assert_eq!(rig.read(0o177620), done(0o120002, 0o777620));
    assert_eq!(rig.write_byte(0o177620, 0o000777), done(0, 0o777620));
    assert_eq!(rig.unit.words()[0], 0o120377);
    assert_eq!(rig.unit.tags()[0], 1);
    // Empty cells.
    assert_eq!(rig.write(0o177624, 0o123456), done(0, 0o777624));
    assert_eq!(rig.read(0o177624), done(0, 0o777624));
    assert_eq!(rig.read(0o177636), done(0, 0o777636));
}

/// "A hit uses the cell."
#[test]
fn a_changed_scratchpad_word_is_used() {
    let mut rig = Rig::exec();
    rig.read(0o001000);
    rig.write(0o177620, 0o160025);
    assert_eq!(rig.read(0o001002), done(0, 0o025002));
}

/// "Any store into it, byte or word, clears IU and bits 15-11; a store that covers bits 1-0 sets FCN. Nothing else
/// there is writable."
#[test]
fn stores_into_ktcs_by_byte_and_by_word() {
    // IU and AV stand after a user's violation; SS and DS are set first.
    let mut rig = Rig::user();
    rig.access([0, 1, 0], 0o000000, 0);
    rig.read(0o000001);
    rig.service();
    assert_eq!(rig.ktcs(), 0o040056);
    assert_eq!(rig.write_byte(0o177577, 0o000377), done(0, 0o777577));
    assert_eq!(rig.ktcs(), 0o000016);
    assert_eq!(rig.write_byte(0o177576, 0o177774), done(0, 0o777576));
    assert_eq!(rig.ktcs(), 0o000014);
    // UM and the fetch memory stay.
    let mut rig = Rig::user();
    rig.fetch_word(0o010000, 0o000000, 0o010101);
    rig.write_quietly(0o002576, 0o177774);
    assert_eq!(rig.ktcs(), 0o000020);
    let expected = FetchMemory { last: 0o010101, before: 0, datos: 1, accesses: 1, public: true };
    assert_eq!(rig.unit.fetch_memory(), expected);
}

/// "KTMR reads the counter times 256; stores into it are accepted and do nothing."
/// "10. Target at or beyond L and not a register above (9)."
#[test]
fn ktmr_is_a_word_and_its_neighbours_are_no_registers() {
    let mut rig = Rig::new();
    assert_eq!(rig.read(0o177574), done(0o004000, 0o777574));
    assert_eq!(rig.access([0, 2, 1], 0o177575, 0), done(0o004000, 0o777575));
    assert_eq!(rig.write(0o177574, 0o177777), done(0, 0o777574));
    assert_eq!(rig.write_byte(0o177575, 0o000377), done(0, 0o777575));
    assert_eq!(rig.read(0o177574), done(0o004000, 0o777574));
    assert_eq!(rig.read(0o177570), bare(9));
    assert_eq!(rig.read(0o177640), bare(9));
}

/// "Reads give the whole word at the even address. DATOB writes the low 8 bits of data."
#[test]
fn a_byte_read_gives_the_word_and_an_odd_datob_goes_to_the_high_byte() {
    let mut rig = Rig::new();
    rig.put(0o001000, 0o123456);
    assert_eq!(rig.access([0, 2, 1], 0o001001, 0), done(0o123456, 0o001001));
    assert_eq!(rig.write_byte(0o001001, 0o052525), done(0, 0o001001));
    // 123456o is 247o, 056o by bytes; 525o's low 8 bits are 125o.
    assert_eq!(rig.word(0o001000), (0o125 << 8) | 0o056);
    rig.write(0o177602, 0o123456);
    assert_eq!(rig.write_byte(0o177603, 0o052525), done(0, 0o777603));
    assert_eq!(rig.ktsp(), (0o125 << 8) | 0o056);
}

/// "a paged access whose target is 777572o or 777573o goes on as a user access to KTAD"
#[test]
fn ktad_alone_chooses_the_windows_byte() {
    let mut rig = Rig::exec();
    rig.put(0o010000, 0o123456);
    assert_eq!(rig.write_byte(0o177573, 0o000001), done(0, 0o010000));
    assert_eq!(rig.word(0o010000), (0o247 << 8) | 0o001);
    rig.write(0o177610, 0o000001);
    assert_eq!(rig.write_byte(0o177572, 0o000002), done(0, 0o010001));
    assert_eq!(rig.word(0o010000), 0o001001);
}

/// "Window: a paged access whose target is 777572o or 777573o goes on as a user access to KTAD"
/// "Unpaged, by fetch, or window on window: time-out at step 10."
#[test]
fn the_window_in_fcn_1_in_user_mode_and_onto_a_register() {
    let mut rig = Rig::mapped();
    rig.write(0o177576, 1);
    assert_eq!(rig.read(0o177572), done(0, 0o010000));
    assert_eq!(rig.access([0, 1, 0], 0o177572, 0), bare(9));
    // In user mode, and onto a register.
    let mut rig = Rig::user();
    rig.write(0o002610, 0o002614);
    assert_eq!(rig.read(0o002572), done(0o004005, 0o777614));
    assert_eq!(rig.ktcs(), 0o000032);
}

/// "goes on as a user access to KTAD, through steps 5-8 and 10 again": step 4 is not among them.
#[test]
fn step_4_runs_once_in_a_windows_access() {
    let mut rig = Rig::exec();
    rig.fetch_word(0o002000, 0o001000, 0o000002);
    assert_eq!(rig.read_quietly(0o177572), done(0, 0o010000));
    assert_eq!(rig.unit.fetch_memory().accesses, 1);
    assert_eq!(rig.ktcs(), 0o000006);
}

/// "the cell of the page at fault (a window's inner one once reached) empties"
/// "for the inner window access KTAD stays"
#[test]
fn an_odd_ktad_by_word_has_the_inner_page_at_fault() {
    let mut rig = Rig::exec();
    assert_eq!(rig.read(0o177572), done(0, 0o010000));
    assert!(rig.holds(0o200));
    rig.write(0o177610, 0o000001);
    assert_eq!(rig.read(0o177572), bare(4));
    assert!(rig.holds(0o177) && !rig.holds(0o200));
    assert_eq!((rig.ktad(), rig.ktcs()), (0o000001, 0o040012));
}

/// "Unpaged, by fetch, or window on window: time-out at step 10."
/// "the cell of the page at fault (a window's inner one once reached) empties"
#[test]
fn window_on_window_times_out_with_the_inner_page_at_fault() {
    let mut rig = Rig::exec();
    rig.write(0o177610, 0o002572);
    assert_eq!(rig.read(0o177572), bare(9));
    assert!(rig.holds(0o177) && !rig.holds(0o202));
    assert_eq!((rig.ktad(), rig.unit.counter()), (0o002572, 0o12));
    assert_eq!((rig.ktcs(), rig.unit.wait_number()), (0o000012, 1));
}

/// "goes on as a user access to KTAD, through steps 5-8 and 10 again and with no privacy step"
#[test]
fn the_outer_page_alone_is_judged_for_privacy_before_the_inner_steps() {
    let mut rig = Rig::exec_from_public();
    rig.put(0o001776, 0o120777);
    assert_eq!(rig.read_quietly(0o177572), bare(7));
    assert_eq!((rig.ktad(), rig.unit.counter()), (0o177572, 0o12));
    assert!(!rig.holds(0o177) && !rig.holds(0o200));
    // The inner page itself is not judged for privacy.
    let mut rig = Rig::exec_from_public();
    rig.write_quietly(0o177610, 0o001002);
    assert_eq!(rig.read_quietly(0o177572), done(0, 0o011002));
}

/// "Unpaged, by fetch, or window on window: time-out at step 10."
/// By fetch "KTAD takes the virtual address" and the outer page is at fault; unpaged a 9 leaves "step 4, KTAD, KTDT".
#[test]
fn the_window_by_fetch_and_unpaged_times_out() {
    let mut rig = Rig::exec();
    assert_eq!(rig.fetch(0o177572), bare(9));
    assert_eq!((rig.ktad(), rig.ktic()), (0o177572, 0o177572));
    assert_eq!((rig.unit.tags(), rig.unit.counter()), (&[0; 8][..], 0o11));
    assert_eq!((rig.ktcs(), rig.unit.wait_number()), (0o000002, 1));
    let mut rig = Rig::new();
    assert_eq!(rig.write(0o177572, 0o000123), bare(9));
    assert_eq!((rig.ktad(), rig.ktdt(), rig.unit.wait_number()), (0o177572, 0o000123, 0));
}
