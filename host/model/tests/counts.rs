//! A unit with 8 or with 24 cells. The sentences above the tests are those of T-08, the request for the 24-cell option; expected values
//! are worked out from them by hand.

mod common;

use common::{bare, bench_of, done, unit_with, Rig};
use kt11b_model::{Target, Unit};

const BOTH: [u64; 2] = [8, 24];

/// Exec pages 1 to 31o mapped to physical pages 41o to 71o, all keys; FCN 1, in which EXECUTE is paged and SOURCE is not.
fn rig_of_25_pages(unit: Unit) -> Rig {
    let mut rig = Rig::of(unit);
    for page in 1..=0o31u16 {
        rig.put(0o001400 + 2 * usize::from(page), 0o160040 + page);
    }
    assert_eq!(store(&mut rig, 0o177616, 0o177001), done(0, 0o777616));
    assert_eq!(store(&mut rig, 0o177576, 0o000001), done(0, 0o777576));
    rig
}

/// A register's word, unpaged: 9 if nothing is there.
fn register(rig: &mut Rig, address: u16) -> Result<u16, u8> {
    let reply = rig.access([0, 1, 0], address, 0);
    match reply.answer {
        0 => Ok(reply.data),
        other => Err(other),
    }
}

/// A word stored unpaged.
fn store(rig: &mut Rig, address: u16, data: u16) -> kt11b_model::Reply {
    rig.access([2, 1, 0], address, data)
}

/// A page walked for, or found in its cell.
fn look_at(rig: &mut Rig, page: u16) {
    let physical = (0o40 + u32::from(page)) * 512;
    assert_eq!(rig.access([0, 3, 0], page << 9, 0), done(0, physical));
}

/// "8 and 24 give a fresh unit (all zero, then INIT) with so many cells, counter 10o."
#[test]
fn eight_and_twenty_four_give_a_fresh_unit() {
    for cells in [8usize, 24] {
        let unit = unit_with(cells as u64);
        assert_eq!(unit.cells(), cells);
        assert_eq!((unit.ktcs(), unit.registers(), unit.wait_number()), (0, [0; 8], 0));
        assert_eq!((unit.tags(), unit.words()), (&vec![0; cells][..], &vec![0; cells][..]));
        assert_eq!(unit.counter(), 0o10);
        assert_eq!(unit.fetch_memory(), Default::default());
    }
    assert_eq!(Unit::fresh(), unit_with(8));
}

/// "Every other number gives 30 and no unit. The number is of any size (64 bits at the doors): 0, 1, 7, 9, 16, 23, 25, 30, 65,544 (8 more
/// than 200000o) and 2^64-1 are all 30."
#[test]
fn every_other_number_gives_30() {
    for number in [0, 1, 7, 9, 16, 23, 25, 30, 65_544, u64::MAX] {
        assert_eq!(Unit::with_cells(number), Err(bare(30)), "{number}");
    }
    for number in (0..=70_000).filter(|number| !BOTH.contains(number)) {
        assert_eq!(Unit::with_cells(number), Err(bare(30)), "{number}");
    }
    // The same low bits below each higher one.
    for bit in 5..64 {
        for low in BOTH {
            assert_eq!(Unit::with_cells(1 << bit | low), Err(bare(30)), "2^{bit} and {low}");
        }
    }
}

/// "It runs 10o to 17o and round with 8 cells, 10o to 37o and round with 24."
/// "Cell i (from 0) is the one that the counter names at 10o + i, and its scratchpad word stands at 777620o + 2i."
/// "KTMR reads the counter times 256: 004000 to 007400 with 8, 004000 to 017400 with 24."
#[test]
fn the_counter_runs_over_the_units_own_cells_and_round() {
    for cells in BOTH {
        let mut rig = rig_of_25_pages(unit_with(cells));
        assert_eq!(register(&mut rig, 0o177574), Ok(0o004000));
        for cell in 0..cells as u16 {
            look_at(&mut rig, cell + 1);
            assert_eq!(rig.unit.tags()[usize::from(cell)], cell as u8 + 1);
            assert_eq!(register(&mut rig, 0o177620 + 2 * cell), Ok(0o160041 + cell));
            let counter = if u64::from(cell + 1) == cells { 0o10 } else { 0o11 + cell };
            assert_eq!(u16::from(rig.unit.counter()), counter);
            assert_eq!(register(&mut rig, 0o177574), Ok(counter << 8));
        }
    }
}

/// ""the ninth walk" (with 24: the twenty-fifth)"; "25 look-ups of pages 1 to 25 leave tags 25, 2, 3, .., 24"
#[test]
fn the_twenty_fifth_walk_refills_the_first_cell() {
    let mut rig = rig_of_25_pages(unit_with(24));
    for page in 1..=24 {
        look_at(&mut rig, page);
    }
    let tags: Vec<u8> = (1..=24).collect();
    assert_eq!((rig.unit.tags(), rig.unit.counter()), (&tags[..], 0o10));
    look_at(&mut rig, 25);
    let refilled: Vec<u8> = std::iter::once(25).chain(2..=24).collect();
    assert_eq!((rig.unit.tags(), rig.unit.counter()), (&refilled[..], 0o11));
    // Page 2 is a hit still, and page 1 walks again, into the second cell.
    look_at(&mut rig, 2);
    assert_eq!(rig.unit.counter(), 0o11);
    look_at(&mut rig, 1);
    assert_eq!((rig.unit.tags()[1], rig.unit.counter()), (1, 0o12));
}

/// "Scratchpad words stand at 777620o to 777636o with 8 cells and at 777620o to 777676o with 24; both bytes of each word belong to it.
/// 777640o to 777677o are registers of a 24-cell unit and nowhere for an 8-cell one. 777700o on is nowhere for both."
#[test]
fn every_byte_from_777620_on() {
    for physical in 0o777620..=0o777777u32 {
        let cell = (physical - 0o777620) as usize / 2;
        let wanted = |cells| {
            if cell < cells {
                Target::Scratchpad(cell)
            } else {
                Target::Nothing
            }
        };
        for cells in [8, 24] {
            assert_eq!(Target::at(physical, 0o200000, cells), wanted(cells), "{physical:o}");
            let mut rig = Rig::of(unit_with(cells as u64));
            let reply = rig.access([0, 1, 1], physical as u16, 0);
            let there = wanted(cells) != Target::Nothing;
            assert_eq!(reply, if there { done(0, physical) } else { bare(9) }, "{physical:o}");
        }
    }
}

/// "It is not of cells in "eight 16-bit registers": those stay eight, at 777600o to 777616o."
#[test]
fn the_eight_registers_stay_eight() {
    for cells in [8, 24] {
        for number in 0..8 {
            let physical = 0o777600 + 2 * number as u32;
            assert_eq!(Target::at(physical, 0o200000, cells), Target::Register(number));
            assert_eq!(Target::at(physical + 1, 0o200000, cells), Target::Register(number));
        }
        assert_eq!(Target::at(0o777572, 0o200000, cells), Target::Window);
        assert_eq!(Target::at(0o777570, 0o200000, cells), Target::Nothing);
    }
}

/// "The number of cells is set by making alone. INIT, a KTUM or KTEM store, a violation, a trap: none changes it. INIT and the map register
/// stores empty all cells that the unit has and set the counter to 10o."
#[test]
fn nothing_but_making_changes_the_number_and_init_and_the_maps_empty_all() {
    for cells in [8usize, 24] {
        for way in 0..5 {
            let mut rig = rig_of_25_pages(unit_with(cells as u64));
            // One more than round, so that every cell is held and the counter has left 10o.
            for page in 1..=cells as u16 + 1 {
                look_at(&mut rig, page);
            }
            assert!(!rig.unit.tags().contains(&0));
            match way {
                0 => assert_eq!(rig.unit.init(), bare(0)),
                1 => assert_eq!(store(&mut rig, 0o177614, 0o000005), done(0, 0o777614)),
                2 => assert_eq!(store(&mut rig, 0o177616, 0o177001), done(0, 0o777616)),
                3 => assert_eq!(rig.access([3, 1, 1], 0o177615, 0), done(0, 0o777615)),
                _ => assert_eq!(rig.access([3, 1, 1], 0o177616, 1), done(0, 0o777616)),
            }
            assert_eq!((rig.unit.cells(), rig.unit.counter()), (cells, 0o10));
            let empty = (&vec![0; cells][..], &vec![0; cells][..]);
            assert_eq!((rig.unit.tags(), rig.unit.words()), empty, "way {way}");
        }
    }
}

/// The same sentence, of violations and traps.
#[test]
fn a_violation_and_a_trap_leave_the_number_and_the_other_cells() {
    for cells in [8usize, 24] {
        let mut rig = rig_of_25_pages(unit_with(cells as u64));
        for page in 1..=cells as u16 {
            look_at(&mut rig, page);
        }
        // Page 3 by an odd word: its cell alone empties.
        assert_eq!(rig.access([0, 3, 0], 0o003001, 0), bare(4));
        rig.service();
        let mut tags: Vec<u8> = (1..=cells as u8).collect();
        tags[2] = 0;
        assert_eq!((rig.unit.cells(), rig.unit.tags()), (cells, &tags[..]));
        assert_eq!(rig.unit.counter(), 0o10);
        // A user's trap and interrupt, which begin the sequence.
        for interrupted in [false, true] {
            let mut rig = Rig::user_of(unit_with(cells as u64));
            assert_eq!(rig.read(0o000002), done(0, 0o010002));
            let reply = if interrupted { rig.unit.interrupt() } else { rig.unit.trap(0o4) };
            assert_eq!((reply, rig.unit.wait_number()), (bare(0), 1));
            assert_eq!((rig.unit.cells(), rig.unit.tags().len()), (cells, cells));
            assert!(rig.holds(0o200));
        }
    }
}

/// "An access of an 8-cell unit that ends at 777640o to 777677o is a 9, like any address that is nowhere: unpaged step 4, KTAD and KTDT"
/// "It is not "answered 0 and does nothing": that is said of a store into a cell that is there and empty."
#[test]
fn an_unpaged_access_past_the_last_cell_is_a_9() {
    for address in [0o177640, 0o177676] {
        let mut rig = Rig::of(unit_with(8));
        assert_eq!(rig.write(address, 0o000123), bare(9));
        assert_eq!((rig.ktad(), rig.ktdt(), rig.ktcs()), (address, 0o000123, 0));
        assert_eq!((rig.unit.wait_number(), rig.unit.fetch_memory().accesses), (0, 1));
        let mut rig = Rig::of(unit_with(24));
        let physical = 0o600000 | u32::from(address);
        assert_eq!(rig.write(address, 0o000123), done(0, physical));
        assert_eq!((rig.ktad(), rig.ktdt()), (0, 0));
        assert_eq!(rig.read(address), done(0, physical));
    }
    for cells in BOTH {
        let mut rig = Rig::of(unit_with(cells));
        assert_eq!(rig.write(0o177700, 0o000123), bare(9));
        assert_eq!((rig.ktad(), rig.ktdt()), (0o177700, 0o000123));
    }
}

/// "paged the whole sequence, the page's cell emptied"; with 24 cells the same address is the word of cell 8.
#[test]
fn a_paged_access_past_the_last_cell_is_a_9_with_the_sequence() {
    let mut rig = Rig::exec_of(unit_with(8));
    assert_eq!(rig.read(0o177620), done(0o160777, 0o777620));
    assert!(rig.holds(0o177));
    assert_eq!(rig.write_quietly(0o177640, 0o000123), bare(9));
    assert!(!rig.holds(0o177));
    assert_eq!((rig.ktad(), rig.ktdt()), (0o177640, 0o000123));
    assert_eq!((rig.ktcs(), rig.unit.wait_number()), (0o000012, 1));
    let mut rig = Rig::exec_of(unit_with(24));
    assert_eq!(rig.write_quietly(0o177640, 0o000123), done(0, 0o777640));
    assert_eq!(rig.read_quietly(0o177640), done(0, 0o777640));
    assert!(rig.holds(0o177));
    // A fetch from there is one from a register: the word 0 of an empty cell.
    assert_eq!(rig.fetch(0o177676), done(0, 0o777676));
}

/// "through the window the inner page is at fault and KTAD stays"
#[test]
fn the_window_past_the_last_cell_has_the_inner_page_at_fault() {
    // User page 2 is the register page, so KTAD 002640 leads to 777640o.
    let mut rig = Rig::exec_of(unit_with(8));
    rig.write(0o177610, 0o002640);
    assert_eq!(rig.read_quietly(0o177572), bare(9));
    assert!(rig.holds(0o177) && !rig.holds(0o202));
    assert_eq!((rig.ktad(), rig.ktcs(), rig.unit.wait_number()), (0o002640, 0o000012, 1));
    let mut rig = Rig::exec_of(unit_with(24));
    rig.write(0o177610, 0o002640);
    assert_eq!(rig.read_quietly(0o177572), done(0, 0o777640));
    assert!(rig.holds(0o177) && rig.holds(0o202));
}

/// A row of the table below: registers read after it, with what 24 cells and 8 cells have there.
type Readings<'a> = &'a [(u16, Result<u16, u8>, Result<u16, u8>)];

/// Does the same to both units and reads the registers of both.
fn row(rigs: &mut [Rig; 2], step: impl Fn(&mut Rig), readings: Readings) {
    let [many, few] = rigs;
    step(many);
    step(few);
    for &(address, of_many, of_few) in readings {
        assert_eq!(register(many, address), of_many, "{address:o} with 24 cells");
        assert_eq!(register(few, address), of_few, "{address:o} with 8 cells");
    }
}

fn look_at_all(pages: std::ops::RangeInclusive<u16>) -> impl Fn(&mut Rig) {
    move |rig| pages.clone().for_each(|page| look_at(rig, page))
}

/// The request's table "Worked by hand .. run with 24 and with 8 cells", its rows in order.
#[test]
fn the_worked_table_with_both_counts() {
    let mut rigs = [24, 8].map(|cells| rig_of_25_pages(unit_with(cells)));
    row(&mut rigs, |_| {}, &[(0o177574, Ok(0o004000), Ok(0o004000))]);
    row(&mut rigs, look_at_all(1..=0o10), &[(0o177574, Ok(0o010000), Ok(0o004000))]);
    row(
        &mut rigs,
        look_at_all(0o11..=0o11),
        &[
            (0o177574, Ok(0o010400), Ok(0o004400)),
            (0o177620, Ok(0o160041), Ok(0o160051)),
            (0o177640, Ok(0o160051), Err(9)),
            (0o177676, Ok(0), Err(9)),
        ],
    );
    row(&mut rigs, look_at_all(0o12..=0o27), &[(0o177574, Ok(0o017400), Ok(0o007400))]);
    row(
        &mut rigs,
        look_at_all(0o30..=0o30),
        &[(0o177574, Ok(0o004000), Ok(0o004000)), (0o177676, Ok(0o160070), Err(9))],
    );
    row(
        &mut rigs,
        look_at_all(0o31..=0o31),
        &[
            (0o177574, Ok(0o004400), Ok(0o004400)),
            (0o177620, Ok(0o160071), Ok(0o160071)),
            (0o177622, Ok(0o160042), Ok(0o160062)),
            (0o177700, Err(9), Err(9)),
        ],
    );
    stores_of_the_worked_table(rigs);
}

/// The rows of the same table that store.
fn stores_of_the_worked_table(mut rigs: [Rig; 2]) {
    let [many, few] = &mut rigs;
    assert_eq!(many.access([3, 1, 1], 0o177677, 0o000300), done(0, 0o777677));
    assert_eq!(few.access([3, 1, 1], 0o177677, 0o000300), bare(9));
    assert_eq!(register(many, 0o177676), Ok(0o140070));
    assert_eq!(register(few, 0o177676), Err(9));

    assert_eq!(many.access([2, 3, 0], 0o030000, 0o123456), bare(6));
    assert_eq!(many.ktcs(), 0o020001);
    many.service();
    assert_eq!(register(many, 0o177676), Ok(0));
    assert_eq!(register(many, 0o177574), Ok(0o004400));
    assert_eq!(few.access([2, 3, 0], 0o030000, 0o123456), done(0, 0o070000));

    assert_eq!(store(many, 0o177576, 0o000001), done(0, 0o777576));
    assert_eq!(store(few, 0o177576, 0o000001), done(0, 0o777576));
    assert_eq!(store(many, 0o177640, 0o123456), done(0, 0o777640));
    assert_eq!(store(few, 0o177640, 0o123456), bare(9));
    assert_eq!(register(many, 0o177640), Ok(0o123456));
    assert_eq!(register(few, 0o177640), Err(9));

    let equal_byte_of_ktem = |rig: &mut Rig| {
        assert_eq!(rig.access([3, 1, 1], 0o177617, 0o000376), done(0, 0o777617));
    };
    row(
        &mut rigs,
        equal_byte_of_ktem,
        &[(0o177640, Ok(0), Err(9)), (0o177574, Ok(0o004000), Ok(0o004000))],
    );
}

/// "The unit with no cells that is compared has registers at the same addresses as the unit it stands beside; it reads 0 there"
#[test]
fn the_unit_without_cells_has_the_addresses_of_the_one_beside_it() {
    for cells in BOTH {
        let mut beside = rig_of_25_pages(unit_with(cells));
        let mut rig = rig_of_25_pages(unit_with(cells).without_cells());
        for page in 1..=0o31 {
            look_at(&mut beside, page);
            look_at(&mut rig, page);
        }
        assert_eq!(rig.unit.cells() as u64, cells);
        assert_eq!(register(&mut rig, 0o177574), Ok(0o004000));
        for address in (0o177620..=0o177720).step_by(2) {
            let there = register(&mut beside, address).map(|_| 0);
            assert_eq!(register(&mut rig, address), there, "{address:o}");
        }
    }
}

/// "Two units of different counts are different units: no call and no reading turns one into the other."
#[test]
fn fresh_units_of_different_counts_are_different() {
    assert_ne!(unit_with(8), unit_with(24));
    assert_ne!(unit_with(8).without_cells(), unit_with(24).without_cells());
}

/// "The listing of 01 prints the same with both counts."
#[test]
fn the_listing_prints_the_same_with_both_counts() {
    let input = b"W\t001402\t160002\nW\t002004\t000123\nA\t2\t2\t0\t177616\t177001\n\
        A\t2\t2\t0\t177576\t000002\nA\t0\t2\t0\t001004\t000000\nA\t0\t2\t0\t001005\t000000\n";
    let output = "CALL\tANS\tDATA\tPHYS\tKTCS\n1\t0\t000000\t777616\t000000\n\
        2\t0\t000000\t777576\t000002\n3\t0\t000123\t002004\t000012\n4\t4\t000000\t-\t040012\n";
    for cells in BOTH {
        assert_eq!(bench_of(unit_with(cells), input), output);
    }
}
