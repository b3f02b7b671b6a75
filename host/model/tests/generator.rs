//! The generator's lines, for a unit of either count: repeatable, followed rightly by the bench program, and steered well.

mod common;

use common::{bench_of, unit_with};
use kt11b_model::bench::{parse, Line, Machine};
use kt11b_model::generate::{
    Generator, Stats, CELLS_FILLED, COUNTER_ROUND, PAST_ALL_WORDS, UPPER_WORDS,
};

/// As many as tests/run has of each seed.
const LINES: usize = 150_000;
const BOTH: [u64; 2] = [8, 24];

/// What a seed's lines reach with so many cells.
fn reached(seed: u64, cells: u64, judge: impl Fn(&Stats)) {
    let mut generator = Generator::new(seed, unit_with(cells));
    for _ in 0..LINES {
        generator.next_line();
    }
    judge(generator.stats());
}

#[test]
fn the_same_seed_gives_the_same_lines() {
    for cells in BOTH {
        let mut one = Generator::new(7, unit_with(cells));
        let mut other = Generator::new(7, unit_with(cells));
        for _ in 0..5_000 {
            assert_eq!(one.next_line(), other.next_line());
        }
        let mut third = Generator::new(8, unit_with(cells));
        assert!((0..100).any(|_| one.next_line() != third.next_line()));
    }
}

#[test]
fn no_line_holds_a_newline_and_each_call_is_answered() {
    for cells in BOTH {
        let mut generator = Generator::new(3, unit_with(cells));
        let mut input = Vec::new();
        let mut printed = 1;
        for _ in 0..20_000 {
            let line = generator.next_line();
            assert!(!line.contains(&b'\n'));
            printed += usize::from(!matches!(parse(&line), Some(Line::Word { .. })));
            input.extend_from_slice(&line);
            input.push(b'\n');
        }
        assert_eq!(bench_of(unit_with(cells), &input).lines().count(), printed);
    }
}

#[test]
fn every_answer_comes_hundreds_of_times() {
    let paths = [
        "look-up: hit",
        "look-up: exec page 0",
        "look-up: walk, exec simple",
        "look-up: walk, exec per process",
        "look-up: walk, user simple",
        "look-up: walk, user shared",
        "START: second read",
        "SERVICE: second store",
        "window inner, memory: answer 0",
        "window on window: answer 9",
        "fetch from a register",
        "fetch at an entry point, public to private",
        "store into a map word of a held page",
    ];
    for cells in BOTH {
        reached(1, cells, |stats| {
            for answer in 0..=10 {
                let count = stats.answered(answer);
                assert!(count >= 200, "{cells} cells: answer {answer} came {count} times");
            }
            for path in paths {
                let count = stats.counted(path);
                assert!(count >= 200, "{cells} cells: {path}, {count} times");
            }
        });
    }
}

/// "A map word beyond L, the pointer's own word beyond L, and the word that a pointer leads to beyond L are all 10."
/// "This holds for the access's own page and for a window's inner page."
#[test]
fn walks_run_off_memory_at_each_of_their_words() {
    let least = [
        ("look-up: walk ran off memory at a map word", 300),
        ("look-up: walk ran off memory at a pointer", 10),
        ("look-up: walk ran off memory after a pointer", 150),
        ("window inner, walk ran off memory: answer 10", 200),
    ];
    for cells in BOTH {
        reached(1, cells, |stats| {
            for (name, least) in least {
                let count = stats.counted(name);
                assert!(count >= least, "{cells} cells: {name}, {count} times");
            }
        });
    }
}

/// Walks of this name, 200 or more, and some with each of these N.
fn assert_walked(stats: &Stats, cells: u64, walk: &str, ends: &[u16]) {
    let count = stats.counted(walk);
    assert!(count >= 200, "{cells} cells: {walk}, {count} times");
    for n in ends {
        let count = stats.counted(&format!("{walk}, N = {n}"));
        assert!(count >= 30, "{cells} cells: {walk}, N = {n}, {count} times");
    }
}

/// "its statistics count walks at p = N (exec simple, user simple) and at p = N + 1 (exec per process, user shared), at least 200 of each"
/// "with N = 0, 1, 126, 127 among them": exec page 0 is never walked, and N = 127 has no page beyond.
#[test]
fn walks_are_made_on_both_sides_of_the_boundary() {
    let walks: [(&str, &[u16]); 4] = [
        ("walk at p = N, exec simple", &[1, 126, 127]),
        ("walk at p = N + 1, exec per process", &[0, 1, 126]),
        ("walk at p = N, user simple", &[0, 1, 126, 127]),
        ("walk at p = N + 1, user shared", &[0, 1, 126]),
    ];
    for cells in BOTH {
        reached(1, cells, |stats| {
            for (walk, ends) in walks {
                assert_walked(stats, cells, walk, ends);
            }
        });
    }
}

/// "10 comes wherever an access is paged .. Unpaged accesses are never answered 10, nor are interrupt, trap and INIT."
#[test]
fn answer_10_comes_in_every_paged_mode_and_in_no_other() {
    let paged = [
        "FCN 1 paged exec",
        "FCN 1 paged user",
        "FCN 2 exec",
        "FCN 2 user",
        "FCN 3 fetch exec",
        "FCN 3 fetch user",
    ];
    for cells in BOTH {
        reached(1, cells, |stats| {
            let modes = stats.modes_of(10);
            assert_eq!(modes, paged, "{cells} cells");
        });
    }
}

/// "The generator must fill all 24 cells and go round often: print how often it did."
#[test]
fn all_cells_are_filled_and_the_counter_goes_round_often() {
    for cells in BOTH {
        reached(1, cells, |stats| {
            let [filled, rounds] = [CELLS_FILLED, COUNTER_ROUND].map(|name| stats.counted(name));
            println!("{cells} cells, {LINES} lines: filled {filled} times, round {rounds} times");
            assert!(filled >= 300 && rounds >= 700);
        });
    }
}

/// How often accesses of a sort ended so at the words past the eighth cell, and how often otherwise.
fn at_the_upper_words(stats: &Stats, cells: u64, how: &str) -> [u64; 2] {
    let nowhere = stats.counted(&format!("{UPPER_WORDS}, {how}: answer 9"));
    let there = stats.counted(&format!("{UPPER_WORDS}, {how}: answer 0"));
    match cells {
        8 => [nowhere, there],
        _ => [there, nowhere],
    }
}

/// 777640o to 777677o are aimed at unpaged, paged and by the window, and so is 777700o: nowhere with 8 cells, words with 24 but for the last.
#[test]
fn the_words_past_the_eighth_cell_are_aimed_at_with_both_counts() {
    for cells in BOTH {
        reached(1, cells, |stats| {
            for (how, least) in [("unpaged", 300), ("paged", 200), ("by the window", 50)] {
                let [given, other] = at_the_upper_words(stats, cells, how);
                assert!(given >= least && other == 0, "{cells} cells, {how}: {given}, {other}");
            }
            for (how, least) in [("unpaged", 20), ("paged", 50), ("by the window", 10)] {
                let nowhere = stats.counted(&format!("{PAST_ALL_WORDS}, {how}: answer 9"));
                assert!(nowhere >= least, "{cells} cells, {how}");
            }
        });
    }
    reached(1, 24, |stats| assert!(stats.counted("look-up: hit, past the eighth cell") >= 1_000));
}

/// What holds of every state: tags differ, an empty cell's word is 0, the counter names a cell that is there.
#[test]
fn the_cells_stay_well_formed() {
    for cells in BOTH {
        let mut generator = Generator::new(11, unit_with(cells));
        let mut machine = Machine::of(unit_with(cells));
        for _ in 0..LINES {
            machine.follow(&generator.next_line());
            assert_well_formed(&machine, cells as usize);
        }
    }
}

fn assert_well_formed(machine: &Machine, cells: usize) {
    let tags = machine.unit.tags();
    let words = machine.unit.words();
    assert_eq!((machine.unit.cells(), tags.len(), words.len()), (cells, cells, cells));
    for cell in 0..cells {
        let again = tags[cell + 1..].contains(&tags[cell]);
        assert!(tags[cell] == 0 || !again);
        assert!(tags[cell] != 0 || words[cell] == 0);
    }
    assert!((0o10..0o10 + cells).contains(&usize::from(machine.unit.counter())));
    assert_eq!(machine.unit.ktcs() & 0o003700, 0);
}
