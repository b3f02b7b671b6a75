//! "While fewer than eight walks were made since all cells were last emptied, and away from 777640o to 777677o, the two counts agree in
//! every answer and register": through the library, each unit held against the model too.

use kt11b::{Register, Unit};
use kt11b_differential::words::{COUNT_PLACE, LAST_PLACE, TAGS_PLACE, WORDS_PLACE};
use kt11b_differential::{Counts, Pair, BUFFER};
use kt11b_model::bench::{parse, Line, MEMORY_BYTES};
use kt11b_model::generate::FewWalks;

/// Every register, the counter, the wait and the first eight cells are the same; the others of the 24-cell unit are empty.
fn assert_agree(few: &Unit, many: &Unit) {
    for register in Register::ALL {
        assert_eq!(few.register(register), many.register(register), "{register:?}");
    }
    assert_eq!((few.counter(), few.wait()), (many.counter(), many.wait()));
    assert!(many.counter().is_some_and(|counter| counter < 0o10 + 8), "eight walks were made");
    for cell in 0..8 {
        assert_eq!(few.cell_tag(cell), many.cell_tag(cell), "tag of cell {cell}");
        assert_eq!(few.cell_word(cell), many.cell_word(cell), "word of cell {cell}");
    }
    // The fetch memory too, which no reading shows: every word but the number of cells.
    let [few, many] = [few.words(), many.words()];
    assert_eq!((few[COUNT_PLACE], many[COUNT_PLACE]), (8, 24));
    assert_eq!(few[..COUNT_PLACE], many[..COUNT_PLACE]);
    assert_eq!(few[COUNT_PLACE + 1..], many[COUNT_PLACE + 1..]);
    assert_eq!(many[TAGS_PLACE + 8..WORDS_PLACE], [0; 16]);
    assert_eq!(many[WORDS_PLACE + 8..LAST_PLACE], [0; 16]);
}

/// Gives a seed's lines to both units, compared after each call; gives what came, and how many walks were made.
fn run(seed: u64, steered_by: u64, lines: usize) -> (Counts, u64) {
    let unit = kt11b_model::Unit::with_cells(steered_by).expect("a unit");
    let mut source = FewWalks::new(seed, unit);
    let [mut few, mut many] = [8, 24].map(|cells| Pair::new(cells, vec![0; BUFFER]));
    let mut walks = 0;
    for _ in 0..lines {
        match parse(&source.next_line()) {
            Some(Line::Word { address, value }) => {
                few.put_word(usize::from(address), value);
                many.put_word(usize::from(address), value);
            }
            Some(Line::Call(call)) => {
                let before = many.model().counter();
                let reply = many.call(call, MEMORY_BYTES);
                assert_eq!(few.call(call, MEMORY_BYTES), reply, "seed {seed}: {call:?}");
                assert_agree(few.library(), many.library());
                walks += u64::from(many.model().counter().saturating_sub(before));
            }
            None => {}
        }
    }
    many.compare_whole();
    few.compare_whole();
    assert!(few.library_memory() == many.library_memory(), "seed {seed}: the memories differ");
    (many.counts(), walks)
}

#[test]
fn both_counts_agree_while_fewer_than_eight_walks_were_made() {
    for steered_by in [8, 24] {
        let mut all = Counts::default();
        let mut walks = 0;
        for seed in 2_000..2_020 {
            let (counts, made) = run(seed, steered_by, 5_000);
            all.add(counts);
            walks += made;
        }
        let answers = all.answers;
        println!("steered by {steered_by} cells: {walks} walks, by answer {answers:?}");
        assert!(answers.iter().all(|&count| count >= 100), "{answers:?}");
        assert!(walks >= 5_000 && all.rounds == 0, "{walks} walks");
    }
}
