//! "While fewer than eight walks were made since all cells were last emptied, and away from 777640o to 777677o, the two counts agree in
//! every answer and register".

mod common;

use common::unit_with;
use kt11b_model::bench::Machine;
use kt11b_model::generate::FewWalks;
use kt11b_model::Reply;

/// What a run of lines did.
#[derive(Default, Debug)]
struct Tally {
    /// Each answer, 0 to 10.
    answers: [u64; 11],
    walks: u64,
    /// How often the seventh walk since all cells were emptied was made.
    seventh_walks: u64,
}

impl Tally {
    fn count(&mut self, reply: Reply, counters: [u8; 2]) {
        self.answers[usize::from(reply.answer)] += 1;
        let [before, after] = counters;
        self.walks += u64::from(after.saturating_sub(before));
        self.seventh_walks += u64::from(before < 0o17 && after == 0o17);
    }
}

/// Registers, wait, fetch memory, counter and the first eight cells are the same, and the others are empty.
fn assert_agree(few: &Machine, many: &Machine) {
    let [one, other] = [few.unit, many.unit];
    assert_eq!(one.ktcs(), other.ktcs());
    assert_eq!(one.registers(), other.registers());
    assert_eq!((one.wait(), one.fetch_memory()), (other.wait(), other.fetch_memory()));
    assert_eq!(one.counter(), other.counter());
    assert_eq!((one.tags(), one.words()), (&other.tags()[..8], &other.words()[..8]));
    assert_eq!((&other.tags()[8..], &other.words()[8..]), (&[0; 16][..], &[0; 16][..]));
    assert!(other.counter() < 0o10 + 8, "eight walks were made");
}

/// Gives a seed's lines to both units, compared after each.
fn run(seed: u64, steered_by: u64, lines: usize, tally: &mut Tally) -> FewWalks {
    let mut source = FewWalks::new(seed, unit_with(steered_by));
    let [mut few, mut many] = [8, 24].map(|cells| Machine::of(unit_with(cells)));
    for _ in 0..lines {
        let line = source.next_line();
        let before = many.unit.counter();
        let reply = many.follow(&line);
        assert_eq!(few.follow(&line), reply, "seed {seed}: {}", line.escape_ascii());
        assert_agree(&few, &many);
        if let Some(reply) = reply {
            tally.count(reply, [before, many.unit.counter()]);
        }
    }
    assert!(few.memory == many.memory, "seed {seed}: the memories differ");
    source
}

#[test]
fn both_counts_agree_while_fewer_than_eight_walks_were_made() {
    for steered_by in [8, 24] {
        let mut tally = Tally::default();
        let [mut left_out, mut emptied] = [0, 0];
        for seed in 0..20 {
            let source = run(seed, steered_by, 5_000, &mut tally);
            left_out += source.left_out();
            emptied += source.emptied();
        }
        println!("steered by {steered_by} cells: {tally:?}, {left_out} left out, {emptied} INITs");
        assert!(tally.answers.iter().all(|&count| count >= 100), "{tally:?}");
        assert!(tally.walks >= 5_000 && tally.seventh_walks >= 500, "{tally:?}");
    }
}
