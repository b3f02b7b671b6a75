//! Some hundred thousand steered random calls on the library and on the model, with 8 cells and with 24: no difference in any reply,
//! state or byte.

use kt11b_differential::{Counts, Lengths, Pair, Steering};

/// All cells and whole memories are compared after so many steps, and at the end of a run.
const COMPARED_EVERY: usize = 250;

/// A run of steps from fresh units with so many cells; gives what came in it.
fn run(seed: u64, cells: u64, steps: usize, lengths: Lengths) -> Counts {
    println!("{cells} cells, seed {seed}");
    let (mut steering, memory) = Steering::new(seed, cells, lengths);
    let mut pair = Pair::new(cells, memory);
    for step in 1..=steps {
        steering.step(&mut pair);
        if step % COMPARED_EVERY == 0 {
            pair.compare_whole();
        }
    }
    pair.compare_whole();
    pair.counts()
}

/// Such runs with seeds that follow one another; gives what came in all of them.
fn runs(seeds: std::ops::Range<u64>, cells: u64, steps: usize, lengths: Lengths) -> Counts {
    let mut all = Counts::default();
    for seed in seeds {
        all.add(run(seed, cells, steps, lengths));
    }
    let Counts { answers, filled, rounds, boundary } = all;
    let calls = answers.iter().sum::<u64>();
    println!("{cells} cells, {lengths:?}: {calls} calls, by answer {answers:?}");
    println!("{cells} cells, {lengths:?}: all filled {filled} times, round {rounds} times");
    println!("{cells} cells, {lengths:?}: walks at p = N and N + 1, exec then user {boundary:?}");
    assert!(answers.iter().all(|&count| count >= 1_000), "{cells} cells: {answers:?}");
    all
}

/// "The generator must fill all 24 cells and go round often: print how often it did."
/// "its statistics count walks at p = N (exec simple, user simple) and at p = N + 1 (exec per process, user shared)"
#[test]
fn with_the_memory_of_the_bench_program() {
    for cells in [8, 24] {
        let Counts { filled, rounds, boundary, .. } = runs(1..121, cells, 5_000, Lengths::Bench);
        assert!(filled >= 500 && rounds >= 1_000, "{filled}, {rounds}");
        assert!(boundary.iter().all(|&count| count >= 1_000), "{boundary:?}");
    }
}

/// "its length L is even, at most 253,952 (760000o)"; other lengths are answered 1.
#[test]
fn with_lengths_of_every_kind() {
    for cells in [8, 24] {
        let Counts { filled, rounds, boundary, .. } =
            runs(1_000..1_500, cells, 1_000, Lengths::Varied);
        assert!(filled >= 50 && rounds >= 500, "{filled}, {rounds}");
        assert!(boundary.iter().all(|&count| count >= 200), "{boundary:?}");
    }
}
