//! Times the static library beside the plain model, with 8 cells and with 24, on one stream of accesses.
//!
//! `kt11b-bench ACCESSES` prints times and ratios. `kt11b-bench count UNIT ACCESSES` makes that many accesses of one unit
//! (library, model, walk, library24, model24 or nothing) and prints nothing, for callgrind to count.

mod digest;
mod stream;
mod units;

use std::process::ExitCode;
use std::time::Instant;
use stream::Access;
use units::{run, Library, Model, Nothing, Paging, Total};

/// The accesses are made in so many rounds, the units taking turns. The quickest round counts: whatever else the machine does
/// can only make a round slower.
const ROUNDS: usize = 20;

/// A unit started in its own memory.
struct Timed<P> {
    unit: P,
    memory: Vec<u8>,
    /// Nanoseconds per access in the quickest round, and in all rounds together.
    best: f64,
    sum: f64,
    /// The replies of all rounds.
    total: Total,
}

impl<P: Paging> Timed<P> {
    fn new(mut unit: P) -> Timed<P> {
        let mut memory = stream::memory();
        unit.start(&mut memory);
        Timed { unit, memory, best: f64::INFINITY, sum: 0.0, total: Total::default() }
    }

    /// One round.
    fn round(&mut self, stream: &[Access], accesses: usize) {
        let begun = Instant::now();
        self.total = run(&mut self.unit, &mut self.memory, stream, accesses, self.total);
        let spent = begun.elapsed().as_secs_f64() * 1e9 / accesses as f64;
        self.best = self.best.min(spent);
        self.sum += spent;
    }

    fn show(&self, name: &str, base: f64) {
        let mean = self.sum / ROUNDS as f64;
        let (best, rate, ratio) = (self.best, 1e3 / self.best, self.best / base);
        println!("{name:<36} {best:>8.2} {mean:>8.2} {rate:>10.1} {ratio:>9.2}");
    }
}

fn main() -> ExitCode {
    let arguments: Vec<String> = std::env::args().skip(1).collect();
    let words: Vec<&str> = arguments.iter().map(String::as_str).collect();
    match words[..] {
        [accesses] => accesses.parse().map_or_else(|_| usage(), time_all),
        ["count", unit, accesses] => accesses.parse().map_or_else(|_| usage(), |n| count(unit, n)),
        _ => usage(),
    }
}

fn usage() -> ExitCode {
    eprintln!("usage: kt11b-bench ACCESSES, or kt11b-bench count UNIT ACCESSES");
    eprintln!("units: library, model, walk, library24, model24, nothing");
    ExitCode::from(2)
}

fn count(unit: &str, accesses: usize) -> ExitCode {
    match unit {
        "library" => count_one(Library::with_cells(8), accesses),
        "model" => count_one(Model::with_cells(8), accesses),
        "walk" => count_one(Model::without_cells(), accesses),
        "library24" => count_one(Library::with_cells(24), accesses),
        "model24" => count_one(Model::with_cells(24), accesses),
        "nothing" => count_one(Nothing, accesses),
        _ => usage(),
    }
}

fn count_one(unit: impl Paging, accesses: usize) -> ExitCode {
    let mut timed = Timed::new(unit);
    timed.round(&stream::stream(), accesses);
    std::hint::black_box(timed.total);
    ExitCode::SUCCESS
}

/// All units, started.
struct Units {
    library: Timed<Library>,
    model: Timed<Model>,
    walk: Timed<Model>,
    library_24: Timed<Library>,
    model_24: Timed<Model>,
    nothing: Timed<Nothing>,
}

impl Units {
    fn new() -> Units {
        Units {
            library: Timed::new(Library::with_cells(8)),
            model: Timed::new(Model::with_cells(8)),
            walk: Timed::new(Model::without_cells()),
            library_24: Timed::new(Library::with_cells(24)),
            model_24: Timed::new(Model::with_cells(24)),
            nothing: Timed::new(Nothing),
        }
    }

    /// One round of each, in turn.
    fn round(&mut self, stream: &[Access], accesses: usize) {
        self.library.round(stream, accesses);
        self.model.round(stream, accesses);
        self.walk.round(stream, accesses);
        self.library_24.round(stream, accesses);
        self.model_24.round(stream, accesses);
        self.nothing.round(stream, accesses);
    }

    fn show(&self) {
        let base = self.model.best;
        println!(
            "{:<36} {:>8} {:>8} {:>10} {:>9}",
            "", "ns best", "ns mean", "million/s", "time/(b)"
        );
        self.library.show("(a) library, 8 cells", base);
        self.model.show("(b) plain model, 8 cells", base);
        self.walk.show("(c) plain model, the walk alone", base);
        self.library_24.show("(d) library, 24 cells", base);
        self.model_24.show("(e) plain model, 24 cells", base);
        self.nothing.show("    the loop around them", base);
    }

    /// What each left, but for the loop alone: its replies and its memory.
    fn outcomes(&self) -> [(Total, &[u8]); 5] {
        [
            (self.model.total, &self.model.memory),
            (self.library.total, &self.library.memory),
            (self.walk.total, &self.walk.memory),
            (self.library_24.total, &self.library_24.memory),
            (self.model_24.total, &self.model_24.memory),
        ]
    }
}

fn time_all(accesses: usize) -> ExitCode {
    let stream = stream::stream();
    describe(&stream, accesses);
    let mut units = Units::new();
    for _ in 0..ROUNDS {
        units.round(&stream, accesses / ROUNDS);
    }
    units.show();
    let outcomes = units.outcomes();
    let same = outcomes.iter().all(|outcome| *outcome == outcomes[0]);
    if same && units.model.total.refused == 0 {
        println!(
            "All five gave the same replies in the same order and left the same memory; no access was refused."
        );
        return ExitCode::SUCCESS;
    }
    println!("The units DIFFER: {:?}", outcomes.map(|(total, _)| total));
    ExitCode::FAILURE
}

/// What the stream is made of, and how often it walks.
fn describe(stream: &[Access], accesses: usize) {
    let share = |wanted: fn(&Access) -> bool| {
        let count = stream.iter().filter(|access| wanted(access)).count();
        100.0 * count as f64 / stream.len() as f64
    };
    println!(
        "{accesses} accesses in {ROUNDS} rounds: {:.0}% fetch, {:.0}% read, {:.0}% store; {:.1}% walk with 8 cells, {:.2}% with 24.",
        share(|access| access.state == 0),
        share(|access| access.state != 0 && access.operation <= 1),
        share(|access| access.operation >= 2),
        walking_share(stream, 8),
        walking_share(stream, 24),
    );
}

/// How many accesses of a hundred walk in a unit with so many cells, from its start.
fn walking_share(stream: &[Access], cells: u64) -> f64 {
    let mut model = Model::with_cells(cells);
    let mut memory = stream::memory();
    model.start(&mut memory);
    let mut walks = 0;
    for &access in stream {
        let before = model.0.counter();
        model.access(&mut memory, access);
        walks += usize::from(model.0.counter() != before);
    }
    100.0 * walks as f64 / stream.len() as f64
}
