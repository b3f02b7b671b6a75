//! Reads bench lines from standard input and prints what the model answers.

use kt11b_model::options::cells_option;
use kt11b_model::{bench, Unit};
use std::io::{BufWriter, Read, Write};
use std::process::ExitCode;

const USAGE: &str = "usage: model_bench [--cells N]\n
Reads bench lines from standard input and prints what the plain model answers. The unit is made with N cells, a decimal
number; without the option it has 8.";

fn main() -> ExitCode {
    let arguments: Vec<String> = std::env::args().skip(1).collect();
    match cells_option(&arguments) {
        Some((cells, [])) => run_with(cells),
        Some((_, [only])) if only == "--help" || only == "-h" => {
            println!("{USAGE}");
            ExitCode::SUCCESS
        }
        _ => {
            eprintln!("{USAGE}");
            ExitCode::from(2)
        }
    }
}

/// Runs a unit with so many cells. A number that is refused is told before anything is read or printed.
fn run_with(cells: u64) -> ExitCode {
    let unit = match Unit::with_cells(cells) {
        Ok(unit) => unit,
        Err(refusal) => {
            eprintln!("bench: {}: a unit is made with 8 or 24 cells", refusal.answer);
            return ExitCode::FAILURE;
        }
    };
    match print_answers(unit) {
        Ok(()) => ExitCode::SUCCESS,
        Err(error) => {
            eprintln!("bench: {error}");
            ExitCode::FAILURE
        }
    }
}

fn print_answers(unit: Unit) -> std::io::Result<()> {
    let mut input = Vec::new();
    std::io::stdin().lock().read_to_end(&mut input)?;
    let mut output = BufWriter::new(std::io::stdout().lock());
    bench::run(unit, &input, &mut output)?;
    output.flush()
}
