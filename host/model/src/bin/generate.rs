//! `generate SEED LINES` prints random bench input; `--stats` prints what it reaches, `--bytes` and `--near` print random bytes.
//! `--cells N` before these steers by a unit with so many cells.

use kt11b_model::generate::{Generator, Noise};
use kt11b_model::options::cells_option;
use kt11b_model::Unit;
use std::io::{BufWriter, Result, Write};
use std::process::ExitCode;

fn main() -> ExitCode {
    let arguments: Vec<String> = std::env::args().skip(1).collect();
    let Some((cells, rest)) = cells_option(&arguments) else {
        return usage();
    };
    let (mode, numbers) = match rest.split_first() {
        Some((first, rest)) if first.starts_with("--") => (first.as_str(), rest),
        _ => ("", rest),
    };
    let (seed, count) = match numbers {
        [seed, count] => (seed.parse::<u64>(), count.parse::<usize>()),
        _ => return usage(),
    };
    let (Ok(seed), Ok(count)) = (seed, count) else {
        return usage();
    };
    let unit = match Unit::with_cells(cells) {
        Ok(unit) => unit,
        Err(refusal) => {
            eprintln!("generate: {}: a unit is made with 8 or 24 cells", refusal.answer);
            return ExitCode::FAILURE;
        }
    };
    let printed = match mode {
        "" => print_lines(Generator::new(seed, unit), count),
        "--stats" => print_stats(Generator::new(seed, unit), count),
        "--bytes" => print_bytes(Noise::bytes(seed), count),
        "--near" => print_bytes(Noise::near_lines(seed), count),
        _ => return usage(),
    };
    match printed {
        Ok(()) => ExitCode::SUCCESS,
        Err(error) => {
            eprintln!("generate: {error}");
            ExitCode::FAILURE
        }
    }
}

fn usage() -> ExitCode {
    eprintln!(
        "usage: generate [--cells N] [--stats] SEED LINES, or generate [--cells N] --bytes SEED BYTES, or generate [--cells N] --near SEED BYTES"
    );
    ExitCode::from(2)
}

fn print_lines(mut generator: Generator, lines: usize) -> Result<()> {
    let mut output = BufWriter::new(std::io::stdout().lock());
    for _ in 0..lines {
        output.write_all(&generator.next_line())?;
        output.write_all(b"\n")?;
    }
    output.flush()
}

fn print_stats(mut generator: Generator, lines: usize) -> Result<()> {
    for _ in 0..lines {
        generator.next_line();
    }
    let mut output = std::io::stdout().lock();
    write!(output, "{}", generator.stats())
}

fn print_bytes(noise: Noise, count: usize) -> Result<()> {
    let mut output = BufWriter::new(std::io::stdout().lock());
    for byte in noise.take(count) {
        output.write_all(&[byte])?;
    }
    output.flush()
}
