//! The two programs' option `--cells N`: what is printed where, and the exit status. The sentences are T-08's of the bench program.

use std::io::Write;
use std::process::{Command, Output, Stdio};

const MODEL_BENCH: &str = env!("CARGO_BIN_EXE_model_bench");
const GENERATE: &str = env!("CARGO_BIN_EXE_generate");
const HEADER: &str = "CALL\tANS\tDATA\tPHYS\tKTCS\n";

/// What a program does with these arguments and this input.
fn run(program: &str, arguments: &[&str], input: &str) -> Output {
    let mut child = Command::new(program)
        .args(arguments)
        .stdin(Stdio::piped())
        .stdout(Stdio::piped())
        .stderr(Stdio::piped())
        .spawn()
        .expect("the program starts");
    // A program that refuses its arguments may be gone before it is given anything.
    let _ = child.stdin.take().map(|mut to| to.write_all(input.as_bytes()));
    child.wait_with_output().expect("the program ends")
}

fn text(bytes: &[u8]) -> &str {
    std::str::from_utf8(bytes).expect("plain text")
}

/// "8 and 24 run"; "Without the option it is 8". The last word of the scratchpad is there with 24 alone.
#[test]
fn eight_and_twenty_four_run() {
    let input = "A\t0\t1\t0\t177676\t0\n";
    let nowhere = format!("{HEADER}1\t9\t000000\t-\t000000\n");
    let there = format!("{HEADER}1\t0\t000000\t777676\t000000\n");
    let few: [&[&str]; 4] = [&[], &["--cells", "8"], &["--cells", "08"], &["--cells", "000000008"]];
    for arguments in few {
        let done = run(MODEL_BENCH, arguments, input);
        assert_eq!((text(&done.stdout), done.status.code()), (&nowhere[..], Some(0)));
        assert!(done.stderr.is_empty());
    }
    let done = run(MODEL_BENCH, &["--cells", "24"], input);
    assert_eq!((text(&done.stdout), done.status.code()), (&there[..], Some(0)));
}

/// "another number prints on standard error `bench: 30: a unit is made with 8 or 24 cells`, nothing on standard output (no header either),
/// exit status 1"
#[test]
fn another_number_is_refused_by_30() {
    for number in ["0", "1", "7", "9", "16", "23", "25", "30", "65544", "999999999"] {
        let refused = run(MODEL_BENCH, &["--cells", number], "X\n");
        assert_eq!(text(&refused.stderr), "bench: 30: a unit is made with 8 or 24 cells\n");
        assert_eq!((text(&refused.stdout), refused.status.code()), ("", Some(1)));
        let refused = run(GENERATE, &["--cells", number, "11", "10"], "");
        assert_eq!(text(&refused.stderr), "generate: 30: a unit is made with 8 or 24 cells\n");
        assert_eq!((text(&refused.stdout), refused.status.code()), ("", Some(1)));
    }
}

/// "`--cells` without a value, twice, or with anything but such digits is bad usage: the usage text on standard error, exit status 2."
#[test]
fn bad_usage_is_told_with_status_2() {
    let texts =
        ["", "-8", "+8", " 8", "8 ", "0x8", "10o", "8.0", "eight", "1234567890", "0000000008"];
    let mut lists: Vec<Vec<&str>> = texts.iter().map(|&text| vec!["--cells", text]).collect();
    lists.push(vec!["--cells"]);
    lists.push(vec!["--cells", "8", "--cells", "8"]);
    lists.push(vec!["--cells", "8", "--cells"]);
    lists.push(vec!["--cells=8"]);
    lists.push(vec!["--cell", "8"]);
    for arguments in lists {
        let told = run(MODEL_BENCH, &arguments, "X\n");
        assert!(text(&told.stderr).starts_with("usage: model_bench [--cells N]"), "{arguments:?}");
        assert_eq!((text(&told.stdout), told.status.code()), ("", Some(2)), "{arguments:?}");
        let arguments = [&arguments[..], &["11", "10"]].concat();
        let told = run(GENERATE, &arguments, "");
        assert!(text(&told.stderr).starts_with("usage: generate [--cells N]"), "{arguments:?}");
        assert_eq!((text(&told.stdout), told.status.code()), ("", Some(2)), "{arguments:?}");
    }
}

/// "`--help` names the option."
#[test]
fn help_names_the_option() {
    let told = run(MODEL_BENCH, &["--help"], "X\n");
    assert!(text(&told.stdout).contains("--cells N"));
    assert_eq!((text(&told.stderr), told.status.code()), ("", Some(0)));
}

/// The generator's lines are for a unit of that number: with 24 cells they are other lines, and the same again.
#[test]
fn the_generator_takes_the_number() {
    let lines = |arguments: &[&str]| run(GENERATE, arguments, "").stdout;
    let few = lines(&["11", "2000"]);
    assert_eq!(few.iter().filter(|&&byte| byte == b'\n').count(), 2_000);
    assert_eq!(lines(&["--cells", "8", "11", "2000"]), few);
    let many = lines(&["--cells", "24", "11", "2000"]);
    assert_ne!(many, few);
    assert_eq!(lines(&["--cells", "24", "11", "2000"]), many);
}
