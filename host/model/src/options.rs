//! The option `--cells N` of the two programs, which stands before their other arguments.

/// "Without the option it is 8".
const USUAL_CELLS: u64 = 8;

/// The number of cells asked for and the arguments after it, or none for bad usage.
pub fn cells_option(arguments: &[String]) -> Option<(u64, &[String])> {
    match arguments {
        [option, rest @ ..] if option == "--cells" => {
            let (digits, rest) = rest.split_first()?;
            Some((count(digits)?, rest))
        }
        _ => Some((USUAL_CELLS, arguments)),
    }
}

/// "N is 1 to 9 decimal digits."
fn count(digits: &str) -> Option<u64> {
    let fits = (1..=9).contains(&digits.len()) && digits.bytes().all(|byte| byte.is_ascii_digit());
    fits.then(|| digits.parse().ok()).flatten()
}
