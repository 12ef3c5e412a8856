//! The proved library beside the plain one: how long their calls take, and whether any answer or buffer differs.

mod differences;
mod lent;
mod side;
mod source;
mod spoil;
mod tables;
mod tally;
mod times;

use std::process::ExitCode;
use std::time::Duration;

const USAGE: &str = "usage: compare times [MILLISECONDS A ROW] | compare differences [CALLS [SEED]]";

fn main() -> ExitCode {
    let words: Vec<String> = std::env::args().skip(1).collect();
    let number = |n: usize, otherwise: u64| words.get(n).map_or(Some(otherwise), |w| w.parse().ok());
    let done = match (words.first().map(String::as_str), words.len()) {
        (Some("times"), 1 | 2) => number(1, 1_500).map(|ms| times::times(Duration::from_millis(ms))),
        (Some("differences"), 1..=3) => match (number(1, 1_000_000), number(2, 1)) {
            (Some(calls), Some(seed)) if !differences::differences(calls, seed) => return ExitCode::FAILURE,
            (Some(_), Some(_)) => Some(()),
            _ => None,
        },
        _ => None,
    };
    if done.is_none() {
        eprintln!("{USAGE}");
        return ExitCode::FAILURE;
    }
    ExitCode::SUCCESS
}
