//! `plain_runs FIRST COUNT` holds plain Rust's runs against the reading on so many seeds from the first
//! on, each in document order and in given orders, with buffers of several sizes. It prints the
//! differences, and how many runs had which code. It fails if there is a difference.

use compare::runs::{plain_run, runs};
use std::process::ExitCode;
use std::time::Instant;

fn main() -> ExitCode {
    let arguments: Vec<Option<u64>> =
        std::env::args().skip(1).map(|argument| argument.parse().ok()).collect();
    let [Some(first), Some(count)] = arguments[..] else {
        eprintln!("usage: plain_runs FIRST COUNT");
        return ExitCode::from(2);
    };
    let start = Instant::now();
    let tally = runs(plain_run, first..first.saturating_add(count));
    println!("{tally}");
    println!("{:9.1} seconds", start.elapsed().as_secs_f64());
    if tally.differences.is_empty() {
        ExitCode::SUCCESS
    } else {
        ExitCode::FAILURE
    }
}
