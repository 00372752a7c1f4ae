//! `port_runs FIRST COUNT` holds the port's runs against the reading on so many seeds from the first
//! on, in document order and in given orders, with buffers of several sizes; `port_runs --oracle FIRST
//! COUNT` holds its runs in document order against the oracle as well; `port_runs --hostile FIRST COUNT`
//! runs spoiled tables and random words, over memory with a fence, and holds what comes of it against
//! plain Rust; `port_runs --orders FIRST COUNT` makes pairs of runs that differ in their choices, to see
//! that it does not show where it may not. It prints the differences and what was asked. It fails if there is a difference.

use compare::runs;
use std::fmt::Display;
use std::process::ExitCode;
use std::time::Instant;

fn main() -> ExitCode {
    let arguments: Vec<String> = std::env::args().skip(1).collect();
    let words: Vec<&str> = arguments.iter().map(String::as_str).collect();
    let (kind, words) = match words[..] {
        [kind @ ("--oracle" | "--hostile" | "--orders"), ref rest @ ..] => (kind, rest),
        ref all => ("", all),
    };
    let numbers: Vec<Option<u64>> = words.iter().map(|word| word.parse().ok()).collect();
    let [Some(first), Some(count)] = numbers[..] else {
        eprintln!("usage: port_runs [--oracle | --hostile | --orders] FIRST COUNT");
        return ExitCode::from(2);
    };
    let seeds = first..first.saturating_add(count);
    let start = Instant::now();
    let (said, differences) = match kind {
        "--oracle" => {
            let judged = port::runs::runs(seeds);
            let count = judged.differences.len() + judged.read.differences.len();
            said(judged, count)
        }
        "--hostile" => {
            let hostile = port::hostile::runs(seeds);
            let count = hostile.differences.len();
            said(hostile, count)
        }
        "--orders" => {
            let orders = port::orders::pairs(seeds);
            let count = orders.counterexamples.len();
            said(orders, count)
        }
        _ => {
            let tally = runs::runs(port::run, seeds);
            let count = tally.differences.len();
            said(tally, count)
        }
    };
    println!("{said}");
    println!("{:9.1} seconds", start.elapsed().as_secs_f64());
    if differences == 0 {
        ExitCode::SUCCESS
    } else {
        ExitCode::FAILURE
    }
}

fn said(tally: impl Display, differences: usize) -> (String, usize) {
    (tally.to_string(), differences)
}
