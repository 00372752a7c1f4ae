//! `port_depth FIRST COUNT` holds the port's depth check against the oracle, where that has an
//! answer, and against the reading on so many seeds from the first on, with tables made for depth
//! checks; `port_depth --runs FIRST COUNT` with tables made for runs, as made and spoiled. It prints
//! the differences, and how often there was which code and depth and who judged it. It fails if there
//! is a difference.

use port::depths::{depth_checks, depth_checks_of_runs, Judge, Tally};
use std::process::ExitCode;
use std::time::Instant;

fn main() -> ExitCode {
    let arguments: Vec<String> = std::env::args().skip(1).collect();
    let words: Vec<&str> = arguments.iter().map(String::as_str).collect();
    let (of_runs, words) = match words[..] {
        ["--runs", ref rest @ ..] => (true, rest),
        ref all => (false, all),
    };
    let numbers: Vec<Option<u64>> = words.iter().map(|word| word.parse().ok()).collect();
    let [Some(first), Some(count)] = numbers[..] else {
        eprintln!("usage: port_depth [--runs] FIRST COUNT");
        return ExitCode::from(2);
    };
    let seeds = first..first.saturating_add(count);
    let start = Instant::now();
    let tally = if of_runs { depth_checks_of_runs(seeds) } else { depth_checks(seeds) };
    report(&tally, start.elapsed().as_secs_f64());
    if tally.differences.is_empty() {
        ExitCode::SUCCESS
    } else {
        ExitCode::FAILURE
    }
}

fn report(tally: &Tally, seconds: f64) {
    for difference in &tally.differences {
        println!("{difference}");
    }
    for ((code, depth, judge), count) in &tally.answers {
        let depth = if *code == 0 { format!(" depth {depth}") } else { String::new() };
        println!("{count:9} code {code}{depth}, {judge}");
    }
    println!("{:9} depth checks in {seconds:.1} s", tally.asked());
    for judge in [Judge::Oracle, Judge::ReadingAlone, Judge::RulesAlone] {
        println!("{:9} of them {judge}", tally.judged(judge));
    }
    println!("{:9} differences", tally.differences.len());
}
