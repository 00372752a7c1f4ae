//! `port_check FIRST COUNT` holds the port's table check, and plain Rust's, against the rules on so
//! many seeds from the first on, each with its tables as made and spoiled. It prints the differences,
//! and how many tables were asked about and refused. It fails if there is a difference.

use port::checks::table_checks;
use std::process::ExitCode;
use std::time::Instant;

fn main() -> ExitCode {
    let arguments: Vec<Option<u64>> =
        std::env::args().skip(1).map(|argument| argument.parse().ok()).collect();
    let [Some(first), Some(count)] = arguments[..] else {
        eprintln!("usage: port_check FIRST COUNT");
        return ExitCode::from(2);
    };
    let start = Instant::now();
    let tally = table_checks(first..first.saturating_add(count));
    for difference in &tally.differences {
        println!("{difference}");
    }
    println!("{:9} tables asked about, in {:.1} s", tally.asked, start.elapsed().as_secs_f64());
    println!("{:9} refused by all", tally.refused);
    println!("{:9} of these as made", tally.refused_as_made);
    println!("{:9} differences", tally.differences.len());
    if tally.differences.is_empty() {
        ExitCode::SUCCESS
    } else {
        ExitCode::FAILURE
    }
}
