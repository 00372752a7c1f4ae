//! `compare FIRST COUNT` asks the judges about so many seeds from the first on, and prints where
//! they differ and how many cases there were of each kind. It fails if any two differ.

use compare::{compare_depths, compare_orders, compare_runs};
use std::collections::BTreeMap;
use std::process::ExitCode;

fn main() -> ExitCode {
    let arguments: Vec<Option<u64>> =
        std::env::args().skip(1).map(|argument| argument.parse().ok()).collect();
    let [Some(first), Some(count)] = arguments[..] else {
        eprintln!("usage: compare FIRST COUNT");
        return ExitCode::from(2);
    };
    let mut tally: BTreeMap<String, u64> = BTreeMap::new();
    let mut differences = 0;
    for seed in first..first.saturating_add(count) {
        let tables = generate::tables(seed);
        let verdicts = [
            compare_runs(&tables),
            compare_orders(&tables, &generate::choices(seed)),
            compare_depths(&tables),
        ];
        for verdict in verdicts {
            match verdict {
                Ok(kind) => *tally.entry(kind).or_default() += 1,
                Err(difference) => {
                    differences += 1;
                    println!("seed {seed}: {difference}");
                }
            }
        }
    }
    for (kind, count) in tally {
        println!("{count:9} {kind}");
    }
    println!("{differences:9} differences");
    if differences == 0 {
        ExitCode::SUCCESS
    } else {
        ExitCode::FAILURE
    }
}
