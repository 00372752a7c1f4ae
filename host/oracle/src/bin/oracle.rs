//! `oracle [--places] FILE..` prints what the Rust answers to the tables of a table file: the data
//! text and the errors of a run in document order as document 01's cases write them, and the depth
//! check. `--places` adds `@` and the place to each error.

use oracle::judge::{self, Answered, CannotJudge, Depth};
use std::process::ExitCode;
use tables::{file, record, Tables};

fn main() -> ExitCode {
    let mut arguments: Vec<String> = std::env::args().skip(1).collect();
    let with_places = arguments.first().is_some_and(|argument| argument == "--places");
    if with_places {
        arguments.remove(0);
    }
    if arguments.is_empty() {
        eprintln!("usage: oracle [--places] FILE..");
        return ExitCode::from(2);
    }
    let mut code = ExitCode::SUCCESS;
    for path in &arguments {
        if arguments.len() > 1 {
            println!("{path}:");
        }
        match read(path) {
            Ok(tables) => answer(&tables, with_places),
            Err(fault) => {
                eprintln!("{fault}");
                code = ExitCode::FAILURE;
            }
        }
    }
    code
}

fn read(path: &str) -> Result<Tables, String> {
    let text = std::fs::read(path).map_err(|error| format!("{path}: {error}"))?;
    file::read(text).map_err(|fault| format!("{path}:{}: {}", fault.line, fault.message))
}

fn answer(tables: &Tables, with_places: bool) {
    match judge::run(tables) {
        Ok(Answered { data, errors }) => {
            println!("run 0 {}", record::line(tables, &data, &errors, with_places))
        }
        Err(reason) => println!("run - {reason}"),
    }
    match judge::depth(tables) {
        Ok(Depth::Fine(depth)) => println!("depth 0 {depth}"),
        Ok(Depth::TooDeep { place }) => println!("depth 8 @{place}"),
        Err(CannotJudge::Rule(_)) => println!("depth -"),
        Err(reason) => println!("depth - {reason}"),
    }
}
