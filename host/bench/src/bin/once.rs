//! `once library NAME COUNT` runs the workload of this name so often through the library, `once plain
//! NAME COUNT` through plain Rust: for counting instructions, as by `valgrind --tool=callgrind`.

use bench::workloads::RUNS;
use std::hint::black_box;
use std::process::ExitCode;

fn main() -> ExitCode {
    let arguments: Vec<String> = std::env::args().skip(1).collect();
    let words: Vec<&str> = arguments.iter().map(String::as_str).collect();
    let [who @ ("library" | "plain"), name, count] = words[..] else { return usage() };
    let run = RUNS.iter().find(|run| run.name == name);
    let (Some(run), Ok(count)) = (run, count.parse::<u32>()) else { return usage() };
    let (tables, choices) = ((run.make)(), run.choices());
    let slices = tables.word_tables().map(|(_, _, words)| words.as_slice());
    let lent = ladlehedge::Tables::in_order(&tables.pool, slices, tables.root);
    let (mut text, mut errors) = (vec![1; run.sizes.0], vec![1; run.sizes.1]);
    for _ in 0..count {
        let code = if who == "library" {
            let answer =
                ladlehedge::run_ordered(black_box(&lent), &choices, &mut text, &mut errors);
            answer.map_or_else(|refusal| refusal.code(), |_| 0)
        } else {
            plain::run_ordered(black_box(&tables), &choices, &mut text, &mut errors).code
        };
        assert_eq!(code, 0, "the workload is answered");
    }
    ExitCode::SUCCESS
}

fn usage() -> ExitCode {
    eprintln!("usage: once library|plain NAME COUNT, with NAME from bench --list");
    ExitCode::from(2)
}
