//! `bench [--seconds S] [NAME..]` times the static library beside plain Rust, in turns, on the workloads
//! of these names, or on all: processor time of a call in microseconds, least and median, and how many
//! times plain Rust's the library's are. `bench --list` says which workloads there are. It fails if one
//! of the two refuses a workload, or if the two leave a run's buffers otherwise.

use bench::timing::{in_turns, Call, Times};
use bench::workloads::{Run, Workload, DEPTH_CHECKS, RUNS, TABLE_CHECKS};
use plain::Reported;
use std::cell::RefCell;
use std::hint::black_box;
use std::process::ExitCode;
use std::time::Duration;
use tables::Tables;

/// How long to measure a workload, about.
const SECONDS: f64 = 1.0;

fn main() -> ExitCode {
    let arguments: Vec<String> = std::env::args().skip(1).collect();
    let words: Vec<&str> = arguments.iter().map(String::as_str).collect();
    let (seconds, names) = match words[..] {
        ["--list"] => return list(),
        ["--seconds", seconds, ref names @ ..] => (seconds.parse().unwrap_or(f64::NAN), names),
        ref names => (SECONDS, names),
    };
    let known = |name: &&str| all().any(|(known, _)| known == *name);
    if !(0.0..=3_600.0).contains(&seconds) || !names.iter().all(known) {
        eprintln!("usage: bench --list, or bench [--seconds S] [NAME..]");
        return ExitCode::from(2);
    }
    match run(names, Duration::from_secs_f64(seconds)) {
        Ok(()) => ExitCode::SUCCESS,
        Err(refused) => {
            println!("{refused}");
            ExitCode::FAILURE
        }
    }
}

/// The names of all workloads, and what they are.
fn all() -> impl Iterator<Item = (&'static str, &'static str)> {
    let checks = TABLE_CHECKS.iter().chain(&DEPTH_CHECKS);
    let checks = checks.map(|workload| (workload.name, workload.what));
    checks.chain(RUNS.iter().map(|run| (run.name, run.what)))
}

fn list() -> ExitCode {
    for (name, what) in all() {
        println!("{name:15} {what}");
    }
    ExitCode::SUCCESS
}

fn run(names: &[&str], patience: Duration) -> Result<(), String> {
    let is_chosen = |name: &str| names.is_empty() || names.contains(&name);
    let chosen = |workload: &&Workload| is_chosen(workload.name);
    println!(
        "{:15} {:>11} {:>11} {:>11} {:>11} {:>6} {:>6} {:>6}",
        "", "library", "median", "plain", "median", "ratio", "median", "turns"
    );
    for workload in TABLE_CHECKS.iter().filter(chosen) {
        table_check(workload, patience)?;
    }
    for workload in DEPTH_CHECKS.iter().filter(chosen) {
        depth_check(workload, patience)?;
    }
    for run in RUNS.iter().filter(|run| is_chosen(run.name)) {
        time_run(run, patience)?;
    }
    Ok(())
}

/// The tables as the library wants them lent.
fn lent(tables: &Tables) -> ladlehedge::Tables<'_> {
    let words = tables.word_tables().map(|(_, _, words)| words.as_slice());
    ladlehedge::Tables::in_order(&tables.pool, words, tables.root)
}

fn table_check(workload: &Workload, patience: Duration) -> Result<(), String> {
    let tables = (workload.make)();
    let lent: Vec<_> = tables.iter().map(lent).collect();
    for (tables, lent) in tables.iter().zip(&lent) {
        let (library, plain) = (ladlehedge::table_check(lent), plain::table_check(tables));
        if (library, plain) != (Ok(()), 0) {
            return Err(format!("{}: library {library:?}, plain {plain}", workload.name));
        }
    }
    let library = || {
        for tables in &lent {
            black_box(ladlehedge::table_check(black_box(tables))).ok();
        }
    };
    let plain = || {
        for tables in &tables {
            black_box(plain::table_check(black_box(tables)));
        }
    };
    report(workload.name, tables.len(), &[Some(&library), Some(&plain)], patience);
    Ok(())
}

fn depth_check(workload: &Workload, patience: Duration) -> Result<(), String> {
    let tables = (workload.make)();
    let lent: Vec<_> = tables.iter().map(lent).collect();
    for tables in &lent {
        ladlehedge::depth_check(tables)
            .map_err(|refusal| format!("{}: {refusal}", workload.name))?;
    }
    let library = || {
        for tables in &lent {
            black_box(ladlehedge::depth_check(black_box(tables))).ok();
        }
    };
    report(workload.name, tables.len(), &[Some(&library), None], patience);
    Ok(())
}

/// A run of the library, as plain Rust reports it.
fn library_run(
    tables: &ladlehedge::Tables<'_>,
    choices: &[u32],
    text: &mut [u8],
    errors: &mut [u32],
) -> Reported {
    match ladlehedge::run_ordered(tables, choices, text, errors) {
        Ok(run) => {
            let (bytes, words) = (run.bytes().len(), run.words().len());
            Reported { code: 0, bytes, words, records: run.errors().len() }
        }
        Err(refusal) => Reported { code: refusal.code(), ..Reported::default() },
    }
}

/// What a run leaves in its buffers.
struct Buffers {
    text: Vec<u8>,
    errors: Vec<u32>,
}

fn time_run(run: &Run, patience: Duration) -> Result<(), String> {
    let (tables, choices) = ((run.make)(), run.choices());
    let lent = lent(&tables);
    let buffers = || Buffers { text: vec![1; run.sizes.0], errors: vec![1; run.sizes.1] };
    let plain_run = |Buffers { text, errors }: &mut Buffers| {
        plain::run_ordered(black_box(&tables), black_box(&choices), text, errors)
    };
    let library_run = |Buffers { text, errors }: &mut Buffers| {
        library_run(black_box(&lent), black_box(&choices), text, errors)
    };
    let (mut of_plain, mut of_library) = (buffers(), buffers());
    let reported = plain_run(&mut of_plain);
    if (reported.code, reported.records) != (0, run.records) {
        return Err(format!("{}: plain {reported:?}", run.name));
    }
    let of_both = (reported, library_run(&mut of_library));
    let same = of_plain.text == of_library.text && of_plain.errors == of_library.errors;
    if of_both.0 != of_both.1 || !same {
        return Err(format!("{}: plain and library {of_both:?}", run.name));
    }
    let reused = RefCell::new(of_plain);
    let plain = || {
        black_box(plain_run(&mut reused.borrow_mut()));
    };
    let library = || {
        black_box(library_run(&mut reused.borrow_mut()));
    };
    report(run.name, 1, &[Some(&library), Some(&plain)], patience);
    Ok(())
}

/// Times the library and plain Rust, as far as both are there.
fn report(name: &str, count: usize, [library, plain]: &[Option<Call<'_>>; 2], patience: Duration) {
    let calls: Vec<Call<'_>> = [library, plain].into_iter().copied().flatten().collect();
    let mut times = in_turns(&calls, patience).into_iter();
    print!("{name:15}");
    let of_both = [library, plain].map(|call| call.and_then(|_| times.next()));
    for times in &of_both {
        match times {
            Some(times) => {
                let time = |time: f64| time / count as f64;
                print!(" {:11.2} {:11.2}", time(times.least()), time(times.median()));
            }
            None => print!(" {:>11} {:>11}", "-", "-"),
        }
    }
    match &of_both {
        [Some(library), Some(plain)] => {
            let ratio = |of: fn(&Times) -> f64| of(library) / of(plain);
            print!(" {:6.2} {:6.2}", ratio(Times::least), ratio(Times::median));
        }
        _ => print!(" {:>6} {:>6}", "-", "-"),
    }
    println!(" {:6}", of_both.iter().flatten().map(Times::turns).max().unwrap_or_default());
}
