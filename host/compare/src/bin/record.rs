//! `record FOLDER FIRST COUNT` records what the oracle answers to the depth checks of so many seeds
//! from the first on: FOLDER/data/oracle.cases has the table files, FOLDER/answers the answers. It
//! says how many cases there are of each code and depth, and how long they are.

use compare::sample::{depth_sample, Sample};
use std::path::Path;
use std::process::ExitCode;
use std::{env, fs, io};

/// The longest text that the port's programs read.
const MOST_BYTES: usize = 1_048_576;

fn main() -> ExitCode {
    let arguments: Vec<String> = env::args().skip(1).collect();
    let [folder, first, count] = &arguments[..] else {
        eprintln!("usage: record FOLDER FIRST COUNT");
        return ExitCode::from(2);
    };
    let (Ok(first), Ok(count)) = (first.parse::<u64>(), count.parse::<u64>()) else {
        eprintln!("FIRST and COUNT are numbers");
        return ExitCode::from(2);
    };
    let sample = depth_sample(first..first.saturating_add(count));
    if sample.cases.len() > MOST_BYTES {
        eprintln!("{} bytes are more than a program reads: {MOST_BYTES}", sample.cases.len());
        return ExitCode::FAILURE;
    }
    if let Err(error) = write(Path::new(folder), &sample) {
        eprintln!("{folder}: {error}");
        return ExitCode::FAILURE;
    }
    for ((code, depth), count) in &sample.counts {
        println!("{count:9} code {code}, depth {depth}");
    }
    let cases: u64 = sample.counts.values().sum();
    println!("{cases:9} cases, {} bytes", sample.cases.len());
    ExitCode::SUCCESS
}

fn write(folder: &Path, sample: &Sample) -> io::Result<()> {
    let data = folder.join("data");
    fs::create_dir_all(&data)?;
    fs::write(data.join("oracle.cases"), &sample.cases)?;
    fs::write(folder.join("answers"), &sample.answers)
}
