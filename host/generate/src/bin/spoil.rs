//! `spoil FOLDER FIRST COUNT`: for each seed the lawful tables and the same with some words changed, as
//! table files in FOLDER, and in FOLDER/expected what the table check is to answer to each. Hold it
//! against the port with `ladle check FOLDER/*.tables`. Tables without whole rows are left out.

use std::fmt::Write as _;
use std::path::Path;
use std::{env, fs, process};
use tables::{file, rules};

fn main() {
    let arguments: Vec<String> = env::args().collect();
    let [_, folder, first, count] = &arguments[..] else {
        eprintln!("usage: spoil FOLDER FIRST COUNT");
        process::exit(2);
    };
    let (Ok(first), Ok(count)) = (first.parse::<u64>(), count.parse::<u64>()) else {
        eprintln!("FIRST and COUNT are numbers");
        process::exit(2);
    };
    let folder = Path::new(folder);
    let mut expected = String::new();
    for seed in first..first + count {
        for (kind, tables) in
            [("lawful", generate::tables(seed)), ("spoiled", generate::spoiled_tables(seed))]
        {
            let name = format!("{seed}-{kind}.tables");
            let path = folder.join(&name);
            let text = file::write(&tables);
            // A row that lost a word, or has one too many, is no row of a table file.
            let Ok(written) = file::read(&text) else { continue };
            let code = u32::from(rules::check(&written).is_err());
            writeln!(expected, "{}: {code}", path.display()).expect("a string takes all");
            write(&path, text.as_bytes());
        }
    }
    write(&folder.join("expected"), expected.as_bytes());
}

fn write(path: &Path, bytes: &[u8]) {
    if let Err(error) = fs::write(path, bytes) {
        eprintln!("{}: {error}", path.display());
        process::exit(1);
    }
}
