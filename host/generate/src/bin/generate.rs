//! `generate SEED` prints the table file of a seed; `generate --into FOLDER FIRST COUNT` writes
//! `FOLDER/SEED.tables` for so many seeds from the first on.

use std::path::Path;
use std::process::ExitCode;
use tables::file;

fn main() -> ExitCode {
    let arguments: Vec<String> = std::env::args().skip(1).collect();
    let words: Vec<&str> = arguments.iter().map(String::as_str).collect();
    let done = match words[..] {
        [seed] => number(seed).map(|seed| print!("{}", file::write(&generate::tables(seed)))),
        ["--into", folder, first, count] => write_all(Path::new(folder), first, count),
        _ => Err("usage: generate SEED | generate --into FOLDER FIRST COUNT".into()),
    };
    match done {
        Ok(()) => ExitCode::SUCCESS,
        Err(message) => {
            eprintln!("{message}");
            ExitCode::from(2)
        }
    }
}

fn number(text: &str) -> Result<u64, String> {
    text.parse().map_err(|_| format!("{text} is no seed"))
}

fn write_all(folder: &Path, first: &str, count: &str) -> Result<(), String> {
    let (first, count) = (number(first)?, number(count)?);
    std::fs::create_dir_all(folder).map_err(|error| error.to_string())?;
    for seed in first..first.saturating_add(count) {
        let path = folder.join(format!("{seed}.tables"));
        let text = file::write(&generate::tables(seed));
        std::fs::write(&path, text).map_err(|error| format!("{}: {error}", path.display()))?;
    }
    Ok(())
}
