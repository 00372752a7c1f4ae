//! The stored table files: read, and judged by the rules, they are what the gate has `ladle` print.

use std::collections::BTreeMap;
use std::fs;
use std::path::{Path, PathBuf};
use tables::{file, rules};

/// A path in the repository.
fn repository(path: &str) -> PathBuf {
    Path::new(env!("CARGO_MANIFEST_DIR")).join("../..").join(path)
}

/// What `ladle check` says of a file in its first line: `NAME: CODE`, or `NAME:LINE: ` and why it is
/// no table file.
fn checked(name: &str, path: &Path) -> String {
    let text = fs::read(path).unwrap_or_else(|error| panic!("{name}: {error}"));
    match file::read(text) {
        Ok(tables) => format!("{name}: {}", u32::from(rules::check(&tables).is_err())),
        Err(fault) => format!("{name}:{}: {}", fault.line, fault.message),
    }
}

/// What the gate has `ladle check` print: each file's first line, by the file's name.
fn printed() -> BTreeMap<String, String> {
    let printed = fs::read_to_string(repository("crates/ladle/stdout")).expect("a stored output");
    // Two blanks begin what is said of a broken rule.
    let lines = printed.lines().filter(|line| !line.starts_with("  "));
    let by_name = lines.map(|line| {
        let name = line.split(':').next().unwrap_or_default();
        (name.to_string(), line.to_string())
    });
    by_name.collect()
}

#[test]
fn every_file_is_answered_as_stored() {
    let mut printed = printed();
    let missing = printed.remove("missing.tables");
    assert_eq!(missing.as_deref(), Some("missing.tables: cannot be opened"));
    let mut checks = BTreeMap::new();
    for entry in fs::read_dir(repository("crates/ladle/data")).expect("a folder of table files") {
        let path = entry.expect("a file").path();
        let name = path.file_name().and_then(|name| name.to_str()).expect("a name").to_string();
        checks.insert(name.clone(), checked(&name, &path));
    }
    assert_eq!(checks, printed);
    let count = |end: &str| checks.values().filter(|line| line.ends_with(end)).count();
    let (lawful, unlawful) = (count(".tables: 0"), count(".tables: 1"));
    println!("{lawful} lawful, {unlawful} not, of {} files", checks.len());
    assert!(lawful > 100 && unlawful > 100);
}

#[test]
fn the_kit_is_lawful() {
    let path = repository("kits/segments.tables");
    assert_eq!(checked("segments.tables", &path), "segments.tables: 0");
}
