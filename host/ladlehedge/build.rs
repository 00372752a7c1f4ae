//! Links `libladlehedge.a`, which Rattle builds: from the folder named by `LADLEHEDGE_LIB`, or from
//! where `rt lib` puts it.

use std::path::{Path, PathBuf};
use std::{env, process};

/// Where `rt lib` in `crates/ladlehedge` puts the archive, seen from this package.
const DEFAULT_FOLDER: &str = "../../crates/ladlehedge/out";

fn main() {
    println!("cargo::rerun-if-env-changed=LADLEHEDGE_LIB");
    let folder = archive_folder();
    let archive = folder.join("libladlehedge.a");
    println!("cargo::rerun-if-changed={}", archive.display());
    if !archive.is_file() {
        eprintln!("There is no {}.", archive.display());
        eprintln!("Make it with `rt lib` in the repository's folder crates/ladlehedge,");
        eprintln!("or name the folder that has it in LADLEHEDGE_LIB.");
        process::exit(1);
    }
    println!("cargo::rustc-link-search=native={}", folder.display());
    println!("cargo::rustc-link-lib=static=ladlehedge");
}

fn archive_folder() -> PathBuf {
    match env::var_os("LADLEHEDGE_LIB") {
        Some(given) => PathBuf::from(given),
        None => Path::new(env!("CARGO_MANIFEST_DIR")).join(DEFAULT_FOLDER),
    }
}
