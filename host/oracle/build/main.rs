//! Finds the four files of the port, tests that they are the ones the port was made from, and
//! writes the two lists of `#[path]` modules by which the library compiles them where they lie.

mod sha256;

use std::path::{Path, PathBuf};
use std::{env, fs, process};

/// The folder of the crate's sources, seen from this package: `../shared/docs/src` beside the
/// repository whose `host/` this is.
const DEFAULT_SOURCE: &str = "../../../shared/docs/src";

/// A file of the port: the module it becomes, its path under the sources, its SHA-256.
struct Ported {
    module: &'static str,
    visibility: &'static str,
    path: &'static str,
    sha256: &'static str,
}

const RESOLVERS: [Ported; 3] = [
    Ported {
        module: "execution",
        visibility: "",
        path: "src/resolvers/execution.rs",
        sha256: "d41d30311da1903d4cd07298e37d6558091354f6c9706d3b755ec945793f9f32",
    },
    Ported {
        module: "input_coercion",
        visibility: "pub(crate) ",
        path: "src/resolvers/input_coercion.rs",
        sha256: "2f955f1c40d77cacc3d73f311d43097a8655e56770f32ba5032635ae33a11e7e",
    },
    Ported {
        module: "result_coercion",
        visibility: "",
        path: "src/resolvers/result_coercion.rs",
        sha256: "2abcaa44b394320f0c52d58202b9dded98bef6414c4d5363404eba32a86c7123",
    },
];

const INTROSPECTION: [Ported; 1] = [Ported {
    module: "max_depth",
    visibility: "",
    path: "src/introspection/max_depth.rs",
    sha256: "c5179e1aac70ca9657cd970932fa8bcb39db50efedeae58200c287402eebd21a",
}];

fn main() {
    println!("cargo::rerun-if-env-changed=ORACLE_SRC");
    println!("cargo::rerun-if-changed=build");
    let source = source_folder();
    let out = PathBuf::from(variable("OUT_DIR"));
    write_modules(&source, &RESOLVERS, &out.join("resolvers.rs"));
    write_modules(&source, &INTROSPECTION, &out.join("introspection.rs"));
}

fn source_folder() -> PathBuf {
    let folder = match env::var_os("ORACLE_SRC") {
        Some(given) => PathBuf::from(given),
        None => Path::new(&variable("CARGO_MANIFEST_DIR")).join(DEFAULT_SOURCE),
    };
    fs::canonicalize(&folder).unwrap_or_else(|error| {
        refuse(&format!(
            "the folder of the Rust sources, {}, cannot be had ({error}); name it in ORACLE_SRC",
            folder.display()
        ))
    })
}

fn write_modules(source: &Path, files: &[Ported], list: &Path) {
    let mut text = String::new();
    for file in files {
        let path = source.join(file.path);
        println!("cargo::rerun-if-changed={}", path.display());
        check(&path, file.sha256);
        text += &format!(
            "#[allow(dead_code, clippy::all)]\n#[path = {:?}]\n{}mod {};\n",
            path, file.visibility, file.module
        );
    }
    if let Err(error) = fs::write(list, text) {
        refuse(&format!("cannot write {}: {error}", list.display()));
    }
}

fn check(path: &Path, expected: &str) {
    let bytes = fs::read(path)
        .unwrap_or_else(|error| refuse(&format!("cannot read {}: {error}", path.display())));
    let found = sha256::hex_digest(&bytes);
    if found != expected {
        refuse(&format!(
            "{} is not the file that was ported: its SHA-256 is {found}, not {expected}",
            path.display()
        ));
    }
}

fn variable(name: &str) -> String {
    env::var(name).unwrap_or_else(|_| refuse(&format!("cargo did not set {name}")))
}

/// Stops the build with a message that cargo shows.
fn refuse(message: &str) -> ! {
    println!("cargo::error={message}");
    process::exit(1)
}
