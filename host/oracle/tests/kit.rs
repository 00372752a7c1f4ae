//! The kit that is there to start from, asked through its table file.

mod support;

use oracle::judge::{self, Depth};
use std::path::Path;
use support::run_line;
use tables::file;

#[test]
fn segments() {
    let kit = Path::new(env!("CARGO_MANIFEST_DIR")).join("../../kits/segments.tables");
    let tables = file::read(std::fs::read(kit).expect("a kit")).expect("a table file");
    let boot = r#"{"base":4096,"length":16384,"name":"boot"}"#;
    let rest = r#"{"base":20480,"length":null,"name":"tables"}"#;
    let data = format!(r#"{{"segments":[{boot},{rest}],"ready":true}}"#);
    assert_eq!(run_line(&tables, true), data);
    assert_eq!(judge::depth(&tables), Ok(Depth::Fine(0)));
}
