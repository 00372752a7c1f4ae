//! What the tests share: asking the oracle by texts, and saying its answer as one line.
#![allow(dead_code)]

use oracle::judge::{self, CannotJudge, Depth};
use reading::Lent;
use std::str;
use tables::{file, notation, record, Tables};

/// Tables from texts. Every test's tables go through a table file and back as well.
pub fn tables(schema: &str, document: &str, variables: &str, answers: &str) -> Tables {
    let built = notation::tables(schema, document, variables, answers);
    let text = file::write(&built);
    let read = file::read(&text).expect("what was written can be read");
    assert_eq!(file::write(&read), text, "a table file is written as it was read");
    assert_eq!(run_line(&read, true), run_line(&built, true));
    built
}

/// Where the oracle has an answer, document 01 as it is read beside it has the same, and so has plain
/// Rust.
fn compare_with_others(tables: &Tables) {
    let Ok(answered) = judge::run(tables) else { return };
    let words: Vec<u32> = answered.errors.iter().flat_map(|error| error.words()).collect();
    let (mut text, mut errors) = ([1; 4_096], [1; 512]);
    let ran = plain::run(tables, &mut text, &mut errors);
    let data = str::from_utf8(&text[..ran.bytes]);
    assert_eq!((ran.code, data, &errors[..ran.words]), (0, Ok(&*answered.data), &*words));
    let read = reading::run(tables, Lent::default()).expect("tests are small");
    assert_eq!((read.code, read.data, read.errors), (0, answered.data, answered.errors));
}

/// The data and the errors, as document 01's cases write them; with `@` and the place on request.
pub fn run_line(tables: &Tables, with_places: bool) -> String {
    match judge::run(tables) {
        Ok(answered) => record::line(tables, &answered.data, &answered.errors, with_places),
        Err(reason) => format!("cannot judge: {reason}"),
    }
}

/// Demands an answer of a run without variables; with places if the answer has any.
pub fn gives(schema: &str, document: &str, answers: &str, expected: &str) {
    gives_with(schema, document, "", answers, expected)
}

/// Demands an answer of a run.
pub fn gives_with(schema: &str, document: &str, variables: &str, answers: &str, expected: &str) {
    let tables = tables(schema, document, variables, answers);
    let line = run_line(&tables, expected.contains('@'));
    compare_with_others(&tables);
    assert_eq!(line, expected, "\n{schema}\n{document}\n{variables}\n{answers}");
}

/// Demands what an argument `x` is coerced to: it is echoed at the custom scalar `Any`. Given are
/// the argument's definition with the types it needs, and the argument as the field has it.
pub fn echoes(types: &str, definition: &str, given: &str, variables: &str, expected: &str) {
    let schema = format!("type Q {{ f(x'1: {definition}): Any }} scalar Any {types}");
    let document = format!("{{ f'2{given} }}");
    gives_with(&schema, &document, variables, "{ f: echo x }", expected)
}

/// Demands the answer of a depth check: `0 2` for depth 2, `8 @7` for too deep at place 7.
pub fn depth(document: &str, expected: &str) {
    let tables = tables("type Q { a: Int }", document, "", "{}");
    let line = match judge::depth(&tables) {
        Ok(Depth::Fine(depth)) => format!("0 {depth}"),
        Ok(Depth::TooDeep { place }) => format!("8 @{place}"),
        Err(CannotJudge::OpenSets) => "3".into(),
        Err(other) => format!("cannot judge: {other}"),
    };
    assert_eq!(line, expected, "{document}");
}
