//! The entries in plain Rust, written to be quick: what the port's speed is held against.
//!
//! No heap and no unsafe code; indices are tested. There are the table check and the runs.
//!
//! * [`rows`]: the tables as rows of their width, where their sizes are lawful.
//! * [`pool`]: strings, names and floats in the pool; [`hash`]: how they are told apart.
//! * [`notes`]: which names or strings were met before, and up to where rows are apart.
//! * [`schema`], [`document`], [`values`]: document 01's rules, one loop a table.
//! * [`run`]: a run as a whole; [`request`]: lookups by name; [`collection`]: what is collected;
//!   [`plans`]: the same, kept for the next object; [`execution`]: selection sets and fields;
//!   [`input_coercion`]: arguments; [`result_coercion`]: values; [`json`]: values written from their
//!   rows; [`text`], [`records`]: the two buffers; [`outcome`]: codes.

#![forbid(unsafe_code)]

mod collection;
mod document;
mod execution;
pub mod hash;
mod input_coercion;
mod json;
mod notes;
mod outcome;
mod plans;
mod pool;
mod records;
mod request;
mod result_coercion;
mod rows;
mod run;
mod schema;
mod text;
mod values;

pub use run::Reported;

use notes::{Apart, Closed};
use pool::{Ascii, Mixed, Strings, Utf8};
use rows::Rows;
use tables::Tables;

/// The table check: 0 where the tables obey document 01's rules, otherwise 1.
pub fn table_check(tables: &Tables) -> u32 {
    u32::from(lawful(tables).is_none())
}

/// The run in document order.
pub fn run(tables: &Tables, text: &mut [u8], errors: &mut [u32]) -> Reported {
    run_ordered(tables, &[], text, errors)
}

/// The run in a given order.
pub fn run_ordered(
    tables: &Tables,
    choices: &[u32],
    text: &mut [u8],
    errors: &mut [u32],
) -> Reported {
    run::run(lawful(tables), choices, text, errors)
}

/// The rows of tables that obey document 01's rules.
fn lawful(tables: &Tables) -> Option<Rows<'_>> {
    let rows = Rows::of(tables)?;
    if !pool::names_are_lawful(rows.pool, rows.names) || !schema::type_refs_are_lawful(&rows) {
        return None;
    }
    // Most pools are ASCII, and a string of such a pool is one wherever it begins and ends.
    let is_lawful = if rows.pool.is_ascii() {
        rest_is_lawful(&rows, &Ascii { length: rows.pool.len() })
    } else if let Ok(text) = std::str::from_utf8(rows.pool) {
        rest_is_lawful(&rows, &Utf8 { text })
    } else {
        rest_is_lawful(&rows, &Mixed { bytes: rows.pool })
    };
    is_lawful.then_some(rows)
}

/// What is left where names and type references are lawful.
fn rest_is_lawful(rows: &Rows<'_>, strings: &impl Strings) -> bool {
    let (mut apart, mut of_fields) = (Apart::new(), Apart::new());
    let mut closed = Closed::new();
    values::literals_are_lawful(rows, strings, &mut apart, &mut closed)
        && schema::arguments_are_lawful(rows, &closed, &mut apart)
        && schema::fields_are_lawful(rows, &closed, &apart, &mut of_fields)
        && schema::types_are_lawful(rows, &of_fields)
        && document::given_are_lawful(rows, &mut apart)
        && document::sets_are_lawful(rows, &apart)
        && values::nodes_are_lawful(rows, strings, &mut apart)
        && values::variables_are_lawful(rows)
        && values::answers_are_lawful(rows, &mut apart)
}
