//! Document 01, read in plain Rust.
//!
//! The oracle is the Rust, and the Rust knows no limit, no choices and no buffers. This crate says
//! what document 01 and its readings ask for in every case: codes 1 to 8, runs in a given order,
//! buffers that are too short. It was written from the documents and is compared with the oracle
//! wherever the oracle has an answer; it has no part in what the oracle answers, but that its depth
//! check stands before the Rust's, which need not end: code 3 of a depth check is its word alone.
//!
//! * [`run`]: codes, buffers; `walk` executes and completes, `collect` collects, `coerce` coerces
//!   arguments, `value` has the JSON values.
//! * [`depth`]: the depth check.

mod coerce;
mod collect;
mod depth;
mod schema;
mod value;
mod walk;

pub use depth::{depth, Depth};
pub use walk::Seen;

use tables::layout::{SCHEMA, TYPE};
use tables::room::with_room;
use tables::rows::SelectionKind;
use tables::{rules, ErrorRecord, Tables};

/// The codes that an entry hands back.
pub mod code {
    pub const ANSWERED: u32 = 0;
    pub const RULE: u32 = 1;
    pub const INTROSPECTION: u32 = 2;
    pub const LIMIT: u32 = 3;
    pub const COLLECTED: u32 = 4;
    pub const VARIABLE: u32 = 5;
    pub const TEXT_ROOM: u32 = 6;
    pub const ERROR_ROOM: u32 = 7;
    pub const TOO_DEEP: u32 = 8;
}

/// The choices and the sizes of the buffers of a run.
#[derive(Debug, Clone, Copy)]
pub struct Lent<'c> {
    /// Which group each selection set takes next; none for document order.
    pub choices: &'c [u32],
    pub text_bytes: usize,
    pub error_words: usize,
}

impl Default for Lent<'_> {
    /// Document order, with the largest buffers.
    fn default() -> Self {
        Lent { choices: &[], text_bytes: 65_536, error_words: 16_384 }
    }
}

/// What a run answers.
#[derive(Debug, Clone, PartialEq, Eq)]
pub struct Answer {
    pub code: u32,
    /// With code 0 the text, otherwise empty.
    pub data: String,
    /// With code 0 the records, otherwise none.
    pub errors: Vec<ErrorRecord>,
}

impl Answer {
    fn refused(code: u32) -> (Self, Seen) {
        (Answer { code, data: String::new(), errors: Vec::new() }, Seen::default())
    }
}

/// Runs the operation. `None` where it takes more work than a test has time for: answers may lead
/// back to earlier ones and rows may be shared, so that 32 segments bound nothing.
pub fn run(tables: &Tables, lent: Lent<'_>) -> Option<Answer> {
    run_seen(tables, lent).map(|(answer, _)| answer)
}

/// The same, with what the run went through; that is nothing unless the code is 0.
pub fn run_seen(tables: &Tables, lent: Lent<'_>) -> Option<(Answer, Seen)> {
    if rules::check(tables).is_err() {
        return Some(Answer::refused(code::RULE));
    }
    if asks_for_introspection(tables) {
        return Some(Answer::refused(code::INTROSPECTION));
    }
    with_room(|| run_lawful(tables, lent))
}

fn run_lawful(tables: &Tables, lent: Lent<'_>) -> Option<(Answer, Seen)> {
    let mut walk = walk::Walk::new(tables, lent.choices);
    let data = match walk.operation() {
        Ok(data) => data,
        Err(walk::Stop::Code(code)) => return Some(Answer::refused(code)),
        Err(walk::Stop::Work) => return None,
    };
    let (errors, seen) = walk.into_errors();
    if data.len() > lent.text_bytes {
        return Some(Answer::refused(code::TEXT_ROOM));
    }
    let words: usize = errors.iter().map(|error| error.words().len()).sum();
    if words > lent.error_words {
        return Some(Answer::refused(code::ERROR_ROOM));
    }
    Some((Answer { code: code::ANSWERED, data, errors }, seen))
}

fn asks_for_introspection(tables: &Tables) -> bool {
    (0..tables.selection_count()).any(|row| {
        matches!(tables.selection(row).kind,
            SelectionKind::Field { name, .. } if matches!(name, SCHEMA | TYPE))
    })
}
