//! The port, through its static library, held against the judges.
//!
//! * [`table_check`], [`depth_check`], [`run`]: the entries, for tables that are at hand as [`Tables`],
//!   with answers as the judges give them.
//! * [`checks`]: the table check held against [`tables::rules`], and plain Rust's beside it;
//!   [`depths`]: the depth check held against the oracle and the reading; [`runs`]: runs in document
//!   order held against the same. Runs in a given order and other buffers: `compare::runs`, over [`run`].
//! * [`orders`]: pairs of runs that differ in their choices alone.
//! * [`hostile`]: runs of tables that break rules, over memory with a [`fence`] behind it.

pub mod checks;
pub mod depths;
pub mod fence;
pub mod hostile;
pub mod orders;
pub mod runs;

use ladlehedge::Refusal;
use plain::Reported;
use reading::{code, Depth};
use tables::Tables;

/// The tables as the entries want them lent.
fn lent(tables: &Tables) -> ladlehedge::Tables<'_> {
    let words = tables.word_tables().map(|(_, _, words)| words.as_slice());
    ladlehedge::Tables::in_order(&tables.pool, words, tables.root)
}

/// The port's table check: [`code::ANSWERED`] or [`code::RULE`].
pub fn table_check(tables: &Tables) -> u32 {
    ladlehedge::table_check(&lent(tables)).map_or_else(Refusal::code, |()| code::ANSWERED)
}

/// The port's depth check.
pub fn depth_check(tables: &Tables) -> Depth {
    match ladlehedge::depth_check(&lent(tables)) {
        Ok(depth) => Depth { code: code::ANSWERED, depth, place: 0 },
        Err(refusal) => {
            let place = if let Refusal::TooDeep { place } = refusal { place } else { 0 };
            Depth { code: refusal.code(), depth: 0, place }
        }
    }
}

/// The port's run: in document order where there are no choices.
pub fn run(tables: &Tables, choices: &[u32], text: &mut [u8], errors: &mut [u32]) -> Reported {
    run_lent(&lent(tables), choices, text, errors)
}

/// The same, for tables that are lent.
fn run_lent(
    tables: &ladlehedge::Tables<'_>,
    choices: &[u32],
    text: &mut [u8],
    errors: &mut [u32],
) -> Reported {
    let answer = if choices.is_empty() {
        ladlehedge::run(tables, text, errors)
    } else {
        ladlehedge::run_ordered(tables, choices, text, errors)
    };
    match answer {
        Ok(run) => {
            let (bytes, words) = (run.bytes().len(), run.words().len());
            Reported { code: code::ANSWERED, bytes, words, records: run.errors().len() }
        }
        Err(refusal) => Reported { code: refusal.code(), ..Reported::default() },
    }
}
