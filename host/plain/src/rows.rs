//! The tables as rows of their width.

use tables::layout::{limit, width, RESERVED};
use tables::Tables;

/// The tables, each as many rows as it may have.
pub(crate) struct Rows<'t> {
    pub pool: &'t [u8],
    pub names: &'t [[u32; width::NAMES]],
    pub type_refs: &'t [[u32; width::TYPE_REFS]],
    pub types: &'t [[u32; width::TYPES]],
    pub members: &'t [u32],
    pub fields: &'t [[u32; width::FIELDS]],
    pub arguments: &'t [[u32; width::ARGUMENTS]],
    pub sets: &'t [[u32; width::SETS]],
    pub selections: &'t [[u32; width::SELECTIONS]],
    pub given: &'t [[u32; width::GIVEN]],
    pub fragments: &'t [[u32; width::FRAGMENTS]],
    pub nodes: &'t [[u32; width::NODES]],
    pub literals: &'t [[u32; width::LITERALS]],
    pub variables: &'t [[u32; width::VARIABLES]],
    pub answers: &'t [[u32; width::ANSWERS]],
    pub root: u32,
}

/// The most rows of a table without a limit: a word can count them.
const ANY: usize = u32::MAX as usize;

impl<'t> Rows<'t> {
    /// None where a table has too few or too many rows, or ends within one.
    pub fn of(t: &'t Tables) -> Option<Self> {
        Some(Rows {
            pool: (t.pool.len() <= limit::POOL).then_some(&t.pool[..])?,
            names: rows(&t.names, RESERVED.len(), limit::NAMES)?,
            type_refs: rows(&t.type_refs, 0, limit::TYPE_REFS)?,
            types: rows(&t.types, 0, limit::TYPES)?,
            members: &t.members,
            fields: rows(&t.fields, 0, limit::FIELDS)?,
            arguments: rows(&t.arguments, 0, limit::ARGUMENTS)?,
            sets: rows(&t.sets, 1, ANY)?,
            selections: rows(&t.selections, 0, limit::SELECTIONS)?,
            given: rows(&t.given, 0, ANY)?,
            fragments: rows(&t.fragments, 0, limit::FRAGMENTS)?,
            nodes: rows(&t.nodes, 0, limit::NODES)?,
            literals: rows(&t.literals, 0, limit::LITERALS)?,
            variables: rows(&t.variables, 0, limit::VARIABLES)?,
            answers: rows(&t.answers, 1, limit::ANSWERS)?,
            root: t.root,
        })
    }
}

fn rows<const WIDTH: usize>(table: &[u32], least: usize, most: usize) -> Option<&[[u32; WIDTH]]> {
    let (rows, rest) = table.as_chunks();
    (rest.is_empty() && (least..=most).contains(&rows.len())).then_some(rows)
}

/// Whether there is such a row.
pub(crate) fn is_row<T>(rows: &[T], number: u32) -> bool {
    (number as usize) < rows.len()
}

/// Whether a word is 0 or one more than the number of a row.
pub(crate) fn is_row_or_none<T>(rows: &[T], word: u32) -> bool {
    word as usize <= rows.len()
}

/// Whether a range ends within the table.
pub(crate) fn within<T>(rows: &[T], first: u32, count: u32) -> bool {
    first as usize + count as usize <= rows.len()
}
