//! Locations. There is no source text here: a location is a place of the tables, carried through
//! the Rust unchanged.

/// Where something stands: a place of the tables.
#[derive(Debug, Clone, Copy, PartialEq, Eq)]
pub struct SourceSpan {
    pub place: u32,
}

/// The Rust turns a location into line and column by its sources; ours needs none.
#[derive(Debug, Clone, Default)]
pub struct SourceMap;
