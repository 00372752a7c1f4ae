//! Widths, kinds, limits and reserved names. The reader's copy is docs/TABLES.md.

/// Words a row.
pub mod width {
    pub const NAMES: usize = 2;
    pub const TYPE_REFS: usize = 3;
    pub const TYPES: usize = 6;
    pub const MEMBERS: usize = 1;
    pub const FIELDS: usize = 6;
    pub const ARGUMENTS: usize = 4;
    pub const SETS: usize = 2;
    pub const SELECTIONS: usize = 10;
    pub const GIVEN: usize = 2;
    pub const FRAGMENTS: usize = 3;
    pub const NODES: usize = 5;
    pub const LITERALS: usize = 5;
    pub const VARIABLES: usize = 2;
    pub const ANSWERS: usize = 5;
}

/// The most rows that a table may have.
pub mod limit {
    pub const POOL: usize = 65_536;
    pub const NAMES: usize = 512;
    pub const NAME_BYTES: usize = 64;
    pub const TYPE_REFS: usize = 1_024;
    pub const TYPES: usize = 128;
    pub const FIELDS: usize = 1_024;
    pub const ARGUMENTS: usize = 1_024;
    pub const SELECTIONS: usize = 2_048;
    pub const FRAGMENTS: usize = 64;
    pub const NODES: usize = 4_096;
    pub const LITERALS: usize = 1_024;
    pub const VARIABLES: usize = 64;
    pub const ANSWERS: usize = 4_096;

    /// How far a run or a depth check may go: the most segments of a path, containers open in a
    /// leaf or literal, fragments open in a collection, sets open in a depth check.
    pub const OPEN: usize = 32;
    /// The most fields collected for one set.
    pub const COLLECTED: usize = 128;
}

/// Kinds of types.
pub mod type_kind {
    pub const SCALAR: u32 = 0;
    pub const ENUM: u32 = 1;
    pub const OBJECT: u32 = 2;
    pub const INTERFACE: u32 = 3;
    pub const UNION: u32 = 4;
    pub const INPUT_OBJECT: u32 = 5;
}

/// Kinds of selections.
pub mod selection_kind {
    pub const FIELD: u32 = 0;
    pub const SPREAD: u32 = 1;
    pub const INLINE: u32 = 2;
}

/// Kinds of JSON nodes and, all of them, of literals.
pub mod value_kind {
    pub const NULL: u32 = 0;
    pub const FALSE: u32 = 1;
    pub const TRUE: u32 = 2;
    pub const UNSIGNED: u32 = 3;
    pub const NEGATIVE: u32 = 4;
    pub const FLOAT: u32 = 5;
    pub const STRING: u32 = 6;
    pub const LIST: u32 = 7;
    pub const OBJECT: u32 = 8;
    /// Literals only.
    pub const ENUM: u32 = 9;
    /// Literals only.
    pub const VARIABLE: u32 = 10;
}

/// Kinds of answers.
pub mod answer_kind {
    pub const SKIP: u32 = 0;
    pub const ERROR: u32 = 1;
    pub const LEAF: u32 = 2;
    pub const LIST: u32 = 3;
    pub const OBJECT: u32 = 4;
    pub const ECHO: u32 = 5;
}

/// Skip and include: none, a constant, or from [`condition::VARIABLE`] on a name's number.
pub mod condition {
    pub const NONE: u32 = 0;
    pub const FALSE: u32 = 1;
    pub const TRUE: u32 = 2;
    pub const VARIABLE: u32 = 3;
}

/// The names 0 to 11.
pub const RESERVED: [&str; 12] = [
    "__typename",
    "Int",
    "Float",
    "String",
    "Boolean",
    "ID",
    "__schema",
    "__type",
    "fields",
    "interfaces",
    "possibleTypes",
    "inputFields",
];

/// The numbers of reserved names that rules speak of.
pub const TYPENAME: u32 = 0;
pub const SCHEMA: u32 = 6;
pub const TYPE: u32 = 7;
/// The fields that a depth check counts.
pub const DEPTH_FIELDS: std::ops::RangeInclusive<u32> = 8..=11;
