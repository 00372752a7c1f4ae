//! Ladlehedge's entries as safe functions, over the static library that `rt lib` in `crates/ladlehedge`
//! makes.
//!
//! * [`Tables`]: what every entry is lent, as slices. docs/TABLES.md says what the words mean.
//! * [`table_check`]: whether the tables are lawful.
//! * [`depth_check`]: how deep the operation nests lists.
//! * [`run`], [`run_ordered`]: the operation run into two lent buffers, in document order or in a given
//!   one. A [`Run`] has the data's text and the error records, each with its path by name.
//!
//! Any bytes and any words may be lent, lawful or not. An entry keeps nothing, writes nowhere but to the
//! buffers of a run, has no state and takes nothing from a heap; several threads may call at once. It
//! ends on every input, though not always soon: docs/LINKING.md says which tables take long.
//!
//! ```
//! use ladlehedge::{depth_check, run, table_check, Refusal, Tables};
//!
//! // The twelve reserved names and one type, `Query`, one behind the other in the pool.
//! let texts = [
//!     "__typename", "Int", "Float", "String", "Boolean", "ID", "__schema", "__type", "fields",
//!     "interfaces", "possibleTypes", "inputFields", "Query",
//! ];
//! let (mut pool, mut names) = (Vec::new(), Vec::new());
//! for text in texts {
//!     names.extend([pool.len() as u32, text.len() as u32]);
//!     pool.extend(text.bytes());
//! }
//! let tables = Tables {
//!     pool: &pool,
//!     names: &names,
//!     types: &[12, 2, 0, 0, 0, 0],   // type 0 is the object type `Query`, without fields
//!     sets: &[0, 0],                 // the operation selects nothing
//!     answers: &[4, 0, 12, 0, 0],    // and the root's answer has no fields
//!     root: 0,
//!     ..Tables::default()
//! };
//! assert_eq!(table_check(&tables), Ok(()));
//! assert_eq!(depth_check(&tables), Ok(0));
//!
//! let (mut text, mut errors) = ([0; 64], [0; 16]);
//! let answer = run(&tables, &mut text, &mut errors)?;
//! assert_eq!(answer.data(), "{}");
//! assert_eq!(answer.errors().count(), 0);
//!
//! let no_such_root = Tables { root: 1, ..tables };
//! assert_eq!(table_check(&no_such_root), Err(Refusal::Unlawful));
//! # Ok::<(), Refusal>(())
//! ```

mod run;

pub use run::{run, run_ordered, Errors, Path, Record, Run, Segment};

use std::error::Error;
use std::fmt;

/// The sixteen things that every entry is lent, in the order of docs/TABLES.md. The default lends
/// nothing.
#[derive(Debug, Clone, Copy, Default, PartialEq, Eq)]
pub struct Tables<'a> {
    pub pool: &'a [u8],
    pub names: &'a [u32],
    pub type_refs: &'a [u32],
    pub types: &'a [u32],
    pub members: &'a [u32],
    pub fields: &'a [u32],
    pub arguments: &'a [u32],
    pub sets: &'a [u32],
    pub selections: &'a [u32],
    pub given: &'a [u32],
    pub fragments: &'a [u32],
    pub nodes: &'a [u32],
    pub literals: &'a [u32],
    pub variables: &'a [u32],
    pub answers: &'a [u32],
    pub root: u32,
}

impl<'a> Tables<'a> {
    /// The pool, the fourteen tables of words in the order in which they stand above, and the root.
    pub fn in_order(pool: &'a [u8], words: [&'a [u32]; 14], root: u32) -> Self {
        #[rustfmt::skip]
        let [
            names, type_refs, types, members, fields, arguments, sets,
            selections, given, fragments, nodes, literals, variables, answers,
        ] = words;
        Tables {
            pool,
            names,
            type_refs,
            types,
            members,
            fields,
            arguments,
            sets,
            selections,
            given,
            fragments,
            nodes,
            literals,
            variables,
            answers,
            root,
        }
    }
}

/// Why an entry has no answer.
#[derive(Debug, Clone, Copy, PartialEq, Eq, Hash)]
#[non_exhaustive]
pub enum Refusal {
    /// Code 1: a table breaks a rule; of a run, or a buffer or the choices are too long.
    Unlawful,
    /// Code 2, of a run: a selection asks for `__schema` or `__type`.
    AsksForSchema,
    /// Code 3: a path over 32 segments, or a 33rd open container, fragment or set.
    TooFar,
    /// Code 4, of a run: a 129th field is collected for one set.
    TooManyFields,
    /// Code 5, of a run: a variable inside a literal that converts part by part.
    VariableInLiteral,
    /// Code 6, of a run: the text buffer is too short for the data.
    TextTooLong,
    /// Code 7, of a run: the error buffer is too short for the error records.
    RecordsTooLong,
    /// Code 8, of a depth check: too deep. The place is that of the field or of the spread.
    TooDeep { place: u32 },
}

impl Refusal {
    /// The number that docs/LINKING.md and include/ladlehedge.h have for it.
    pub fn code(self) -> u32 {
        match self {
            Refusal::Unlawful => 1,
            Refusal::AsksForSchema => 2,
            Refusal::TooFar => 3,
            Refusal::TooManyFields => 4,
            Refusal::VariableInLiteral => 5,
            Refusal::TextTooLong => 6,
            Refusal::RecordsTooLong => 7,
            Refusal::TooDeep { .. } => 8,
        }
    }
}

impl fmt::Display for Refusal {
    fn fmt(&self, f: &mut fmt::Formatter<'_>) -> fmt::Result {
        match self {
            Refusal::Unlawful => f.write_str("a table breaks a rule, or a buffer is too long"),
            Refusal::AsksForSchema => f.write_str("a selection asks for __schema or __type"),
            Refusal::TooFar => {
                f.write_str("a path over 32 segments, or a 33rd open container, fragment or set")
            }
            Refusal::TooManyFields => f.write_str("a 129th field is collected for one set"),
            Refusal::VariableInLiteral => {
                f.write_str("a variable inside a literal that converts part by part")
            }
            Refusal::TextTooLong => f.write_str("the text buffer is too short"),
            Refusal::RecordsTooLong => f.write_str("the error buffer is too short"),
            Refusal::TooDeep { place } => write!(f, "too deep, at place {place}"),
        }
    }
}

impl Error for Refusal {}

/// Declares entries: the sixteen things, a slice as a pointer and a length, then an entry's own
/// parameters. The C side of the same is include/ladlehedge.h.
macro_rules! entries {
    ($(fn $entry:ident($($own:ident: $own_type:ty),*);)*) => {
        extern "C" {
            $(
                fn $entry(
                    pool: *const u8,
                    pool_length: usize,
                    names: *const u32,
                    names_length: usize,
                    type_refs: *const u32,
                    type_refs_length: usize,
                    types: *const u32,
                    types_length: usize,
                    members: *const u32,
                    members_length: usize,
                    fields: *const u32,
                    fields_length: usize,
                    arguments: *const u32,
                    arguments_length: usize,
                    sets: *const u32,
                    sets_length: usize,
                    selections: *const u32,
                    selections_length: usize,
                    given: *const u32,
                    given_length: usize,
                    fragments: *const u32,
                    fragments_length: usize,
                    nodes: *const u32,
                    nodes_length: usize,
                    literals: *const u32,
                    literals_length: usize,
                    variables: *const u32,
                    variables_length: usize,
                    answers: *const u32,
                    answers_length: usize,
                    root: u32,
                    $($own: $own_type),*
                ) -> u32;
            )*
        }
    };
}

entries! {
    fn ladlehedge_table_check();
    fn ladlehedge_depth_check(depth: *mut u32, place: *mut u32);
    fn ladlehedge_run(
        text: *mut u8,
        text_length: usize,
        errors: *mut u32,
        errors_length: usize,
        bytes: *mut u32,
        words: *mut u32,
        records: *mut u32
    );
    fn ladlehedge_run_ordered(
        choices: *const u32,
        choices_length: usize,
        text: *mut u8,
        text_length: usize,
        errors: *mut u32,
        errors_length: usize,
        bytes: *mut u32,
        words: *mut u32,
        records: *mut u32
    );
}

/// Calls an entry with the tables and its own arguments.
///
/// An entry asks for slices, by pointer and length, and for nothing else of them: a slice's pointer is
/// aligned and not null even when it is empty, and the slices are borrowed, so that nothing changes
/// before the call returns. No entry keeps a pointer.
macro_rules! call {
    ($entry:ident, $tables:expr $(, $own:expr)*) => {{
        let tables: &Tables<'_> = $tables;
        $entry(
            tables.pool.as_ptr(),
            tables.pool.len(),
            tables.names.as_ptr(),
            tables.names.len(),
            tables.type_refs.as_ptr(),
            tables.type_refs.len(),
            tables.types.as_ptr(),
            tables.types.len(),
            tables.members.as_ptr(),
            tables.members.len(),
            tables.fields.as_ptr(),
            tables.fields.len(),
            tables.arguments.as_ptr(),
            tables.arguments.len(),
            tables.sets.as_ptr(),
            tables.sets.len(),
            tables.selections.as_ptr(),
            tables.selections.len(),
            tables.given.as_ptr(),
            tables.given.len(),
            tables.fragments.as_ptr(),
            tables.fragments.len(),
            tables.nodes.as_ptr(),
            tables.nodes.len(),
            tables.literals.as_ptr(),
            tables.literals.len(),
            tables.variables.as_ptr(),
            tables.variables.len(),
            tables.answers.as_ptr(),
            tables.answers.len(),
            tables.root,
            $($own),*
        )
    }};
}
pub(crate) use call;

/// The table check: an error, which is [`Refusal::Unlawful`], where a table breaks a rule.
pub fn table_check(tables: &Tables<'_>) -> Result<(), Refusal> {
    // SAFETY: the tables are borrowed, as `call` wants them; there is nothing else.
    let code = unsafe { call!(ladlehedge_table_check, tables) };
    match code {
        0 => Ok(()),
        1 => Err(Refusal::Unlawful),
        code => unreachable!("a table check has no code {code}"),
    }
}

/// The depth check: how deep the operation nests the fields `fields`, `interfaces`, `possibleTypes`
/// and `inputFields`, 0 to 2. It makes a table check first, so that need not be asked before.
pub fn depth_check(tables: &Tables<'_>) -> Result<u32, Refusal> {
    // Both are written whatever the code is: one that is not would show.
    let (mut depth, mut place) = (u32::MAX, u32::MAX);
    // SAFETY: the tables are borrowed, as `call` wants them. The two pointers lead to numbers of
    // this function's own: aligned, with a value, apart from each other and from the tables.
    let code = unsafe { call!(ladlehedge_depth_check, tables, &mut depth, &mut place) };
    match (code, depth, place) {
        (0, depth, 0) => Ok(depth),
        (1, 0, 0) => Err(Refusal::Unlawful),
        (3, 0, 0) => Err(Refusal::TooFar),
        (8, 0, place) => Err(Refusal::TooDeep { place }),
        answer => unreachable!("a depth check has no answer {answer:?}"),
    }
}
