//! Asking the Rust through the tables.

use crate::answers::Run;
use crate::errors;
use crate::introspection;
use crate::resolvers;
use crate::response::{GraphQLError, ResponseDataPathSegment};
use crate::translate::translate;
use reading::code;
use std::collections::HashMap;
use std::fmt;
use tables::layout::{limit, width, SCHEMA, TYPE};
use tables::room::with_room;
use tables::rows::{SelectionKind, Value};
use tables::{rules, ErrorRecord, Segment, Tables};

/// The most rows that values and documents may unfold to: rows may be shared, and then grow with
/// each level.
const VALUE_SIZE: u64 = 1_000_000;

/// A run in document order, answered 0.
#[derive(Debug, Clone, PartialEq, Eq)]
pub struct Answered {
    /// Compact JSON text.
    pub data: String,
    pub errors: Vec<ErrorRecord>,
}

/// A depth check, answered 0 or 8.
#[derive(Debug, Clone, Copy, PartialEq, Eq)]
pub enum Depth {
    Fine(u32),
    TooDeep { place: u32 },
}

/// The answer as the reading gives it.
impl From<Depth> for reading::Depth {
    fn from(answer: Depth) -> Self {
        match answer {
            Depth::Fine(depth) => reading::Depth { code: code::ANSWERED, depth, place: 0 },
            Depth::TooDeep { place } => reading::Depth { code: code::TOO_DEEP, depth: 0, place },
        }
    }
}

/// Why the Rust can say nothing.
#[derive(Debug, Clone, PartialEq, Eq)]
pub enum CannotJudge {
    /// The tables break a rule (code 1).
    Rule(String),
    /// The document asks for `__schema` or `__type` (code 2).
    Introspection,
    /// A field or an item was asked for at a path of more than 32 segments (code 3).
    LongPath,
    /// A depth check has 33 sets open (code 3). The Rust may go on without end and is not asked: that
    /// it is so is known from the reading alone.
    OpenSets,
    /// More work than the judge does.
    Work,
    /// Shared rows unfold to more than a million.
    Size,
    /// The Rust's message has no code in document 01: a variable inside a literal that converts
    /// part by part (code 5), or a float literal that is no finite double.
    NoCode(String),
}

impl fmt::Display for CannotJudge {
    fn fmt(&self, f: &mut fmt::Formatter<'_>) -> fmt::Result {
        match self {
            CannotJudge::Rule(what) => write!(f, "the tables break a rule: {what}"),
            CannotJudge::Introspection => write!(f, "a field is named __schema or __type"),
            CannotJudge::LongPath => write!(f, "a path of more than {} segments", limit::OPEN),
            CannotJudge::OpenSets => {
                write!(f, "more than {} open sets, by the reading alone", limit::OPEN)
            }
            CannotJudge::Work => write!(f, "more work than the judge does"),
            CannotJudge::Size => write!(f, "rows that unfold to more than {VALUE_SIZE}"),
            CannotJudge::NoCode(message) => write!(f, "a message without a code: {message}"),
        }
    }
}

/// What the Rust answers to a run in document order.
pub fn run(tables: &Tables) -> Result<Answered, CannotJudge> {
    rules::check(tables).map_err(CannotJudge::Rule)?;
    if asks_for_introspection(tables) {
        return Err(CannotJudge::Introspection);
    }
    with_room(|| run_lawful(tables))
}

/// What the Rust answers to a depth check.
pub fn depth(tables: &Tables) -> Result<Depth, CannotJudge> {
    rules::check(tables).map_err(CannotJudge::Rule)?;
    // The Rust marks a fragment only when it is through with it, so it never ends where a fragment
    // leads back to itself without a field that counts. Document 01 has it stop at the 33rd open
    // set: where the reading says that it is reached, the Rust is not asked.
    if reading::depth(tables).code == code::LIMIT {
        return Err(CannotJudge::OpenSets);
    }
    with_room(|| {
        demand_small_document(tables)?;
        let translated = translate(tables);
        let found =
            introspection::max_depth(&translated.document, &translated.operation.selection_set);
        Ok(match found {
            Ok(depth) => Depth::Fine(depth),
            Err(refused) => {
                let location = refused.location.expect("a selection has a place");
                Depth::TooDeep { place: location.place }
            }
        })
    })
}

fn asks_for_introspection(tables: &Tables) -> bool {
    (0..tables.selection_count()).any(|row| {
        matches!(tables.selection(row).kind,
            SelectionKind::Field { name, .. } if matches!(name, SCHEMA | TYPE))
    })
}

fn run_lawful(tables: &Tables) -> Result<Answered, CannotJudge> {
    let node_sizes = sizes(tables.node_count(), |row| tables.node(row));
    let mut variables = (0..tables.variable_count()).map(|row| tables.variable(row).1);
    if variables.any(|node| node_sizes[node as usize] > VALUE_SIZE) {
        return Err(CannotJudge::Size);
    }
    demand_small_document(tables)?;
    let translated = translate(tables);
    let root_name = tables.name(tables.type_row(tables.root).name);
    let root_type = translated.schema.get_object(root_name).expect("the root is an object type");
    let run = Run::new(tables, &node_sizes);
    let (data, errors) = resolvers::execute(
        &translated.schema,
        &translated.document,
        &translated.operation,
        &translated.variables,
        root_type,
        &run.root(),
    );
    if let Some(reason) = run.stopped() {
        return Err(reason);
    }
    let names = (0..tables.name_count()).map(|number| (tables.name(number), number)).collect();
    Ok(Answered {
        data: data.map_or_else(|| "null".into(), |data| data.to_string()),
        errors: errors.iter().map(|error| record(error, &names)).collect::<Result<_, _>>()?,
    })
}

fn record(error: &GraphQLError, names: &HashMap<&str, u32>) -> Result<ErrorRecord, CannotJudge> {
    if error.path.len() > limit::OPEN {
        return Err(CannotJudge::LongPath);
    }
    let code = errors::code(&error.message);
    let code = code.ok_or_else(|| CannotJudge::NoCode(error.message.clone()))?;
    let path = error.path.iter().map(|segment| match segment {
        ResponseDataPathSegment::Field(name) => Segment::Name(names[name.as_str()]),
        ResponseDataPathSegment::ListIndex(index) => Segment::Index(*index as u32),
    });
    let place = error.locations.first().expect("every error has a place").place;
    Ok(ErrorRecord { code, place, path: path.collect() })
}

/// How many rows each value unfolds to. Children come later, so it goes from the last to the first.
fn sizes(count: u32, value: impl Fn(u32) -> Value) -> Vec<u64> {
    let mut sizes = vec![1u64; count as usize];
    for row in (0..count).rev() {
        if let Value::List(range) | Value::Object(range) = value(row) {
            let below = range.rows().map(|child| sizes[child as usize]);
            sizes[row as usize] = below.fold(1, u64::saturating_add);
        }
    }
    sizes
}

/// Literals and selections are unfolded before the Rust is asked.
fn demand_small_document(tables: &Tables) -> Result<(), CannotJudge> {
    let literals = sizes(tables.literal_count(), |row| tables.literal(row));
    let sizes = literals.into_iter().chain(set_sizes(tables));
    if sizes.fold(0, u64::saturating_add) > VALUE_SIZE {
        return Err(CannotJudge::Size);
    }
    Ok(())
}

/// How many selections each set unfolds to. A child set has a larger number than its parent; a
/// selection that stands in two sets is unfolded in both.
fn set_sizes(tables: &Tables) -> Vec<u64> {
    let count = tables.sets.len() / width::SETS;
    let mut sizes = vec![0u64; count];
    for set in (0..count).rev() {
        let below = tables.set(set as u32).rows().map(|row| match tables.selection(row).kind {
            SelectionKind::Field { set: Some(set), .. } | SelectionKind::Inline { set, .. } => {
                sizes[set as usize]
            }
            _ => 0,
        });
        sizes[set] = below.fold(0, |total, size| total.saturating_add(1).saturating_add(size));
    }
    sizes
}
