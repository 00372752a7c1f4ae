//! The rules of document 01 for tables (code 1 where one is broken).
//!
//! This is for testing what is generated and what the oracle is asked, not a second table check:
//! it says the first broken rule it finds, in no particular order.

use crate::layout::{answer_kind, condition, limit, selection_kind, type_kind, value_kind, width};
use crate::layout::{RESERVED, TYPENAME};
use crate::rows::{Answer, Range, SelectionKind, Shape, Span, Tables, Value};
use std::collections::HashSet;
use std::hash::Hash;

/// What is wrong, in words.
pub type Broken = String;

pub fn check(tables: &Tables) -> Result<(), Broken> {
    check_sizes(tables)?;
    check_names(tables)?;
    check_type_refs(tables)?;
    check_literals(tables)?;
    check_arguments(tables)?;
    check_fields(tables)?;
    check_types(tables)?;
    check_selections(tables)?;
    check_owners(tables)?;
    check_nodes(tables)?;
    check_variables(tables)?;
    check_answers(tables)
}

fn demand(holds: bool, what: impl FnOnce() -> Broken) -> Result<(), Broken> {
    if holds {
        Ok(())
    } else {
        Err(what())
    }
}

fn distinct<T: Eq + Hash>(items: impl Iterator<Item = T>, what: &str) -> Result<(), Broken> {
    let mut seen = HashSet::new();
    for item in items {
        demand(seen.insert(item), || format!("{what} are not distinct"))?;
    }
    Ok(())
}

fn count(table: &[u32], width: usize) -> u32 {
    (table.len() / width) as u32
}

fn check_sizes(t: &Tables) -> Result<(), Broken> {
    demand(t.pool.len() <= limit::POOL, || "the pool is too long".into())?;
    let any = usize::MAX;
    let tables = [
        ("names", &t.names, width::NAMES, RESERVED.len(), limit::NAMES),
        ("type_refs", &t.type_refs, width::TYPE_REFS, 0, limit::TYPE_REFS),
        ("types", &t.types, width::TYPES, 0, limit::TYPES),
        ("members", &t.members, width::MEMBERS, 0, any),
        ("fields", &t.fields, width::FIELDS, 0, limit::FIELDS),
        ("arguments", &t.arguments, width::ARGUMENTS, 0, limit::ARGUMENTS),
        ("sets", &t.sets, width::SETS, 1, any),
        ("selections", &t.selections, width::SELECTIONS, 0, limit::SELECTIONS),
        ("given", &t.given, width::GIVEN, 0, any),
        ("fragments", &t.fragments, width::FRAGMENTS, 0, limit::FRAGMENTS),
        ("nodes", &t.nodes, width::NODES, 0, limit::NODES),
        ("literals", &t.literals, width::LITERALS, 0, limit::LITERALS),
        ("variables", &t.variables, width::VARIABLES, 0, limit::VARIABLES),
        ("answers", &t.answers, width::ANSWERS, 1, limit::ANSWERS),
    ];
    for (name, table, width, least, most) in tables {
        demand(table.len() % width == 0, || format!("{name} ends within a row"))?;
        let rows = table.len() / width;
        demand(rows >= least && rows <= most, || format!("{name} has {rows} rows"))?;
    }
    Ok(())
}

fn check_name(t: &Tables, number: u32) -> Result<(), Broken> {
    demand(number < t.name_count(), || format!("there is no name {number}"))
}

fn check_condition(t: &Tables, word: u32) -> Result<(), Broken> {
    match word.checked_sub(condition::VARIABLE) {
        Some(name) => check_name(t, name),
        None => Ok(()),
    }
}

fn check_range(range: Range, rows: u32, what: &str) -> Result<(), Broken> {
    let end = range.first.checked_add(range.count);
    demand(end.is_some_and(|end| end <= rows), || format!("a range ends outside of {what}"))
}

fn check_span(t: &Tables, span: Span) -> Result<(), Broken> {
    let end = u64::from(span.start) + u64::from(span.length);
    demand(end <= t.pool.len() as u64, || "a string ends outside of the pool".into())?;
    demand(std::str::from_utf8(t.bytes(span)).is_ok(), || "a string is not UTF-8".into())
}

fn check_names(t: &Tables) -> Result<(), Broken> {
    for number in 0..t.name_count() {
        let span = t.name_span(number);
        check_span(t, span)?;
        let name = t.bytes(span);
        let fits = (1..=limit::NAME_BYTES).contains(&name.len())
            && !name[0].is_ascii_digit()
            && name.iter().all(|byte| byte.is_ascii_alphanumeric() || *byte == b'_');
        demand(fits, || format!("name {number} is no name"))?;
    }
    for (number, reserved) in RESERVED.iter().enumerate() {
        demand(t.name(number as u32) == *reserved, || format!("name {number} is not {reserved}"))?;
    }
    distinct((0..t.name_count()).map(|number| t.name(number)), "names")
}

fn check_type_refs(t: &Tables) -> Result<(), Broken> {
    for (number, row) in t.type_refs.chunks_exact(width::TYPE_REFS).enumerate() {
        let number = number as u32;
        demand(row[0] <= 1 && row[1] <= 1, || format!("type reference {number} is of no kind"))?;
        match t.type_ref(number).shape {
            Shape::Named(name) => check_name(t, name)?,
            Shape::List(inner) => {
                demand(inner < number, || format!("type reference {number} leads on"))?
            }
        }
    }
    Ok(())
}

fn check_type_ref(t: &Tables, number: u32) -> Result<(), Broken> {
    let rows = count(&t.type_refs, width::TYPE_REFS);
    demand(number < rows, || format!("there is no type reference {number}"))
}

/// A default is a literal without a variable.
fn check_default(t: &Tables, default: Option<u32>) -> Result<(), Broken> {
    let Some(literal) = default else { return Ok(()) };
    demand(literal < t.literal_count(), || format!("there is no literal {literal}"))?;
    demand(!has_variable(t, literal), || "a default has a variable".into())
}

/// Children come later, so a row is reached at most once by going through the rows in order.
fn has_variable(t: &Tables, literal: u32) -> bool {
    let mut reached = vec![false; t.literal_count() as usize];
    reached[literal as usize] = true;
    for row in literal..t.literal_count() {
        if !reached[row as usize] {
            continue;
        }
        match t.literal(row) {
            Value::Variable(_) => return true,
            Value::List(range) | Value::Object(range) => {
                range.rows().for_each(|child| reached[child as usize] = true)
            }
            _ => {}
        }
    }
    false
}

fn check_arguments(t: &Tables) -> Result<(), Broken> {
    for number in 0..count(&t.arguments, width::ARGUMENTS) {
        let argument = t.argument(number);
        check_name(t, argument.name)?;
        check_type_ref(t, argument.type_ref)?;
        check_default(t, argument.default)?;
    }
    Ok(())
}

fn check_fields(t: &Tables) -> Result<(), Broken> {
    for number in 0..count(&t.fields, width::FIELDS) {
        let field = t.field(number);
        check_name(t, field.name)?;
        demand(field.name != TYPENAME, || "a field is named __typename".into())?;
        check_type_ref(t, field.type_ref)?;
        check_default(t, field.default)?;
        check_range(field.arguments, count(&t.arguments, width::ARGUMENTS), "arguments")?;
        let names = field.arguments.rows().map(|row| t.argument(row).name);
        distinct(names, "the arguments of a field")?;
    }
    Ok(())
}

fn check_types(t: &Tables) -> Result<(), Broken> {
    for member in &t.members {
        check_name(t, *member)?;
    }
    for number in 0..t.type_count() {
        let row = t.type_row(number);
        check_name(t, row.name)?;
        demand(row.kind <= type_kind::INPUT_OBJECT, || format!("type {number} is of no kind"))?;
        check_range(row.fields, count(&t.fields, width::FIELDS), "fields")?;
        check_range(row.members, t.members.len() as u32, "members")?;
        let composite = matches!(row.kind, type_kind::OBJECT | type_kind::INTERFACE);
        let may_have_fields = composite || row.kind == type_kind::INPUT_OBJECT;
        let may_have_members = composite || matches!(row.kind, type_kind::ENUM | type_kind::UNION);
        let fits = (may_have_fields || row.fields.count == 0)
            && (may_have_members || row.members.count == 0);
        demand(fits, || format!("type {number} has what its kind may not have"))?;
        distinct(row.fields.rows().map(|row| t.field(row).name), "the fields of a type")?;
    }
    distinct((0..t.type_count()).map(|row| t.type_row(row).name), "types")?;
    let root_is_object = t.root < t.type_count() && t.type_row(t.root).kind == type_kind::OBJECT;
    demand(root_is_object, || "the root is no object type".into())
}

fn check_selections(t: &Tables) -> Result<(), Broken> {
    for (number, row) in t.selections.chunks_exact(width::SELECTIONS).enumerate() {
        let kind = row[0];
        demand(kind <= selection_kind::INLINE, || format!("selection {number} is of no kind"))?;
        check_condition(t, row[1])?;
        check_condition(t, row[2])?;
        match t.selection(number as u32).kind {
            SelectionKind::Field { name, key, given, attached, .. } => {
                check_name(t, name)?;
                check_name(t, key)?;
                check_type_ref(t, attached)?;
                check_range(given, count(&t.given, width::GIVEN), "given")?;
                let names = given.rows().map(|row| t.given_argument(row).0);
                distinct(names, "the arguments of a selection")?;
            }
            SelectionKind::Spread { fragment } => check_name(t, fragment)?,
            SelectionKind::Inline { condition, .. } => {
                condition.map_or(Ok(()), |name| check_name(t, name))?
            }
        }
    }
    for number in 0..count(&t.given, width::GIVEN) {
        let (name, literal) = t.given_argument(number);
        check_name(t, name)?;
        demand(literal < t.literal_count(), || format!("there is no literal {literal}"))?;
    }
    for number in 0..t.fragment_count() {
        check_name(t, t.fragment(number).name)?;
        check_name(t, t.fragment(number).condition)?;
    }
    distinct((0..t.fragment_count()).map(|row| t.fragment(row).name), "fragments")
}

/// The set below a selection, if any.
fn child_set(t: &Tables, selection: u32) -> Option<u32> {
    match t.selection(selection).kind {
        SelectionKind::Field { set, .. } => set,
        SelectionKind::Spread { .. } => None,
        SelectionKind::Inline { set, .. } => Some(set),
    }
}

/// No set belongs to two owners, and a child set has a larger number than its parent.
fn check_owners(t: &Tables) -> Result<(), Broken> {
    let sets = count(&t.sets, width::SETS);
    let children = (0..t.selection_count()).filter_map(|row| child_set(t, row));
    let fragments = (0..t.fragment_count()).map(|row| t.fragment(row).set);
    let owned: Vec<u32> = std::iter::once(0).chain(children).chain(fragments).collect();
    for set in &owned {
        demand(*set < sets, || format!("there is no set {set}"))?;
    }
    distinct(owned.iter(), "the owned sets")?;
    for set in 0..sets {
        check_range(t.set(set), t.selection_count(), "selections")?;
        for child in t.set(set).rows().filter_map(|row| child_set(t, row)) {
            demand(child > set, || format!("set {set} has the child {child}"))?;
        }
    }
    Ok(())
}

/// A number of RFC 8259 that has a fraction or an exponent.
pub fn is_float_spelling(text: &[u8]) -> bool {
    fn digits(text: &[u8]) -> Option<&[u8]> {
        let length = text.iter().take_while(|byte| byte.is_ascii_digit()).count();
        (length > 0).then(|| &text[length..])
    }
    let unsigned = text.strip_prefix(b"-").unwrap_or(text);
    let Some(after) = digits(unsigned) else { return false };
    if unsigned[0] == b'0' && unsigned.len() - after.len() > 1 {
        return false;
    }
    let mut rest = after;
    if let Some(fraction) = rest.strip_prefix(b".") {
        let Some(after) = digits(fraction) else { return false };
        rest = after;
    }
    if let [b'e' | b'E', exponent @ ..] = rest {
        let unsigned = match exponent {
            [b'+' | b'-', digits @ ..] => digits,
            digits => digits,
        };
        let Some(after) = digits(unsigned) else { return false };
        rest = after;
    }
    rest.is_empty() && rest.len() < after.len()
}

fn check_value(t: &Tables, value: Value, row: u32, rows: u32) -> Result<(), Broken> {
    match value {
        Value::Float(span) => {
            check_span(t, span)?;
            demand(is_float_spelling(t.bytes(span)), || "a float is misspelled".into())
        }
        Value::String(span) => check_span(t, span),
        Value::List(range) | Value::Object(range) => {
            check_range(range, rows, "nodes or literals")?;
            let later = range.count == 0 || range.first > row;
            demand(later, || "a child comes earlier".into())
        }
        Value::Enum(name) | Value::Variable(name) => check_name(t, name),
        _ => Ok(()),
    }
}

fn check_nodes(t: &Tables) -> Result<(), Broken> {
    for (number, row) in t.nodes.chunks_exact(width::NODES).enumerate() {
        demand(row[0] <= value_kind::OBJECT, || format!("node {number} is of no kind"))?;
        let number = number as u32;
        check_span(t, t.node_key(number))?;
        check_value(t, t.node(number), number, t.node_count())?;
        if let Value::Negative(magnitude) = t.node(number) {
            let fits = (1..=1 << 63).contains(&magnitude);
            demand(fits, || format!("node {number} is out of range"))?;
        }
    }
    for number in 0..t.node_count() {
        if let Value::Object(range) = t.node(number) {
            distinct(range.rows().map(|row| t.bytes(t.node_key(row))), "the keys of a node")?;
        }
    }
    Ok(())
}

fn check_literals(t: &Tables) -> Result<(), Broken> {
    for (number, row) in t.literals.chunks_exact(width::LITERALS).enumerate() {
        demand(row[0] <= value_kind::VARIABLE, || format!("literal {number} is of no kind"))?;
        let number = number as u32;
        check_name(t, t.literal_key(number))?;
        check_value(t, t.literal(number), number, t.literal_count())?;
        let fits = match t.literal(number) {
            Value::Unsigned(value) => value < 1 << 31,
            Value::Negative(magnitude) => (1..=1 << 31).contains(&magnitude),
            _ => true,
        };
        demand(fits, || format!("literal {number} is out of range"))?;
    }
    for number in 0..t.literal_count() {
        if let Value::Object(range) = t.literal(number) {
            distinct(range.rows().map(|row| t.literal_key(row)), "the keys of a literal")?;
        }
    }
    Ok(())
}

fn check_variables(t: &Tables) -> Result<(), Broken> {
    for number in 0..t.variable_count() {
        let (name, node) = t.variable(number);
        check_name(t, name)?;
        demand(node < t.node_count(), || format!("there is no node {node}"))?;
    }
    distinct((0..t.variable_count()).map(|row| t.variable(row).0), "variables")
}

fn check_answers(t: &Tables) -> Result<(), Broken> {
    for (number, row) in t.answers.chunks_exact(width::ANSWERS).enumerate() {
        demand(row[0] <= answer_kind::ECHO, || format!("answer {number} is of no kind"))?;
        check_name(t, row[1])?;
        match t.answer(number as u32) {
            Answer::Skip | Answer::Error => {}
            Answer::Leaf(node) => {
                demand(node < t.node_count(), || format!("there is no node {node}"))?
            }
            Answer::List(range) => check_range(range, t.answer_count(), "answers")?,
            Answer::Object { type_name, fields } => {
                check_name(t, type_name)?;
                check_range(fields, t.answer_count(), "answers")?;
                let names = fields.rows().map(|row| t.answer_field(row));
                distinct(names, "the fields of an answer")?;
            }
            Answer::Echo(name) => check_name(t, name)?,
        }
    }
    let root_is_object = matches!(t.answer(0), Answer::Object { .. });
    demand(root_is_object, || "the first answer is no object".into())
}
