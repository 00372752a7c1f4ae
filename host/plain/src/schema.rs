//! The rules for type references, arguments, fields and types.

use crate::notes::{Apart, Closed, Names, NotingNames};
use crate::rows::{is_row, is_row_or_none, within, Rows};
use tables::layout::{type_kind, TYPENAME};

pub(crate) fn type_refs_are_lawful(rows: &Rows<'_>) -> bool {
    let row_is_lawful = |(row, &[kind, non_null, target]): (usize, &[u32; 3])| {
        let most = if kind == 0 { rows.names.len() } else { row };
        kind <= 1 && non_null <= 1 && (target as usize) < most
    };
    rows.type_refs.iter().enumerate().all(row_is_lawful)
}

pub(crate) fn arguments_are_lawful(rows: &Rows<'_>, closed: &Closed, apart: &mut Apart) -> bool {
    let mut noting = NotingNames::new(apart);
    for (row, &[name, type_ref, default, _]) in rows.arguments.iter().enumerate().rev() {
        if !definition_is_lawful(rows, closed, name, type_ref, default) {
            return false;
        }
        noting.note(row, name);
    }
    true
}

/// What a field and an argument have in common.
fn definition_is_lawful(
    rows: &Rows<'_>,
    closed: &Closed,
    name: u32,
    type_ref: u32,
    default: u32,
) -> bool {
    is_row(rows.names, name)
        && is_row(rows.type_refs, type_ref)
        && is_row_or_none(rows.literals, default)
        && closed.has_default(default)
}

pub(crate) fn fields_are_lawful(
    rows: &Rows<'_>,
    closed: &Closed,
    arguments: &Apart,
    apart: &mut Apart,
) -> bool {
    let mut noting = NotingNames::new(apart);
    for (row, &[name, type_ref, default, _, first, count]) in rows.fields.iter().enumerate().rev() {
        let fits = definition_is_lawful(rows, closed, name, type_ref, default)
            && name != TYPENAME
            && within(rows.arguments, first, count)
            && arguments.has(first, count);
        if !fits {
            return false;
        }
        noting.note(row, name);
    }
    true
}

pub(crate) fn types_are_lawful(rows: &Rows<'_>, fields: &Apart) -> bool {
    let mut names = Names::new();
    let mut type_is_lawful = |&[name, kind, field, field_count, member, member_count]: &[u32;
                                   6]| {
        is_row(rows.names, name)
            && names.add(name)
            && (field_count == 0 || may_have_fields(kind))
            && (member_count == 0 || may_have_members(kind))
            && kind <= type_kind::INPUT_OBJECT
            && within(rows.fields, field, field_count)
            && within(rows.members, member, member_count)
            && fields.has(field, field_count)
    };
    rows.types.iter().all(&mut type_is_lawful)
        && rows.members.iter().all(|name| is_row(rows.names, *name))
        && rows.types.get(rows.root as usize).is_some_and(|row| row[1] == type_kind::OBJECT)
}

fn may_have_fields(kind: u32) -> bool {
    matches!(kind, type_kind::OBJECT | type_kind::INTERFACE | type_kind::INPUT_OBJECT)
}

fn may_have_members(kind: u32) -> bool {
    !matches!(kind, type_kind::SCALAR | type_kind::INPUT_OBJECT)
}
