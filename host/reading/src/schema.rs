//! Lookups by name in the tables.

use tables::layout::{type_kind, TYPENAME};
use tables::rows::{FieldRow, Range, TypeRow};
use tables::Tables;

/// The type of a name.
pub(crate) fn type_named(tables: &Tables, name: u32) -> Option<TypeRow> {
    (0..tables.type_count()).map(|row| tables.type_row(row)).find(|row| row.name == name)
}

pub(crate) fn lists(tables: &Tables, members: Range, name: u32) -> bool {
    members.rows().any(|row| tables.member(row) == name)
}

/// What a field is on an object: one of its own, or `__typename`, which has the type `String!` and
/// no arguments.
pub(crate) enum Definition {
    Own(FieldRow),
    TypeName,
}

pub(crate) fn definition(tables: &Tables, object: TypeRow, name: u32) -> Option<Definition> {
    if name == TYPENAME {
        return Some(Definition::TypeName);
    }
    let mut fields = object.fields.rows().map(|row| tables.field(row));
    fields.find(|field| field.name == name).map(Definition::Own)
}

/// Whether a fragment on a type applies to an object.
pub(crate) fn does_fragment_type_apply(tables: &Tables, object: TypeRow, condition: u32) -> bool {
    let Some(ty) = type_named(tables, condition) else { return false };
    match ty.kind {
        type_kind::OBJECT => ty.name == object.name,
        type_kind::INTERFACE => lists(tables, object.members, ty.name),
        type_kind::UNION => lists(tables, ty.members, object.name),
        _ => false,
    }
}
