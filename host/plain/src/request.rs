//! The tables of a run, with what is asked of them by name.

use crate::rows::Rows;
use std::ops::Range;
use tables::layout::{limit, type_kind, value_kind, width};

pub(crate) type Answer = [u32; width::ANSWERS];
pub(crate) type Selection = [u32; width::SELECTIONS];
pub(crate) type Type = [u32; width::TYPES];

/// Lawful tables, and rows by their names.
pub(crate) struct Request<'t> {
    pub rows: Rows<'t>,
    /// What each type is.
    whats: [What; limit::TYPES],
    types: ByName,
    fragments: ByName,
    variables: ByName,
}

/// For each name one more than the row that has it, 0 for none. The tables have at most 128 rows.
struct ByName([u8; limit::NAMES]);

impl ByName {
    fn of(names: impl Iterator<Item = u32>) -> Self {
        let mut rows = [0; limit::NAMES];
        for (row, name) in (1..).zip(names) {
            rows[name as usize] = row;
        }
        ByName(rows)
    }

    fn row(&self, name: u32) -> Option<usize> {
        usize::from(self.0[name as usize]).checked_sub(1)
    }
}

/// What stands at a type reference.
#[derive(Debug, Clone, Copy, PartialEq, Eq)]
pub(crate) enum What {
    Undefined,
    List,
    InputObject,
    Object,
    Interface,
    Union,
    Enum,
    AnyScalar,
    Int,
    Float,
    String,
    Boolean,
    Id,
}

impl What {
    fn of(kind: u32, name: u32) -> Self {
        match kind {
            type_kind::SCALAR => match name {
                1 => What::Int,
                2 => What::Float,
                3 => What::String,
                4 => What::Boolean,
                5 => What::Id,
                _ => What::AnyScalar,
            },
            type_kind::ENUM => What::Enum,
            type_kind::OBJECT => What::Object,
            type_kind::INTERFACE => What::Interface,
            type_kind::UNION => What::Union,
            _ => What::InputObject,
        }
    }

    /// Whether objects may stand there.
    pub fn is_composite(self) -> bool {
        matches!(self, What::Object | What::Interface | What::Union)
    }

    /// The kinds of nodes that it takes without another look, but that an integer has to fit 31 bits.
    pub fn plain_kinds(self) -> PlainKinds {
        let bit = |kind: u32| 1 << kind;
        let booleans = bit(value_kind::FALSE) | bit(value_kind::TRUE);
        PlainKinds(match self {
            What::Int => bit(value_kind::UNSIGNED),
            What::Float => bit(value_kind::FLOAT),
            What::String => bit(value_kind::STRING),
            What::Boolean => booleans,
            What::Id => bit(value_kind::STRING) | bit(value_kind::UNSIGNED),
            What::AnyScalar => {
                booleans
                    | bit(value_kind::UNSIGNED)
                    | bit(value_kind::FLOAT)
                    | bit(value_kind::STRING)
            }
            _ => 0,
        })
    }
}

/// A set of kinds of nodes.
#[derive(Debug, Clone, Copy, PartialEq, Eq)]
pub(crate) struct PlainKinds(u16);

impl PlainKinds {
    pub const NONE: Self = PlainKinds(0);

    /// Whether a node is of such a kind and, if an integer, fits 31 bits.
    pub fn take(self, kind: u32, one: u32, two: u32) -> bool {
        self.0 >> kind & 1 == 1 && (kind != value_kind::UNSIGNED || two == 0 && one < 1 << 31)
    }
}

/// A type reference, looked up.
#[derive(Debug, Clone, Copy)]
pub(crate) struct Expected {
    pub what: What,
    pub non_null: bool,
    /// The inner type reference of a list; the type where it is a defined one.
    pub row: u16,
}

impl<'t> Request<'t> {
    pub fn new(rows: Rows<'t>) -> Self {
        let mut whats = [What::Undefined; limit::TYPES];
        for (what, row) in whats.iter_mut().zip(rows.types) {
            *what = What::of(row[1], row[0]);
        }
        let types = ByName::of(rows.types.iter().map(|row| row[0]));
        let fragments = ByName::of(rows.fragments.iter().map(|row| row[0]));
        let variables = ByName::of(rows.variables.iter().map(|row| row[0]));
        Request { rows, whats, types, fragments, variables }
    }

    /// The row of the type of a name.
    pub fn type_named(&self, name: u32) -> Option<usize> {
        self.types.row(name)
    }

    /// The row of the fragment of a name.
    pub fn fragment_named(&self, name: u32) -> Option<usize> {
        self.fragments.row(name)
    }

    /// The node of a variable's value.
    pub fn variable_node(&self, name: u32) -> Option<usize> {
        self.variables.row(name).map(|row| self.rows.variables[row][1] as usize)
    }

    #[inline]
    pub fn expected(&self, type_ref: u32) -> Expected {
        let [is_list, non_null, target] = self.rows.type_refs[type_ref as usize];
        let (what, row) = if is_list == 1 {
            (What::List, target as usize)
        } else {
            match self.type_named(target) {
                Some(row) => (self.whats[row], row),
                None => (What::Undefined, 0),
            }
        };
        Expected { what, non_null: non_null == 1, row: row as u16 }
    }

    pub fn is_non_null(&self, type_ref: u32) -> bool {
        self.rows.type_refs[type_ref as usize][1] == 1
    }

    /// What a type lists: values of an enum, members of a union, interfaces of an object.
    pub fn listed(&self, ty: &Type) -> &'t [u32] {
        part(self.rows.members, ty[4], ty[5])
    }

    /// Where a name stands in the pool.
    pub fn name(&self, number: u32) -> Range<usize> {
        let [start, length] = self.rows.names[number as usize];
        span(start, length)
    }
}

/// The rows of a range.
pub(crate) fn part<T>(rows: &[T], first: u32, count: u32) -> &[T] {
    &rows[span(first, count)]
}

pub(crate) fn span(first: u32, count: u32) -> Range<usize> {
    first as usize..first as usize + count as usize
}

/// Where a row of a name stands, looked for first where it is likely.
#[inline]
pub(crate) fn find<const WIDTH: usize, const COLUMN: usize>(
    rows: &[[u32; WIDTH]],
    name: u32,
    likely: usize,
) -> Option<usize> {
    if rows.get(likely).is_some_and(|row| row[COLUMN] == name) {
        return Some(likely);
    }
    rows.iter().position(|row| row[COLUMN] == name)
}
