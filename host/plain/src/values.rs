//! The rules for literals, JSON nodes, variables and answers.

use crate::hash::hash;
use crate::notes::{Apart, Closed, Met, Names, Noting, NotingNames};
use crate::pool::{self, Strings};
use crate::rows::{is_row, within, Rows};
use std::ops::Range;
use tables::layout::{answer_kind, value_kind, width};

fn is_float(rows: &Rows<'_>, start: u32, length: u32) -> bool {
    let part = rows.pool.get(start as usize..start as usize + length as usize);
    part.is_some_and(pool::is_float)
}

/// Whether a range of parts, if it has any, begins behind the row that has them.
fn is_later(row: usize, first: u32, count: u32) -> bool {
    count == 0 || first as usize > row
}

/// From the last literal to the first, so that parts come before what they are parts of.
pub(crate) fn literals_are_lawful(
    rows: &Rows<'_>,
    strings: &impl Strings,
    apart: &mut Apart,
    closed: &mut Closed,
) -> bool {
    let mut noting = NotingNames::new(apart);
    for (row, &[kind, one, two, _, key]) in rows.literals.iter().enumerate().rev() {
        let fits = match kind {
            value_kind::NULL | value_kind::FALSE | value_kind::TRUE => true,
            value_kind::UNSIGNED => one < 1 << 31,
            value_kind::NEGATIVE => (1..=1 << 31).contains(&one),
            value_kind::FLOAT => is_float(rows, one, two),
            value_kind::STRING => strings.has(one, two),
            value_kind::LIST => within(rows.literals, one, two) && is_later(row, one, two),
            value_kind::OBJECT => {
                within(rows.literals, one, two) && is_later(row, one, two) && noting.has(one, two)
            }
            value_kind::ENUM | value_kind::VARIABLE => is_row(rows.names, one),
            _ => false,
        };
        if !fits || !is_row(rows.names, key) {
            return false;
        }
        let is_closed = match kind {
            value_kind::LIST | value_kind::OBJECT => closed.has(one, two),
            kind => kind != value_kind::VARIABLE,
        };
        closed.note(row, is_closed);
        noting.note(row, key);
    }
    true
}

/// The rows between which all children of objects lie that have more than one.
#[derive(Clone, Copy)]
struct Children {
    first: u32,
    end: u32,
}

impl Children {
    fn none() -> Self {
        Children { first: u32::MAX, end: 0 }
    }

    fn are_none(self) -> bool {
        self.end == 0
    }

    fn include(&mut self, first: u32, count: u32) {
        if count > 1 {
            self.first = self.first.min(first);
            self.end = self.end.max(first + count);
        }
    }

    fn rows(self) -> Range<usize> {
        self.first as usize..self.end as usize
    }
}

pub(crate) fn nodes_are_lawful(rows: &Rows<'_>, strings: &impl Strings, apart: &mut Apart) -> bool {
    let mut children = Children::none();
    for (row, &[kind, one, two, key, key_length]) in rows.nodes.iter().enumerate() {
        if !strings.has(key, key_length) {
            return false;
        }
        // Most nodes; so they need no jump by their kind.
        if kind <= value_kind::UNSIGNED {
            continue;
        }
        let fits = match kind {
            value_kind::NEGATIVE => {
                let magnitude = u64::from(two) << 32 | u64::from(one);
                (1..=1 << 63).contains(&magnitude)
            }
            value_kind::FLOAT => is_float(rows, one, two),
            value_kind::STRING => strings.has(one, two),
            value_kind::LIST | value_kind::OBJECT => {
                within(rows.nodes, one, two) && is_later(row, one, two)
            }
            _ => false,
        };
        if !fits {
            return false;
        }
        if kind == value_kind::OBJECT {
            children.include(one, two);
        }
    }
    keys_are_apart(rows, children, apart)
}

/// No object has two children of one key.
fn keys_are_apart(rows: &Rows<'_>, children: Children, apart: &mut Apart) -> bool {
    // Fewer slots are sooner empty.
    match children.rows().len() {
        0 => true,
        1..=64 => keys_are_apart_by::<128>(rows, children, apart),
        65..=512 => keys_are_apart_by::<1024>(rows, children, apart),
        _ => keys_are_apart_by::<8192>(rows, children, apart),
    }
}

fn keys_are_apart_by<const SLOTS: usize>(
    rows: &Rows<'_>,
    children: Children,
    apart: &mut Apart,
) -> bool {
    let mut noting = Noting::new(apart);
    let mut met = Met::<SLOTS>::new();
    let key = |row: usize| [rows.nodes[row][3], rows.nodes[row][4]];
    for row in (0..children.rows().end).rev() {
        let [kind, first, count, start, length]: [u32; width::NODES] = rows.nodes[row];
        if kind == value_kind::OBJECT && !noting.has(first, count) {
            return false;
        }
        if row >= children.rows().start {
            let key_hash = hash(rows.pool, start as usize, length as usize);
            let same = |other: usize| {
                let other = key(other);
                other == [start, length]
                    || pool::part(rows.pool, other) == pool::part(rows.pool, [start, length])
            };
            let next = met.meet(row, key_hash, same);
            noting.note(row, next.map_or(u16::MAX, |next| next as u16));
        }
    }
    true
}

pub(crate) fn variables_are_lawful(rows: &Rows<'_>) -> bool {
    let mut names = Names::new();
    rows.variables.iter().all(|&[name, node]| {
        is_row(rows.names, name) && names.add(name) && is_row(rows.nodes, node)
    })
}

pub(crate) fn answers_are_lawful(rows: &Rows<'_>, apart: &mut Apart) -> bool {
    let mut children = Children::none();
    for &[kind, name, one, two, three] in rows.answers {
        if !is_row(rows.names, name) {
            return false;
        }
        // Most answers; so they need no jump by their kind.
        if kind == answer_kind::LEAF && is_row(rows.nodes, one) {
            continue;
        }
        let fits = match kind {
            answer_kind::SKIP | answer_kind::ERROR => true,
            answer_kind::LIST => within(rows.answers, one, two),
            answer_kind::OBJECT => is_row(rows.names, one) && within(rows.answers, two, three),
            answer_kind::ECHO => is_row(rows.names, one),
            _ => false,
        };
        if !fits {
            return false;
        }
        if kind == answer_kind::OBJECT {
            children.include(two, three);
        }
    }
    rows.answers[0][0] == answer_kind::OBJECT
        && (children.are_none() || answer_names_are_apart(rows, children, apart))
}

/// No object answers a field twice.
fn answer_names_are_apart(rows: &Rows<'_>, children: Children, apart: &mut Apart) -> bool {
    let mut noting = NotingNames::new(apart);
    for row in children.rows().rev() {
        noting.note(row, rows.answers[row][1]);
    }
    rows.answers
        .iter()
        .all(|&[kind, _, _, first, count]| kind != answer_kind::OBJECT || apart.has(first, count))
}
