//! Collecting the fields of an object from one or more sets.

use crate::code;
use crate::schema::does_fragment_type_apply;
use crate::walk::{Stop, Walk};
use std::collections::HashSet;
use tables::layout::limit;
use tables::rows;
use tables::rows::{Condition, SelectionKind, SelectionRow, TypeRow};

/// Fields of the same response key.
pub(crate) struct Group {
    pub(crate) key: u32,
    pub(crate) fields: Vec<FieldSelection>,
}

#[derive(Clone, Copy)]
pub(crate) struct FieldSelection {
    pub(crate) name: u32,
    pub(crate) place: u32,
    pub(crate) given: rows::Range,
    pub(crate) set: Option<u32>,
    pub(crate) attached: u32,
}

/// One collection.
pub(crate) struct Collection {
    object: TypeRow,
    visited: HashSet<u32>,
    collected: usize,
    groups: Vec<Group>,
}

impl Walk<'_> {
    /// The groups of an object's sets, in order of first appearance.
    pub(crate) fn collect_fields(
        &mut self,
        object: TypeRow,
        sets: &[u32],
    ) -> Result<Vec<Group>, Stop> {
        let mut collection =
            Collection { object, visited: HashSet::new(), collected: 0, groups: Vec::new() };
        for set in sets {
            self.collect_set(&mut collection, *set, 0)?;
        }
        Ok(collection.groups)
    }

    /// Collects a set in which so many fragments are open.
    fn collect_set(&mut self, into: &mut Collection, set: u32, open: usize) -> Result<(), Stop> {
        for row in self.tables.set(set).rows() {
            self.work(1)?;
            let selection = self.tables.selection(row);
            if self.is_dropped(&selection) {
                continue;
            }
            let (condition, set) = match selection.kind {
                SelectionKind::Field { name, key, given, set, attached } => {
                    into.collected += 1;
                    if into.collected > limit::COLLECTED {
                        return Err(Stop::Code(code::COLLECTED));
                    }
                    let place = selection.place;
                    into.add(key, FieldSelection { name, place, given, set, attached });
                    continue;
                }
                SelectionKind::Spread { fragment } => {
                    if !into.visited.insert(fragment) {
                        continue;
                    }
                    let mut fragments =
                        (0..self.tables.fragment_count()).map(|row| self.tables.fragment(row));
                    match fragments.find(|row| row.name == fragment) {
                        Some(fragment) => (Some(fragment.condition), fragment.set),
                        None => continue,
                    }
                }
                SelectionKind::Inline { condition, set } => (condition, set),
            };
            let applies = condition.is_none_or(|condition| {
                does_fragment_type_apply(self.tables, into.object, condition)
            });
            if !applies {
                continue;
            }
            if open == limit::OPEN {
                return Err(Stop::Code(code::LIMIT));
            }
            self.collect_set(into, set, open + 1)?;
        }
        Ok(())
    }

    fn is_dropped(&self, selection: &SelectionRow) -> bool {
        self.decides(selection.skip) == Some(true) || self.decides(selection.include) == Some(false)
    }

    /// What a directive says; a variable that is absent or not boolean counts as no directive.
    fn decides(&self, condition: Condition) -> Option<bool> {
        match condition {
            Condition::None => None,
            Condition::Constant(value) => Some(value),
            Condition::Variable(name) => match self.tables.node(self.variable(name)?) {
                rows::Value::Bool(value) => Some(value),
                _ => None,
            },
        }
    }
}

impl Collection {
    fn add(&mut self, key: u32, field: FieldSelection) {
        match self.groups.iter_mut().find(|group| group.key == key) {
            Some(group) => group.fields.push(field),
            None => self.groups.push(Group { key, fields: vec![field] }),
        }
    }
}
