//! Collecting the fields of an object.

use crate::outcome::{Failure, Outcome};
use crate::request::{part, Request, Selection};
use tables::layout::{condition, limit, selection_kind, type_kind, value_kind};

/// The fields collected for one object, and to which groups they belong.
pub(crate) struct Collection {
    rows: [u16; limit::COLLECTED],
    groups: [u8; limit::COLLECTED],
    fields: usize,
    group_count: usize,
    /// For each response key one more than its group's number, 0 for none.
    by_key: [u8; limit::NAMES],
    /// The fragments that were visited.
    visited: u64,
}

impl Collection {
    fn new() -> Self {
        Collection {
            rows: [0; limit::COLLECTED],
            groups: [0; limit::COLLECTED],
            fields: 0,
            group_count: 0,
            by_key: [0; limit::NAMES],
            visited: 0,
        }
    }

    pub fn group_count(&self) -> usize {
        self.group_count
    }

    pub fn field_count(&self) -> usize {
        self.fields
    }

    /// The fields in order: their rows and their groups.
    pub fn fields(&self) -> impl Iterator<Item = (u16, usize)> + '_ {
        let groups = self.groups[..self.fields].iter().map(|group| usize::from(*group));
        self.rows[..self.fields].iter().copied().zip(groups)
    }

    fn add(&mut self, row: usize, key: u32) -> Result<(), Failure> {
        if self.fields == limit::COLLECTED {
            return Err(Failure::Stop(Outcome::TooManyFields));
        }
        let number = &mut self.by_key[key as usize];
        if *number == 0 {
            self.group_count += 1;
            *number = self.group_count as u8;
        }
        self.groups[self.fields] = *number - 1;
        self.rows[self.fields] = row as u16;
        self.fields += 1;
        Ok(())
    }
}

impl Request<'_> {
    /// The fields of these sets that apply to an object of a type.
    pub fn collect_fields(
        &self,
        object: usize,
        sets: impl Iterator<Item = u32>,
    ) -> Result<Collection, Failure> {
        let mut collection = Collection::new();
        for set in sets {
            self.collect_set(&mut collection, object, set, limit::OPEN)?;
        }
        Ok(collection)
    }

    /// Collects a set in which so many more fragments may be open.
    fn collect_set(
        &self,
        into: &mut Collection,
        object: usize,
        set: u32,
        room: usize,
    ) -> Result<(), Failure> {
        let [first, count] = self.rows.sets[set as usize];
        for (row, selection) in (first as usize..).zip(part(self.rows.selections, first, count)) {
            let &[kind, skip, include, _, name, key, _, _, set, _] = selection;
            if skip | include != condition::NONE && self.is_dropped(selection) {
                continue;
            }
            let set = match kind {
                selection_kind::FIELD => {
                    into.add(row, key)?;
                    continue;
                }
                selection_kind::SPREAD => match self.visit(into, object, name) {
                    Some(set) => set,
                    None => continue,
                },
                _ if name == 0 || self.does_fragment_type_apply(object, name - 1) => set,
                _ => continue,
            };
            let Some(room) = room.checked_sub(1) else {
                return Err(Failure::Stop(Outcome::TooFar));
            };
            self.collect_set(into, object, set, room)?;
        }
        Ok(())
    }

    /// The set of a fragment that was not visited before and applies.
    fn visit(&self, into: &mut Collection, object: usize, name: u32) -> Option<u32> {
        let row = self.fragment_named(name)?;
        let bit = 1 << row;
        if into.visited & bit != 0 {
            return None;
        }
        into.visited |= bit;
        let [_, condition, set] = self.rows.fragments[row];
        self.does_fragment_type_apply(object, condition).then_some(set)
    }

    fn is_dropped(&self, selection: &Selection) -> bool {
        self.eval_if_arg(selection[1]) == Some(true)
            || self.eval_if_arg(selection[2]) == Some(false)
    }

    /// What a directive says. A variable that is absent or no boolean counts as no directive.
    fn eval_if_arg(&self, word: u32) -> Option<bool> {
        match word {
            condition::NONE => None,
            condition::FALSE => Some(false),
            condition::TRUE => Some(true),
            variable => {
                let node = self.variable_node(variable - condition::VARIABLE)?;
                match self.rows.nodes[node][0] {
                    value_kind::FALSE => Some(false),
                    value_kind::TRUE => Some(true),
                    _ => None,
                }
            }
        }
    }

    /// Whether a fragment on a type applies to an object.
    fn does_fragment_type_apply(&self, object: usize, condition: u32) -> bool {
        let Some(row) = self.type_named(condition) else { return false };
        let ty = &self.rows.types[row];
        let object_type = &self.rows.types[object];
        match ty[1] {
            type_kind::OBJECT => row == object,
            type_kind::INTERFACE => self.listed(object_type).contains(&condition),
            type_kind::UNION => self.listed(ty).contains(&object_type[0]),
            _ => false,
        }
    }
}
