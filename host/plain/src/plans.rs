//! Plans: selection sets collected for a type, kept in lent arrays with what was looked up for them.

use crate::collection::Collection;
use crate::input_coercion::{Arguments, Echo};
use crate::request::{find, part, Expected, PlainKinds, Request, What};
use crate::text::{Part, ReadyKey};
use std::ops::Range;
use tables::layout::TYPENAME;

/// A group's own definition.
#[derive(Debug, Clone, Copy, PartialEq, Eq)]
pub(crate) enum Definition {
    Undefined,
    TypeName,
    /// A row of fields.
    Own(u16),
}

/// Fields of one response key, and what an object's type makes of the first one.
#[derive(Debug, Clone, Copy)]
pub(crate) struct Group {
    /// Of the first field.
    pub place: u32,
    /// The response key, and the same as it is written.
    pub key: u16,
    pub ready_key: ReadyKey,
    pub name: u16,
    pub definition: Definition,
    /// Whether the object's own type of it may not be null.
    pub non_null: bool,
    /// The attached type.
    pub attached: Expected,
    /// The leaves that are written at once; none where there is more to do.
    pub plain: PlainKinds,
    /// Where the last object had its answer.
    pub likely: u16,
    pub arguments: Arguments,
    pub echo: Echo,
    /// The rows of its fields.
    first_field: u16,
    field_count: u8,
    /// The plan made last for objects that answer it, one more than its number; 0 for none.
    last_plan: u16,
}

impl Group {
    pub const NONE: Self = Group {
        place: 0,
        key: 0,
        ready_key: ReadyKey::NONE,
        name: 0,
        definition: Definition::Undefined,
        non_null: false,
        attached: Expected { what: What::Undefined, non_null: false, row: 0 },
        plain: PlainKinds::NONE,
        likely: 0,
        arguments: Arguments::Unknown,
        echo: Echo::Unknown,
        first_field: 0,
        field_count: 0,
        last_plan: 0,
    };
}

/// The groups of a selection set for objects of one type.
#[derive(Debug, Clone, Copy)]
pub(crate) struct Plan {
    /// The objects' type.
    pub object: u8,
    /// Whether its groups are all leaves that are written at once, as far as their types say.
    pub is_flat: bool,
    first_group: u16,
    group_count: u8,
    /// The plan made before it for the same group.
    next: u16,
}

impl Plan {
    pub const NONE: Self =
        Plan { object: 0, is_flat: false, first_group: 0, group_count: 0, next: 0 };

    pub fn groups(&self) -> Range<usize> {
        let first = usize::from(self.first_group);
        first..first + usize::from(self.group_count)
    }
}

/// Room for plans.
pub(crate) struct Store<const GROUPS: usize, const FIELDS: usize, const PLANS: usize> {
    groups: [Group; GROUPS],
    fields: [u16; FIELDS],
    plans: [Plan; PLANS],
    parts: [Part; GROUPS],
}

impl<const GROUPS: usize, const FIELDS: usize, const PLANS: usize> Store<GROUPS, FIELDS, PLANS> {
    pub fn new() -> Self {
        Store {
            groups: [Group::NONE; GROUPS],
            fields: [0; FIELDS],
            plans: [Plan::NONE; PLANS],
            parts: [Part::default(); GROUPS],
        }
    }

    pub fn lent(&mut self) -> Plans<'_> {
        Plans {
            groups: &mut self.groups,
            fields: &mut self.fields,
            plans: &mut self.plans,
            parts: &mut self.parts,
            group_count: 0,
            field_count: 0,
            plan_count: 0,
        }
    }
}

/// The plans so far.
pub(crate) struct Plans<'p> {
    pub groups: &'p mut [Group],
    fields: &'p mut [u16],
    plans: &'p mut [Plan],
    /// Where each group's text stands, for an object whose groups are taken in a given order. A plan is
    /// in use for one object at a time.
    pub parts: &'p mut [Part],
    group_count: usize,
    field_count: usize,
    plan_count: usize,
}

impl Plans<'_> {
    pub fn plan(&self, number: usize) -> Plan {
        self.plans[number]
    }

    /// The rows of a group's fields.
    pub fn fields(&self, group: usize) -> &[u16] {
        let Group { first_field, field_count, .. } = self.groups[group];
        part(self.fields, u32::from(first_field), u32::from(field_count))
    }

    /// The plan for objects of a type that answer a group.
    pub fn find(&self, group: usize, object: usize) -> Option<usize> {
        let mut last = self.groups[group].last_plan;
        while let Some(number) = usize::from(last).checked_sub(1) {
            let plan = &self.plans[number];
            if usize::from(plan.object) == object {
                return Some(number);
            }
            last = plan.next;
        }
        None
    }

    /// Makes a plan of what was collected for a type; none where there is no room for it.
    pub fn add(
        &mut self,
        request: &Request<'_>,
        object: usize,
        collection: &Collection,
    ) -> Option<usize> {
        let (first_group, first_field) = (self.group_count, self.field_count);
        let groups = self.groups.get_mut(first_group..first_group + collection.group_count())?;
        let fields = self.fields.get_mut(first_field..first_field + collection.field_count())?;
        let plan = self.plans.get_mut(self.plan_count)?;
        let mut made = 0;
        for (row, number) in collection.fields() {
            if number == made {
                groups[number] = request.group(object, row, number);
                made += 1;
            }
            groups[number].field_count += 1;
        }
        // The fields of each group one behind the other.
        let mut end = 0;
        for group in groups.iter_mut() {
            group.first_field = end;
            end += u16::from(group.field_count);
            group.field_count = 0;
        }
        for (row, number) in collection.fields() {
            let group = &mut groups[number];
            fields[usize::from(group.first_field) + usize::from(group.field_count)] = row;
            group.field_count += 1;
        }
        for group in groups.iter_mut() {
            group.first_field += first_field as u16;
        }
        *plan = Plan {
            object: object as u8,
            is_flat: groups.iter().all(|group| group.plain != PlainKinds::NONE),
            first_group: first_group as u16,
            group_count: groups.len() as u8,
            next: 0,
        };
        self.group_count += collection.group_count();
        self.field_count += collection.field_count();
        self.plan_count += 1;
        Some(self.plan_count - 1)
    }

    /// Remembers that a plan is for objects that answer a group.
    pub fn remember(&mut self, group: usize, plan: usize) {
        let last = &mut self.groups[group].last_plan;
        self.plans[plan].next = std::mem::replace(last, plan as u16 + 1);
    }
}

impl Request<'_> {
    /// A group by its first field, on objects of a type.
    fn group(&self, object: usize, row: u16, number: usize) -> Group {
        let [_, _, _, place, name, key, _, _, _, attached] = self.rows.selections[usize::from(row)];
        let attached = self.expected(attached);
        let ty = &self.rows.types[object];
        let own = part(self.rows.fields, ty[2], ty[3]);
        let mut group = Group {
            place,
            key: key as u16,
            ready_key: ReadyKey::of(&self.rows.pool[self.name(key)]),
            name: name as u16,
            attached,
            likely: number as u16,
            ..Group::NONE
        };
        if name == TYPENAME {
            group.definition = Definition::TypeName;
            group.non_null = true;
        } else if let Some(at) = find::<6, 0>(own, name, number) {
            group.definition = Definition::Own(ty[2] as u16 + at as u16);
            group.non_null = self.is_non_null(own[at][1]);
            if own[at][5] == 0 {
                group.arguments = Arguments::Fine { deep: false };
                group.plain = attached.what.plain_kinds();
            }
        }
        group
    }
}
