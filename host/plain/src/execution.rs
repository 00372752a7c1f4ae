//! Executing selection sets and fields.

use crate::input_coercion::{Arguments, Wrong};
use crate::outcome::{Completed, Completion, Failure, FieldError};
use crate::plans::{Definition, Group, Plan, Plans, Store};
use crate::records::Records;
use crate::request::{find, part, Answer, PlainKinds, Request, Selection};
use crate::text::{Part, Text};
use tables::layout::{answer_kind, limit};

/// A run under way.
pub(crate) struct Walk<'t, 'b> {
    pub request: Request<'t>,
    pub text: Text<'b>,
    pub records: Records<'b>,
    /// The choices that are left.
    pub choices: &'t [u32],
}

impl<'t> Walk<'t, '_> {
    /// The operation, from the root's type and answer on.
    pub fn execute_operation(&mut self, plans: &mut Plans<'_>) -> Completion {
        let rows = &self.request.rows;
        let (root, [_, _, _, first, count]) = (rows.root as usize, rows.answers[0]);
        let answers = part(rows.answers, first, count);
        let operation = || std::iter::once(0);
        let collection = self.request.collect_fields(root, operation())?;
        match plans.add(&self.request, root, &collection) {
            Some(plan) => self.execute_selection_set(plans, plan, answers),
            None => self.execute_apart(root, operation(), answers),
        }
    }

    /// Makes a plan for objects that answer a group and remembers it; none where there is no room for it.
    #[inline(never)]
    pub fn plan_for(
        &self,
        plans: &mut Plans<'_>,
        group: usize,
        object: usize,
    ) -> Result<Option<usize>, Failure> {
        let sets = child_sets(self.request.rows.selections, plans.fields(group));
        let collection = self.request.collect_fields(object, sets)?;
        let plan = plans.add(&self.request, object, &collection);
        if let Some(plan) = plan {
            plans.remember(group, plan);
        }
        Ok(plan)
    }

    /// An object whose plan has no room among the others: it has one to itself as long as it takes.
    #[cold]
    #[inline(never)]
    pub fn execute_apart(
        &mut self,
        object: usize,
        sets: impl Iterator<Item = u32>,
        answers: &'t [Answer],
    ) -> Completion {
        let collection = self.request.collect_fields(object, sets)?;
        let mut store = Apart::new();
        let mut plans = store.lent();
        let plan = plans.add(&self.request, object, &collection);
        self.execute_selection_set(&mut plans, plan.expect("there is room for one"), answers)
    }

    /// An object by its plan. In line where values are completed: then the two call one another as one.
    #[inline(always)]
    pub fn execute_selection_set(
        &mut self,
        plans: &mut Plans<'_>,
        plan: usize,
        answers: &'t [Answer],
    ) -> Completion {
        let start = self.text.end();
        let plan = plans.plan(plan);
        let groups = plan.groups();
        if !self.choices.is_empty() {
            self.execute_chosen(plans, plan, answers)?;
        } else {
            let mut next = groups.start;
            while next < groups.end {
                if plans.groups[next].plain != PlainKinds::NONE {
                    let done = self.put_plain_fields(&plans.groups[next..groups.end], answers);
                    next += done;
                    if done > 0 {
                        continue;
                    }
                }
                self.execute_field(plans, next, plan.object, answers)?;
                next += 1;
            }
        }
        self.text.close(start, *b"{}");
        Ok(Completed::Written)
    }

    /// The groups of an object in the order that the choices say.
    #[inline(never)]
    fn execute_chosen(
        &mut self,
        plans: &mut Plans<'_>,
        plan: Plan,
        answers: &'t [Answer],
    ) -> Result<(), Failure> {
        let start = self.text.end();
        let groups = plan.groups();
        if plan.is_flat {
            if self.put_plain_object(&plans.groups[groups.clone()], answers) {
                return Ok(());
            }
            self.text.back_to(start);
        }
        let mut order = [0; limit::COLLECTED];
        for (number, place) in order[..groups.len()].iter_mut().enumerate() {
            *place = number as u8;
        }
        let mut left = &mut order[..groups.len()];
        while !left.is_empty() {
            let chosen = self.choose(left.len());
            let group = groups.start + usize::from(left[chosen]);
            // Those before it stay in their order.
            left.copy_within(..chosen, 1);
            left = &mut left[1..];
            let before = self.text.end();
            if self.put_plain_fields(&plans.groups[group..=group], answers) == 0 {
                self.execute_field(plans, group, plan.object, answers)?;
            }
            plans.parts[group] = Part::since(before, &self.text);
        }
        self.text.arrange(start, &mut plans.parts[groups]);
        Ok(())
    }

    /// The next choice among so many, the first where there is none left.
    fn choose(&mut self, count: usize) -> usize {
        match self.choices.split_first() {
            Some((choice, rest)) => {
                self.choices = rest;
                (choice % count as u32) as usize
            }
            None => 0,
        }
    }

    /// Writes all fields of an object, if they are leaves that need no other look: where nothing fails,
    /// their order changes nothing.
    #[inline]
    pub fn put_plain_object(&mut self, groups: &[Group], answers: &[Answer]) -> bool {
        let is_whole = self.put_plain_fields(groups, answers) == groups.len();
        if is_whole && !self.choices.is_empty() {
            self.choices = self.choices.get(groups.len()..).unwrap_or_default();
        }
        is_whole
    }

    /// Writes fields as long as they are leaves that need no other look, answered where the last object
    /// had them: how many.
    fn put_plain_fields(&mut self, groups: &[Group], answers: &[Answer]) -> usize {
        if !self.records.has_room() {
            return 0;
        }
        for (done, group) in groups.iter().enumerate() {
            let Some(&[answer_kind::LEAF, name, node, ..]) = answers.get(usize::from(group.likely))
            else {
                return done;
            };
            let [kind, one, two, ..] = self.request.rows.nodes[node as usize];
            if name != u32::from(group.name) || !group.plain.take(kind, one, two) {
                return done;
            }
            self.put_group_key(group);
            self.request.put_plain(&mut self.text, kind, one, two);
        }
        groups.len()
    }

    /// Whatever goes before a group's value.
    #[inline]
    fn put_group_key(&mut self, group: &Group) {
        let request = &self.request;
        let name = || request.name(u32::from(group.key));
        self.text.put_ready_key(&group.ready_key, request.rows.pool, name);
    }

    /// A group of an object.
    #[inline(always)]
    fn execute_field(
        &mut self,
        plans: &mut Plans<'_>,
        number: usize,
        object: u8,
        answers: &'t [Answer],
    ) -> Result<(), Failure> {
        let group = &plans.groups[number];
        if group.definition == Definition::Undefined {
            return Ok(());
        }
        let non_null = group.non_null;
        self.records.enter_field(group.key)?;
        let before = self.text.end();
        self.put_group_key(group);
        let start = self.text.end();
        let completed = match group.definition {
            Definition::Own(definition) => {
                self.resolve_and_complete(plans, number, definition, answers)
            }
            _ => self.complete_type_name(group.attached, usize::from(object), group.place),
        };
        self.records.leave();
        let completed = match completed {
            // Whatever failed, for the object it is this field.
            Err(Failure::Answer) => Err(Failure::Up),
            completed => completed,
        };
        match self.try_nullify(non_null, start, completed)? {
            Completed::Written => {}
            Completed::LeftOut => self.text.back_to(before),
        }
        Ok(())
    }

    #[inline(always)]
    fn resolve_and_complete(
        &mut self,
        plans: &mut Plans<'_>,
        number: usize,
        definition: u16,
        answers: &'t [Answer],
    ) -> Completion {
        if let Arguments::Unknown = plans.groups[number].arguments {
            plans.groups[number].arguments = self.coerce_arguments(plans, number, definition)?;
        }
        let group = &mut plans.groups[number];
        if let Arguments::Wrong { error, place } = group.arguments {
            return Err(self.records.fail(error, place));
        }
        match find::<5, 1>(answers, u32::from(group.name), usize::from(group.likely)) {
            Some(at) => {
                group.likely = at as u16;
                let attached = group.attached;
                self.complete_value(plans, number, attached, &answers[at])
            }
            None => Err(self.records.fail(FieldError::Resolver, group.place)),
        }
    }

    #[inline(never)]
    fn coerce_arguments(
        &self,
        plans: &Plans<'_>,
        group: usize,
        definition: u16,
    ) -> Result<Arguments, Failure> {
        match self.request.coerce_argument_values(definition, plans.fields(group)[0]) {
            Ok(arguments) => Ok(arguments),
            Err(Wrong::Error { error, place }) => Ok(Arguments::Wrong { error, place }),
            Err(Wrong::Stop(outcome)) => Err(Failure::Stop(outcome)),
        }
    }
}

/// Room for the largest plan, and a little more.
type Apart = Store<{ limit::COLLECTED + 32 }, { limit::COLLECTED + 32 }, 8>;

/// The sets of a group's fields.
pub(crate) fn child_sets<'a>(
    selections: &'a [Selection],
    fields: &'a [u16],
) -> impl Iterator<Item = u32> + 'a {
    fields.iter().map(|row| selections[usize::from(*row)][8]).filter(|set| *set != 0)
}
