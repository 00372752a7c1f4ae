//! Completing values.

use crate::execution::{child_sets, Walk};
use crate::input_coercion::{Argument, Arguments, Echo};
use crate::outcome::{Completed, Completion, Failure, FieldError, Outcome};
use crate::plans::{Definition, Plans};
use crate::request::{part, span, Answer, Expected, Request, What};
use std::ops::Range;
use tables::layout::{answer_kind, limit, type_kind, value_kind};

/// A leaf as its type sees it.
#[derive(Debug, Clone, Copy)]
struct Leaf {
    /// A kind of nodes.
    kind: u32,
    /// The two words of a node of this kind; of no meaning in a container.
    one: u32,
    two: u32,
}

impl<'t> Walk<'t, '_> {
    /// An answer at a type, for a group.
    pub(crate) fn complete_value(
        &mut self,
        plans: &mut Plans<'_>,
        group: usize,
        expected: Expected,
        answer: &'t Answer,
    ) -> Completion {
        let &[kind, _, one, two, three] = answer;
        match kind {
            answer_kind::SKIP => Ok(Completed::LeftOut),
            answer_kind::LEAF => {
                self.complete_node(expected, one as usize, plans.groups[group].place)
            }
            answer_kind::LIST => {
                let items = part(self.request.rows.answers, one, two);
                self.complete_list_value(plans, group, expected, items)
            }
            answer_kind::OBJECT => {
                let answers = part(self.request.rows.answers, two, three);
                self.complete_object_value(plans, group, expected, one, answers)
            }
            answer_kind::ECHO => self.complete_echo(plans, group, expected, one),
            _ => Err(self.answer_fails(plans.groups[group].place)),
        }
    }

    fn answer_fails(&mut self, place: u32) -> Failure {
        self.records.fail(FieldError::Resolver, place);
        Failure::Answer
    }

    pub(crate) fn complete_list_value(
        &mut self,
        plans: &mut Plans<'_>,
        group: usize,
        expected: Expected,
        items: &'t [Answer],
    ) -> Completion {
        if expected.what != What::List {
            let place = plans.groups[group].place;
            return Err(self.records.fail(FieldError::ListForNonListType, place));
        }
        let start = self.text.end();
        if !items.is_empty() {
            self.records.enter_list()?;
            let item = self.request.expected(u32::from(expected.row));
            let completed = self.complete_items(plans, group, item, items);
            self.records.leave();
            match completed {
                Ok(()) => {}
                Err(Failure::Answer) => return Err(Failure::Up),
                Err(failure) => {
                    return self.try_nullify(expected.non_null, start, Err(failure));
                }
            }
        }
        self.text.close(start, *b"[]");
        Ok(Completed::Written)
    }

    fn complete_items(
        &mut self,
        plans: &mut Plans<'_>,
        group: usize,
        item: Expected,
        items: &'t [Answer],
    ) -> Result<(), Failure> {
        let mut index = 0;
        loop {
            index += match items.get(index) {
                Some([answer_kind::LEAF, ..]) => self.put_plain_leaves(item, &items[index..]),
                Some([answer_kind::OBJECT, ..]) => {
                    self.put_plain_objects(plans, group, item, &items[index..])
                }
                _ => 0,
            };
            let Some(answer) = items.get(index) else { return Ok(()) };
            self.records.at_item(index);
            let before = self.text.end();
            self.text.put(b',');
            let start = self.text.end();
            let completed = self.complete_value(plans, group, item, answer);
            match self.try_nullify(item.non_null, start, completed)? {
                Completed::Written => {}
                Completed::LeftOut => self.text.back_to(before),
            }
            index += 1;
        }
    }

    /// Writes items as long as they are leaves that need no other look: how many.
    fn put_plain_leaves(&mut self, item: Expected, items: &[Answer]) -> usize {
        let plain = item.what.plain_kinds();
        for (done, &[kind, _, node, ..]) in items.iter().enumerate() {
            if kind != answer_kind::LEAF {
                return done;
            }
            let [kind, one, two, ..] = self.request.rows.nodes[node as usize];
            if !plain.take(kind, one, two) {
                return done;
            }
            self.text.put(b',');
            self.request.put_plain(&mut self.text, kind, one, two);
        }
        items.len()
    }

    /// Writes items as long as they are objects of one type, met before, whose fields are leaves that
    /// need no other look: how many.
    fn put_plain_objects(
        &mut self,
        plans: &Plans<'_>,
        group: usize,
        item: Expected,
        items: &'t [Answer],
    ) -> usize {
        let type_name = items[0][2];
        let known = self.request.type_named(type_name).filter(|_| item.what.is_composite());
        let plan = known.and_then(|object| plans.find(group, object)).map(|plan| plans.plan(plan));
        let Some(plan) = plan.filter(|plan| plan.is_flat) else { return 0 };
        let groups = &plans.groups[plan.groups()];
        for (done, &[kind, _, name, first, count]) in items.iter().enumerate() {
            let before = self.text.end();
            if kind != answer_kind::OBJECT || name != type_name {
                return done;
            }
            self.text.put(b',');
            let start = self.text.end();
            let answers = part(self.request.rows.answers, first, count);
            if !self.put_plain_object(groups, answers) {
                self.text.back_to(before);
                return done;
            }
            self.text.close(start, *b"{}");
        }
        items.len()
    }

    /// A failure becomes null where it may, and goes up otherwise. An error answer is no failure of the
    /// item's.
    #[inline]
    pub(crate) fn try_nullify(
        &mut self,
        non_null: bool,
        start: usize,
        completed: Completion,
    ) -> Completion {
        if non_null || completed != Err(Failure::Up) {
            return completed;
        }
        self.text.back_to(start);
        self.text.put_null();
        Ok(Completed::Written)
    }

    fn complete_object_value(
        &mut self,
        plans: &mut Plans<'_>,
        group: usize,
        expected: Expected,
        type_name: u32,
        answers: &'t [Answer],
    ) -> Completion {
        // A type that has a plan is one that fits.
        let known = self.request.type_named(type_name).filter(|_| expected.what.is_composite());
        let plan = match known.and_then(|object| plans.find(group, object)) {
            Some(plan) => plan,
            None => match self.request.object_type(expected, type_name) {
                Ok(object) => match self.plan_for(plans, group, object)? {
                    Some(plan) => plan,
                    None => {
                        let sets = child_sets(self.request.rows.selections, plans.fields(group));
                        return self.execute_apart(object, sets, answers);
                    }
                },
                Err(error) => return Err(self.records.fail(error, plans.groups[group].place)),
            },
        };
        self.execute_selection_set(plans, plan, answers)
    }

    /// An echoed argument.
    #[inline(never)]
    fn complete_echo(
        &mut self,
        plans: &mut Plans<'_>,
        group: usize,
        expected: Expected,
        name: u32,
    ) -> Completion {
        let place = plans.groups[group].place;
        let (literal, type_ref) = match self.echoed(plans, group, name) {
            Argument::None => return Err(self.answer_fails(place)),
            Argument::Node(node) => return self.complete_node(expected, usize::from(node), place),
            Argument::Literal { literal, type_ref } => {
                (usize::from(literal), Some(u32::from(type_ref)))
            }
            Argument::Default(literal) => (usize::from(literal), None),
        };
        if let (Some(type_ref), Arguments::Fine { deep: true }) =
            (type_ref, plans.groups[group].arguments)
        {
            let coerced = self.request.coerce_argument_value(type_ref, literal, limit::OPEN);
            if coerced.is_ok_and(|containers| containers > limit::OPEN) {
                return Err(Failure::Stop(Outcome::TooFar));
            }
        }
        let leaf = self.request.literal_leaf(type_ref, literal);
        self.complete_leaf_value(expected, leaf, place, |walk| match type_ref {
            Some(type_ref) => walk.request.put_coerced(&mut walk.text, type_ref, literal),
            None => walk.request.put_converted(&mut walk.text, literal),
        })
    }

    /// The argument of a name, by the group's first field.
    fn echoed(&mut self, plans: &mut Plans<'_>, group: usize, name: u32) -> Argument {
        match plans.groups[group].echo {
            Echo::Of { name: last, argument } if u32::from(last) == name => return argument,
            _ => {}
        }
        let Definition::Own(definition) = plans.groups[group].definition else {
            return Argument::None;
        };
        let argument = self.request.argument_named(definition, plans.fields(group)[0], name);
        plans.groups[group].echo = Echo::Of { name: name as u16, argument };
        argument
    }

    /// A leaf that is a node.
    pub(crate) fn complete_node(
        &mut self,
        expected: Expected,
        node: usize,
        place: u32,
    ) -> Completion {
        let [kind, one, two, ..] = self.request.rows.nodes[node];
        if kind >= value_kind::LIST && self.request.containers(node, limit::OPEN) > limit::OPEN {
            return Err(Failure::Stop(Outcome::TooFar));
        }
        self.complete_leaf_value(expected, Leaf { kind, one, two }, place, |walk| {
            walk.request.put_node(&mut walk.text, node);
        })
    }

    /// The name of an object's type.
    pub(crate) fn complete_type_name(
        &mut self,
        expected: Expected,
        object: usize,
        place: u32,
    ) -> Completion {
        let [one, two] = self.request.rows.names[self.request.rows.types[object][0] as usize];
        let leaf = Leaf { kind: value_kind::STRING, one, two };
        self.complete_leaf_value(expected, leaf, place, |walk| {
            walk.text.put_string(walk.request.rows.pool, span(one, two));
        })
    }

    /// A leaf at a type, written by `put` where it fits.
    fn complete_leaf_value(
        &mut self,
        expected: Expected,
        leaf: Leaf,
        place: u32,
        put: impl FnOnce(&mut Self),
    ) -> Completion {
        if leaf.kind == value_kind::NULL {
            if expected.non_null {
                return Err(self.records.fail(FieldError::NullForNonNull, place));
            }
            self.text.put_null();
        } else if let Some(error) = self.request.leaf_error(expected, leaf) {
            return Err(self.records.fail(error, place));
        } else {
            put(self);
        }
        Ok(Completed::Written)
    }
}

impl Request<'_> {
    /// A literal as an output type sees its value: at a type of its own, or part by part.
    fn literal_leaf(&self, type_ref: Option<u32>, literal: usize) -> Leaf {
        let [kind, one, two, ..] = self.rows.literals[literal];
        let is_wrapped = type_ref.is_some_and(|row| self.rows.type_refs[row as usize][0] == 1);
        match kind {
            value_kind::NULL => Leaf { kind, one, two },
            _ if is_wrapped => Leaf { kind: value_kind::LIST, one: 0, two: 0 },
            value_kind::UNSIGNED | value_kind::NEGATIVE => Leaf { kind, one, two: 0 },
            value_kind::ENUM => {
                let [start, length] = self.rows.names[one as usize];
                Leaf { kind: value_kind::STRING, one: start, two: length }
            }
            _ => Leaf { kind, one, two },
        }
    }

    /// Why a leaf that is not null does not fit a type.
    fn leaf_error(&self, expected: Expected, leaf: Leaf) -> Option<FieldError> {
        let Leaf { kind, one, two } = leaf;
        let is_signed = match kind {
            value_kind::UNSIGNED => two < 1 << 31,
            kind => kind == value_kind::NEGATIVE,
        };
        let fits = match expected.what {
            What::AnyScalar => true,
            What::Int => {
                let most = (1 << 31) - u32::from(kind == value_kind::UNSIGNED);
                if is_signed && (two > 0 || one > most) {
                    return Some(FieldError::IntOverflow);
                }
                is_signed
            }
            What::Float => kind == value_kind::FLOAT,
            What::String => kind == value_kind::STRING,
            What::Boolean => matches!(kind, value_kind::FALSE | value_kind::TRUE),
            What::Id => is_signed || kind == value_kind::STRING,
            What::Enum => {
                let is_value = kind == value_kind::STRING
                    && self.has_value(usize::from(expected.row), span(one, two));
                return (!is_value).then_some(FieldError::NotAnEnumValue);
            }
            What::Object | What::Interface | What::Union => {
                return Some(FieldError::LeafForComposite);
            }
            What::List => return Some(FieldError::ListTypeWithoutList),
            What::Undefined => return Some(FieldError::UndefinedType),
            What::InputObject => return Some(FieldError::InputObjectType),
        };
        (!fits).then_some(FieldError::LeafOfAnotherKind)
    }

    /// Whether a string of the pool names a value of an enum.
    fn has_value(&self, ty: usize, string: Range<usize>) -> bool {
        let string = &self.rows.pool[string];
        let mut values = self.listed(&self.rows.types[ty]).iter();
        values.any(|value| self.rows.pool[self.name(*value)] == *string)
    }

    /// The type of an object answer at a type.
    fn object_type(&self, expected: Expected, name: u32) -> Result<usize, FieldError> {
        let row = usize::from(expected.row);
        match expected.what {
            What::Object if self.rows.types[row][0] == name => Ok(row),
            What::Object => Err(FieldError::OtherObjectType),
            What::Interface | What::Union => {
                let is_object = |object: &usize| self.rows.types[*object][1] == type_kind::OBJECT;
                let object = self.type_named(name).filter(is_object);
                let object = object.ok_or(FieldError::ObjectTypeUnknown)?;
                let (lists, listed, otherwise) = if expected.what == What::Union {
                    (row, name, FieldError::NotInUnion)
                } else {
                    (object, self.rows.types[row][0], FieldError::NotImplementing)
                };
                let is_possible = self.listed(&self.rows.types[lists]).contains(&listed);
                is_possible.then_some(object).ok_or(otherwise)
            }
            What::List => Err(FieldError::ListTypeWithoutList),
            What::Undefined => Err(FieldError::UndefinedType),
            What::InputObject => Err(FieldError::InputObjectType),
            _ => Err(FieldError::ObjectForLeafType),
        }
    }
}
