//! Executing selection sets and fields, completing values.

use crate::code;
use crate::coerce::Arguments;
use crate::collect::{FieldSelection, Group};
use crate::schema::{definition, lists, type_named, Definition};
use crate::value::{self, Value};
use tables::layout::{limit, type_kind};
use tables::rows::{Answer, Range, Shape, TypeRow};
use tables::{ErrorRecord, Segment, Tables};

/// The most steps that a run may take here.
const WORK: u64 = 600_000;

/// Why a run ends without an answer.
#[derive(Debug, Clone, Copy, PartialEq, Eq)]
pub(crate) enum Stop {
    /// A limit is reached.
    Code(u32),
    /// It takes too long to be told.
    Work,
}

/// Why a value is not there: it failed and its error is recorded, or the run has ended.
pub(crate) enum Failure {
    Up,
    Stop(Stop),
}

impl From<Stop> for Failure {
    fn from(stop: Stop) -> Self {
        Failure::Stop(stop)
    }
}

/// A completed value's text; none where a field or an item is left out.
type Completed = Result<Option<String>, Failure>;

/// What an answer comes to when it is taken.
enum Taken {
    Skip,
    Leaf(Value),
    List(Range),
    Object { type_name: u32, fields: Range },
}

pub(crate) struct Walk<'t> {
    pub(crate) tables: &'t Tables,
    choices: std::slice::Iter<'t, u32>,
    path: Vec<Segment>,
    errors: Vec<ErrorRecord>,
    seen: Seen,
    work_left: u64,
}

/// What a run went through that its answer does not tell.
#[derive(Debug, Clone, Default)]
pub struct Seen {
    /// How many selection sets were given up because a field of theirs failed.
    pub sets_given_up: u64,
    /// How many items of lists were left out.
    pub items_skipped: u64,
    /// Where resolvers answered a leaf: what stands there or below is theirs.
    pub leaves: Vec<Vec<Segment>>,
}

/// The field that is being completed: its attached type is looked at level by level, its merged
/// selections give place and child sets, its arguments are what an echo answers.
struct Completing<'f> {
    fields: &'f [FieldSelection],
    arguments: &'f Arguments,
}

impl Completing<'_> {
    fn place(&self) -> u32 {
        self.fields[0].place
    }
}

impl<'t> Walk<'t> {
    pub(crate) fn new(tables: &'t Tables, choices: &'t [u32]) -> Self {
        let (path, errors) = (Vec::new(), Vec::new());
        let seen = Seen::default();
        Walk { tables, choices: choices.iter(), path, errors, seen, work_left: WORK }
    }

    pub(crate) fn into_errors(self) -> (Vec<ErrorRecord>, Seen) {
        (self.errors, self.seen)
    }

    pub(crate) fn work(&mut self, steps: u64) -> Result<(), Stop> {
        self.work_left = self.work_left.checked_sub(steps).ok_or(Stop::Work)?;
        Ok(())
    }

    /// The node of a variable's value.
    pub(crate) fn variable(&self, name: u32) -> Option<u32> {
        let mut rows = (0..self.tables.variable_count()).map(|row| self.tables.variable(row));
        rows.find(|(other, _)| *other == name).map(|(_, node)| node)
    }

    pub(crate) fn node_value(&mut self, node: u32) -> Result<Value, Stop> {
        value::node_value(self.tables, node, &mut self.work_left).ok_or(Stop::Work)
    }

    /// Records an error at the path as it is.
    pub(crate) fn fail(&mut self, code: u32, place: u32) -> Failure {
        self.errors.push(ErrorRecord { code, place, path: self.path.clone() });
        Failure::Up
    }

    /// Does something one segment further down.
    fn under<T>(
        &mut self,
        segment: Segment,
        work: impl FnOnce(&mut Self) -> Result<T, Failure>,
    ) -> Result<T, Failure> {
        if self.path.len() == limit::OPEN {
            return Err(Failure::Stop(Stop::Code(code::LIMIT)));
        }
        self.path.push(segment);
        let done = work(self);
        self.path.pop();
        done
    }

    /// The data text of the operation.
    pub(crate) fn operation(&mut self) -> Result<String, Stop> {
        let root = self.tables.type_row(self.tables.root);
        let Answer::Object { fields, .. } = self.tables.answer(0) else {
            unreachable!("the first answer is an object")
        };
        match self.execute_selection_set(root, fields, &[0]) {
            Ok(text) => Ok(text),
            Err(Failure::Up) => Ok("null".into()),
            Err(Failure::Stop(stop)) => Err(stop),
        }
    }

    /// The text of an object whose answers are given, for the selections of some sets.
    fn execute_selection_set(
        &mut self,
        object: TypeRow,
        answers: Range,
        sets: &[u32],
    ) -> Result<String, Failure> {
        let groups = self.collect_fields(object, sets)?;
        let mut entries: Vec<Option<String>> = groups.iter().map(|_| None).collect();
        let mut left: Vec<usize> = (0..groups.len()).collect();
        while !left.is_empty() {
            let choice = self.choices.next().copied().unwrap_or(0) as usize;
            let taken = left.remove(choice % left.len());
            let done = self.execute_group(object, answers, &groups[taken]);
            self.seen.sets_given_up += u64::from(matches!(done, Err(Failure::Up)));
            entries[taken] = done?;
        }
        let present = groups.iter().zip(entries).filter_map(|(group, entry)| {
            let mut text = String::new();
            value::write_string(self.tables.name(group.key), &mut text);
            Some(text + ":" + &entry?)
        });
        Ok(format!("{{{}}}", present.collect::<Vec<_>>().join(",")))
    }

    fn execute_group(&mut self, object: TypeRow, answers: Range, group: &Group) -> Completed {
        self.work(1)?;
        match definition(self.tables, object, group.fields[0].name) {
            None => Ok(None),
            Some(definition) => self.under(Segment::Name(group.key), |walk| {
                walk.execute_field(object, answers, definition, &group.fields)
            }),
        }
    }

    fn execute_field(
        &mut self,
        object: TypeRow,
        answers: Range,
        definition: Definition,
        fields: &[FieldSelection],
    ) -> Completed {
        let (own_non_null, completed) = match definition {
            Definition::TypeName => {
                let completing = Completing { fields, arguments: &Arguments::new() };
                let name = Value::String(self.tables.name(object.name).into());
                let attached = fields[0].attached;
                (true, self.complete_value(attached, Taken::Leaf(name), &completing))
            }
            Definition::Own(own) => (
                self.tables.type_ref(own.type_ref).non_null,
                self.coerce_argument_values(own, &fields[0]).and_then(|arguments| {
                    let completing = Completing { fields, arguments: &arguments };
                    self.resolve_and_complete(answers, &completing)
                }),
            ),
        };
        nullify(own_non_null, completed)
    }

    fn resolve_and_complete(&mut self, answers: Range, completing: &Completing<'_>) -> Completed {
        let field = &completing.fields[0];
        let mut rows = answers.rows();
        match rows.find(|row| self.tables.answer_field(*row) == field.name) {
            None => Err(self.fail(1, field.place)),
            Some(row) => {
                let taken = self.take(row, completing)?;
                self.complete_value(field.attached, taken, completing)
            }
        }
    }

    /// Takes an answer. A leaf's containers count here.
    fn take(&mut self, row: u32, completing: &Completing<'_>) -> Result<Taken, Failure> {
        self.work(1)?;
        let leaf = match self.tables.answer(row) {
            Answer::Skip => return Ok(Taken::Skip),
            Answer::Error => return Err(self.fail(1, completing.place())),
            Answer::List(items) => return Ok(Taken::List(items)),
            Answer::Object { type_name, fields } => return Ok(Taken::Object { type_name, fields }),
            Answer::Leaf(node) => self.node_value(node)?,
            Answer::Echo(name) => {
                let found = completing.arguments.iter().find(|(other, _)| *other == name);
                match found {
                    Some((_, value)) => {
                        self.work(value.size())?;
                        value.clone()
                    }
                    None => return Err(self.fail(1, completing.place())),
                }
            }
        };
        if leaf.containers() > limit::OPEN {
            return Err(Failure::Stop(Stop::Code(code::LIMIT)));
        }
        Ok(Taken::Leaf(leaf))
    }

    fn complete_value(
        &mut self,
        type_ref: u32,
        taken: Taken,
        completing: &Completing<'_>,
    ) -> Completed {
        let ty = self.tables.type_ref(type_ref);
        let place = completing.place();
        match taken {
            Taken::Skip => return Ok(None),
            Taken::Leaf(Value::Null) if ty.non_null => return Err(self.fail(2, place)),
            Taken::Leaf(Value::Null) => {
                self.seen.leaves.push(self.path.clone());
                return Ok(Some("null".into()));
            }
            Taken::List(items) => return self.complete_list_value(type_ref, items, completing),
            Taken::Leaf(_) | Taken::Object { .. } => {}
        }
        let Shape::Named(name) = ty.shape else { return Err(self.fail(3, place)) };
        let Some(ty) = type_named(self.tables, name) else { return Err(self.fail(5, place)) };
        if ty.kind == type_kind::INPUT_OBJECT {
            return Err(self.fail(6, place));
        }
        match taken {
            Taken::Leaf(value) => match self.leaf_error(ty, &value) {
                Some(code) => Err(self.fail(code, place)),
                None => {
                    self.seen.leaves.push(self.path.clone());
                    let mut text = String::new();
                    value.write(&mut text);
                    Ok(Some(text))
                }
            },
            Taken::Object { type_name, fields } => match self.object_type(ty, type_name) {
                Err(code) => Err(self.fail(code, place)),
                Ok(object) => {
                    let sets: Vec<u32> =
                        completing.fields.iter().filter_map(|field| field.set).collect();
                    self.execute_selection_set(object, fields, &sets).map(Some)
                }
            },
            Taken::Skip | Taken::List(_) => unreachable!("these are completed above"),
        }
    }

    fn complete_list_value(
        &mut self,
        type_ref: u32,
        items: Range,
        completing: &Completing<'_>,
    ) -> Completed {
        let ty = self.tables.type_ref(type_ref);
        let Shape::List(inner) = ty.shape else {
            return Err(self.fail(4, completing.place()));
        };
        let inner_non_null = self.tables.type_ref(inner).non_null;
        let mut texts = Vec::new();
        for (index, row) in items.rows().enumerate() {
            // The outer failure is an error item's, which fails the list itself; the inner one is
            // of completing the item.
            let completed = self.under(Segment::Index(index as u32), |walk| {
                let taken = walk.take(row, completing)?;
                Ok(walk.complete_value(inner, taken, completing))
            })?;
            match nullify(inner_non_null, completed) {
                Ok(text) => {
                    self.seen.items_skipped += u64::from(text.is_none());
                    texts.extend(text);
                }
                Err(failure) => return nullify(ty.non_null, Err(failure)),
            }
        }
        Ok(Some(format!("[{}]", texts.join(","))))
    }

    /// The error of a leaf at a type that is defined and no input object.
    fn leaf_error(&self, ty: TypeRow, value: &Value) -> Option<u32> {
        let fits = match ty.kind {
            type_kind::OBJECT | type_kind::INTERFACE | type_kind::UNION => return Some(12),
            type_kind::ENUM => {
                let mut names =
                    ty.members.rows().map(|row| self.tables.name(self.tables.member(row)));
                let is_value = matches!(value,
                    Value::String(string) if names.any(|name| name == string));
                return (!is_value).then_some(13);
            }
            _ => match self.tables.name(ty.name) {
                "Int" => match value.as_signed() {
                    Some(signed) if i32::try_from(signed).is_err() => return Some(14),
                    signed => signed.is_some(),
                },
                "Float" => matches!(value, Value::Float(_)),
                "String" => matches!(value, Value::String(_)),
                "Boolean" => matches!(value, Value::Bool(_)),
                "ID" => matches!(value, Value::String(_)) || value.as_signed().is_some(),
                _ => true,
            },
        };
        (!fits).then_some(15)
    }

    /// The object type of an object answer at a type that is defined and no input object.
    fn object_type(&self, ty: TypeRow, type_name: u32) -> Result<TypeRow, u32> {
        let named = type_named(self.tables, type_name);
        match ty.kind {
            type_kind::SCALAR | type_kind::ENUM => Err(7),
            type_kind::OBJECT if ty.name == type_name => Ok(ty),
            type_kind::OBJECT => Err(11),
            kind => {
                let object = named.filter(|row| row.kind == type_kind::OBJECT).ok_or(8u32)?;
                match kind {
                    type_kind::UNION if !lists(self.tables, ty.members, type_name) => Err(9),
                    type_kind::INTERFACE if !lists(self.tables, object.members, ty.name) => Err(10),
                    _ => Ok(object),
                }
            }
        }
    }
}

/// A failure becomes null where the type is nullable and goes up otherwise.
fn nullify(non_null: bool, completed: Completed) -> Completed {
    match completed {
        Err(Failure::Up) if !non_null => Ok(Some("null".into())),
        other => other,
    }
}
