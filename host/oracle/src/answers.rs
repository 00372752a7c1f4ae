//! Answer rows as resolver objects.

use crate::judge::CannotJudge;
use crate::resolvers::{FieldError, ObjectValue, ResolveInfo, ResolvedValue};
use crate::response::{JsonMap, JsonValue};
use crate::translate::node_value;
use std::cell::{Cell, RefCell};
use std::collections::HashMap;
use tables::layout::limit;
use tables::rows::{Answer, Range};
use tables::Tables;

/// The most fields and items that a run may ask for, and the most JSON nodes it may be handed.
/// Answers may lead back to earlier ones, and rows may be shared: a path of 32 segments is no
/// bound that a judge could wait for.
const WORK: u64 = 300_000;

/// What the resolvers of a run share.
pub(crate) struct Run<'t> {
    tables: &'t Tables,
    names: HashMap<&'t str, u32>,
    node_sizes: &'t [u64],
    work: Cell<u64>,
    stopped: RefCell<Option<CannotJudge>>,
}

impl<'t> Run<'t> {
    pub(crate) fn new(tables: &'t Tables, node_sizes: &'t [u64]) -> Self {
        let names = (0..tables.name_count()).map(|number| (tables.name(number), number)).collect();
        Run { tables, names, node_sizes, work: Cell::new(0), stopped: RefCell::new(None) }
    }

    /// Why the run's answer is worth nothing, if it is.
    pub(crate) fn stopped(&self) -> Option<CannotJudge> {
        self.stopped.borrow().clone()
    }

    /// The answer of the root.
    pub(crate) fn root(&self) -> impl ObjectValue + '_ {
        let Answer::Object { type_name, fields } = self.tables.answer(0) else {
            unreachable!("the first answer is an object")
        };
        ObjectRow { run: self, type_name, fields, path: 0 }
    }

    /// Counts what is asked for at a path of that length. Once a run is stopped, everything fails,
    /// so that it ends soon.
    fn ask(&self, path: usize, work: u64) -> Result<(), FieldError> {
        self.work.set(self.work.get().saturating_add(work));
        let mut stopped = self.stopped.borrow_mut();
        if stopped.is_none() {
            if path > limit::OPEN {
                *stopped = Some(CannotJudge::LongPath);
            } else if self.work.get() > WORK {
                *stopped = Some(CannotJudge::Work);
            }
        }
        match *stopped {
            None => Ok(()),
            Some(_) => Err(failed("the run is stopped")),
        }
    }

    /// What an answer row resolves to, for a field with these arguments, at a path of that length.
    fn resolve<'a>(
        &'a self,
        row: u32,
        path: usize,
        arguments: &'a JsonMap,
    ) -> Result<ResolvedValue<'a>, FieldError> {
        self.ask(path, 1)?;
        match self.tables.answer(row) {
            Answer::Skip => Ok(ResolvedValue::SkipForPartialExecution),
            Answer::Error => Err(failed("answered")),
            Answer::Leaf(node) => {
                self.ask(path, self.node_sizes[node as usize])?;
                Ok(ResolvedValue::leaf(node_value(self.tables, node)))
            }
            Answer::List(items) => {
                let items = items.rows();
                let items = items.map(move |item| self.resolve(item, path + 1, arguments));
                Ok(ResolvedValue::List(Box::new(items)))
            }
            Answer::Object { type_name, fields } => {
                Ok(ResolvedValue::object(ObjectRow { run: self, type_name, fields, path }))
            }
            Answer::Echo(argument) => match arguments.get(self.tables.name(argument)) {
                Some(value) => {
                    self.ask(path, size(value))?;
                    Ok(ResolvedValue::leaf(value.clone()))
                }
                None => Err(failed("there is no such argument")),
            },
        }
    }
}

/// How many values stand within a value, itself among them.
fn size(value: &JsonValue) -> u64 {
    match value {
        JsonValue::Array(items) => items.iter().map(size).sum::<u64>() + 1,
        JsonValue::Object(map) => map.iter().map(|(_, value)| size(value)).sum::<u64>() + 1,
        _ => 1,
    }
}

fn failed(message: &str) -> FieldError {
    FieldError { message: message.into() }
}

/// An object answer at a path of that length.
struct ObjectRow<'r> {
    run: &'r Run<'r>,
    type_name: u32,
    fields: Range,
    path: usize,
}

impl ObjectValue for ObjectRow<'_> {
    fn type_name(&self) -> &str {
        self.run.tables.name(self.type_name)
    }

    fn resolve_field<'a>(
        &'a self,
        info: &'a ResolveInfo<'a>,
    ) -> Result<ResolvedValue<'a>, FieldError> {
        self.run.ask(self.path + 1, 1)?;
        let name = self.run.names.get(info.field_name());
        let mut rows = self.fields.rows();
        match rows.find(|row| Some(&self.run.tables.answer_field(*row)) == name) {
            Some(row) => self.run.resolve(row, self.path + 1, info.arguments()),
            None => Err(failed("no row answers this field")),
        }
    }
}
