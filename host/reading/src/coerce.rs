//! Coercing the arguments of a field.

use crate::code;
use crate::collect::FieldSelection;
use crate::schema::type_named;
use crate::value::Value;
use crate::walk::{Failure, Stop, Walk};
use tables::layout::{limit, type_kind};
use tables::rows::{self, FieldRow, Range, Shape, TypeRow};

/// Coerced arguments by name.
pub(crate) type Arguments = Vec<(u32, Value)>;

impl Walk<'_> {
    /// The arguments that a field's own definition asks for, in definition order.
    pub(crate) fn coerce_argument_values(
        &mut self,
        definition: FieldRow,
        field: &FieldSelection,
    ) -> Result<Arguments, Failure> {
        let mut coerced = Arguments::new();
        for row in definition.arguments.rows() {
            let argument = self.tables.argument(row);
            let non_null = self.tables.type_ref(argument.type_ref).non_null;
            let mut given = field.given.rows().map(|row| self.tables.given_argument(row));
            let given = given.find(|(name, _)| *name == argument.name);
            let value = match given.map(|(_, literal)| (literal, self.tables.literal(literal))) {
                Some((_, rows::Value::Variable(name))) => match self.variable(name) {
                    Some(node) if non_null && self.tables.node(node) == rows::Value::Null => {
                        return Err(self.fail(16, argument.place));
                    }
                    Some(node) => Some(self.node_value(node)?),
                    None => None,
                },
                Some((_, rows::Value::Null)) if non_null => {
                    return Err(self.fail(16, argument.place));
                }
                Some((literal, _)) => {
                    Some(self.coerce_argument_value(argument.type_ref, literal, 0)?)
                }
                None => None,
            };
            let value = match (value, argument.default) {
                (Some(value), _) => value,
                (None, Some(default)) => self.convert(default, 0)?,
                (None, None) if non_null => return Err(self.fail(24, argument.place)),
                (None, None) => continue,
            };
            coerced.push((argument.name, value));
        }
        Ok(coerced)
    }

    /// A literal at a type, with so many containers open around it.
    fn coerce_argument_value(
        &mut self,
        type_ref: u32,
        literal: u32,
        open: usize,
    ) -> Result<Value, Failure> {
        self.work(1)?;
        let ty = self.tables.type_ref(type_ref);
        let place = self.tables.literal_place(literal);
        let value = self.tables.literal(literal);
        match value {
            rows::Value::Null if ty.non_null => return Err(self.fail(17, place)),
            rows::Value::Null => return Ok(Value::Null),
            rows::Value::Variable(name) => {
                return match self.variable(name) {
                    Some(node) if ty.non_null && self.tables.node(node) == rows::Value::Null => {
                        Err(self.fail(18, place))
                    }
                    Some(node) => Ok(self.node_value(node)?),
                    None if ty.non_null => Err(self.fail(19, place)),
                    None => Ok(Value::Null),
                };
            }
            _ => {}
        }
        let name = match ty.shape {
            Shape::List(inner) => {
                let open = opened(open)?;
                // What is no list is wrapped.
                let items = match value {
                    rows::Value::List(range) => range,
                    _ => Range { first: literal, count: 1 },
                };
                let items = items.rows().map(|item| self.coerce_argument_value(inner, item, open));
                return Ok(Value::List(items.collect::<Result<_, _>>()?));
            }
            Shape::Named(name) => name,
        };
        match type_named(self.tables, name) {
            None => Err(self.fail(20, place)),
            Some(ty) if ty.kind == type_kind::INPUT_OBJECT => {
                self.coerce_input_object(ty, literal, open)
            }
            Some(_) => Ok(self.convert(literal, open)?),
        }
    }

    fn coerce_input_object(
        &mut self,
        ty: TypeRow,
        literal: u32,
        open: usize,
    ) -> Result<Value, Failure> {
        let place = self.tables.literal_place(literal);
        let rows::Value::Object(entries) = self.tables.literal(literal) else {
            return Err(self.fail(23, place));
        };
        let fields: Vec<FieldRow> = ty.fields.rows().map(|row| self.tables.field(row)).collect();
        let mut keys = entries.rows().map(|entry| self.tables.literal_key(entry));
        if keys.any(|key| fields.iter().all(|field| field.name != key)) {
            return Err(self.fail(21, place));
        }
        let open = opened(open)?;
        let mut coerced = Vec::new();
        for field in fields {
            let mut rows = entries.rows();
            let given = rows.find(|entry| self.tables.literal_key(*entry) == field.name);
            let value = match (given, field.default) {
                (Some(entry), _) => self.coerce_argument_value(field.type_ref, entry, open)?,
                (None, Some(default)) => self.convert(default, open)?,
                (None, None) if self.tables.type_ref(field.type_ref).non_null => {
                    return Err(self.fail(22, place));
                }
                (None, None) => continue,
            };
            coerced.push((self.tables.name(field.name).to_string(), value));
        }
        Ok(Value::Object(coerced))
    }

    /// A literal part by part, whatever its type.
    fn convert(&mut self, literal: u32, open: usize) -> Result<Value, Stop> {
        self.work(1)?;
        Ok(match self.tables.literal(literal) {
            rows::Value::Null => Value::Null,
            rows::Value::Bool(value) => Value::Bool(value),
            rows::Value::Unsigned(value) => Value::Unsigned(value),
            rows::Value::Negative(magnitude) => Value::Negative(magnitude),
            rows::Value::Float(span) => Value::Float(self.tables.text(span).into()),
            rows::Value::String(span) => Value::String(self.tables.text(span).into()),
            rows::Value::Enum(name) => Value::String(self.tables.name(name).into()),
            rows::Value::Variable(_) => return Err(Stop::Code(code::VARIABLE)),
            rows::Value::List(range) => {
                let open = opened(open)?;
                let items = range.rows().map(|item| self.convert(item, open));
                Value::List(items.collect::<Result<_, _>>()?)
            }
            rows::Value::Object(range) => {
                let open = opened(open)?;
                let entries = range.rows().map(|entry| {
                    let key = self.tables.name(self.tables.literal_key(entry)).to_string();
                    Ok((key, self.convert(entry, open)?))
                });
                Value::Object(entries.collect::<Result<_, Stop>>()?)
            }
        })
    }
}

/// One container more.
fn opened(open: usize) -> Result<usize, Stop> {
    if open == limit::OPEN {
        Err(Stop::Code(code::LIMIT))
    } else {
        Ok(open + 1)
    }
}
