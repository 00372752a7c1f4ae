//! Coercing the arguments of a field. Nothing is built: literals are looked through, once a group, and
//! a value that is echoed is written from the rows that it stands in.

use crate::outcome::{FieldError, Outcome};
use crate::request::{find, part, span, Request, What};
use std::ops::Range;
use tables::layout::{limit, value_kind};

/// What is known of the arguments of a group.
#[derive(Debug, Clone, Copy)]
pub(crate) enum Arguments {
    Unknown,
    /// All have their values. Deep where, with those of variables, more containers may be open in one
    /// than a run may take.
    Fine {
        deep: bool,
    },
    Wrong {
        error: FieldError,
        place: u32,
    },
}

/// The argument of a group that was echoed last.
#[derive(Debug, Clone, Copy)]
pub(crate) enum Echo {
    Unknown,
    Of { name: u16, argument: Argument },
}

/// The value of an argument, by the row in which it stands.
#[derive(Debug, Clone, Copy)]
pub(crate) enum Argument {
    None,
    /// A variable's value.
    Node(u16),
    /// A literal, coerced to a type.
    Literal {
        literal: u16,
        type_ref: u16,
    },
    /// A literal, converted part by part.
    Default(u16),
}

/// Why an argument has no value.
#[derive(Debug, Clone, Copy)]
pub(crate) enum Wrong {
    Error { error: FieldError, place: u32 },
    Stop(Outcome),
}

/// How many containers are open in a value at once, or why there is none.
type Coerced = Result<usize, Wrong>;

fn wrong(error: FieldError, place: u32) -> Coerced {
    Err(Wrong::Error { error, place })
}

/// The room in one container more.
fn opened(room: usize) -> Result<usize, Wrong> {
    room.checked_sub(1).ok_or(Wrong::Stop(Outcome::TooFar))
}

impl Request<'_> {
    /// The arguments that a field's own definition asks for, as its first selection gives them.
    pub fn coerce_argument_values(
        &self,
        definition: u16,
        selection: u16,
    ) -> Result<Arguments, Wrong> {
        let [_, _, _, _, first, count] = self.rows.fields[usize::from(definition)];
        let mut most = 0;
        for row in span(first, count) {
            let [_, type_ref, _, place] = self.rows.arguments[row];
            let coerced = match self.argument(row, selection) {
                Argument::Literal { literal, type_ref } => {
                    let is_null = self.rows.literals[usize::from(literal)][0] == value_kind::NULL;
                    if is_null && self.is_non_null(u32::from(type_ref)) {
                        return Err(Wrong::Error { error: FieldError::NullArgument, place });
                    }
                    self.coerce_argument_value(
                        u32::from(type_ref),
                        usize::from(literal),
                        limit::OPEN,
                    )?
                }
                Argument::Node(node) => {
                    let node = usize::from(node);
                    if self.rows.nodes[node][0] == value_kind::NULL && self.is_non_null(type_ref) {
                        return Err(Wrong::Error { error: FieldError::NullArgument, place });
                    }
                    self.containers(node, limit::OPEN)
                }
                Argument::Default(literal) => self.convert(usize::from(literal), limit::OPEN)?,
                Argument::None if self.is_non_null(type_ref) => {
                    return Err(Wrong::Error { error: FieldError::MissingArgument, place });
                }
                Argument::None => 0,
            };
            most = most.max(coerced);
        }
        Ok(Arguments::Fine { deep: most > limit::OPEN })
    }

    /// The argument of a name, where a field has one.
    pub fn argument_named(&self, definition: u16, selection: u16, name: u32) -> Argument {
        let [_, _, _, _, first, count] = self.rows.fields[usize::from(definition)];
        match find::<4, 0>(part(self.rows.arguments, first, count), name, 0) {
            Some(at) => self.argument(first as usize + at, selection),
            None => Argument::None,
        }
    }

    /// The value of an argument, by its definition and the first selection of its field.
    fn argument(&self, row: usize, selection: u16) -> Argument {
        let [name, type_ref, default, _] = self.rows.arguments[row];
        let [_, _, _, _, _, _, first, count, ..] = self.rows.selections[usize::from(selection)];
        let given = part(self.rows.given, first, count);
        if let Some(at) = find::<2, 0>(given, name, 0) {
            let literal = given[at][1];
            let [kind, variable, ..] = self.rows.literals[literal as usize];
            if kind != value_kind::VARIABLE {
                return Argument::Literal { literal: literal as u16, type_ref: type_ref as u16 };
            }
            if let Some(node) = self.variable_node(variable) {
                return Argument::Node(node as u16);
            }
        }
        default.checked_sub(1).map_or(Argument::None, |literal| Argument::Default(literal as u16))
    }

    /// A literal at a type, in which so many more containers may be open.
    pub fn coerce_argument_value(&self, type_ref: u32, literal: usize, room: usize) -> Coerced {
        let [kind, one, _, place, _] = self.rows.literals[literal];
        let expected = self.expected(type_ref);
        if kind == value_kind::NULL {
            return if expected.non_null { wrong(FieldError::InnerNull, place) } else { Ok(0) };
        }
        if kind == value_kind::VARIABLE {
            return match self.variable_node(one) {
                None if expected.non_null => wrong(FieldError::MissingVariable, place),
                None => Ok(0),
                Some(node) if expected.non_null && self.rows.nodes[node][0] == value_kind::NULL => {
                    wrong(FieldError::NullVariable, place)
                }
                Some(node) => Ok(self.containers(node, limit::OPEN)),
            };
        }
        match expected.what {
            What::List => {
                let room = opened(room)?;
                let mut most = 0;
                for item in self.items(literal) {
                    let inner = u32::from(expected.row);
                    most = most.max(self.coerce_argument_value(inner, item, room)?);
                }
                Ok(most + 1)
            }
            What::Undefined => wrong(FieldError::UndefinedInputType, place),
            What::InputObject => self.coerce_input_object(usize::from(expected.row), literal, room),
            _ => self.convert(literal, room),
        }
    }

    /// The items of a literal at a list type: what is no list is wrapped.
    pub fn items(&self, literal: usize) -> Range<usize> {
        match self.rows.literals[literal] {
            [value_kind::LIST, first, count, ..] => span(first, count),
            _ => literal..literal + 1,
        }
    }

    fn coerce_input_object(&self, ty: usize, literal: usize, room: usize) -> Coerced {
        let [kind, first, count, place, _] = self.rows.literals[literal];
        if kind != value_kind::OBJECT {
            return wrong(FieldError::CannotCoerce, place);
        }
        let [_, _, first_field, field_count, _, _] = self.rows.types[ty];
        let fields = part(self.rows.fields, first_field, field_count);
        let entries = part(self.rows.literals, first, count);
        for (likely, entry) in entries.iter().enumerate() {
            if find::<6, 0>(fields, entry[4], likely).is_none() {
                return wrong(FieldError::UnknownKey, place);
            }
        }
        let room = opened(room)?;
        let mut likely = 0;
        let mut most = 0;
        for &[name, type_ref, default, ..] in fields {
            let inside = match find::<5, 4>(entries, name, likely) {
                Some(at) => {
                    likely = at + 1;
                    self.coerce_argument_value(type_ref, first as usize + at, room)?
                }
                None if default != 0 => self.convert(default as usize - 1, room)?,
                None if self.is_non_null(type_ref) => {
                    return wrong(FieldError::MissingInputField, place);
                }
                None => 0,
            };
            most = most.max(inside);
        }
        Ok(most + 1)
    }

    /// A literal part by part, whatever its type.
    fn convert(&self, literal: usize, room: usize) -> Coerced {
        let [kind, first, count, ..] = self.rows.literals[literal];
        match kind {
            value_kind::VARIABLE => Err(Wrong::Stop(Outcome::VariableInLiteral)),
            value_kind::LIST | value_kind::OBJECT => {
                let room = opened(room)?;
                let mut most = 0;
                for inside in span(first, count) {
                    most = most.max(self.convert(inside, room)?);
                }
                Ok(most + 1)
            }
            _ => Ok(0),
        }
    }

    /// How many containers are open at once in a node; where these are more than `most`, one more.
    pub fn containers(&self, node: usize, most: usize) -> usize {
        let [kind, first, count, ..] = self.rows.nodes[node];
        if kind < value_kind::LIST {
            return 0;
        }
        let Some(room) = most.checked_sub(1) else { return 1 };
        let mut inside = 0;
        for child in span(first, count) {
            inside = inside.max(self.containers(child, room));
            if inside > room {
                break;
            }
        }
        inside + 1
    }
}
