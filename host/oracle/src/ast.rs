//! Types, literals, definitions of fields and arguments, directives.

use crate::node::Node;
use crate::Name;
use std::fmt;
use std::ops::Deref;

/// A type reference: named or list, nullable or not.
#[derive(Debug, Clone)]
pub enum Type {
    Named(Name),
    NonNullNamed(Name),
    List(Box<Type>),
    NonNullList(Box<Type>),
}

impl Type {
    pub fn is_non_null(&self) -> bool {
        matches!(self, Type::NonNullNamed(_) | Type::NonNullList(_))
    }
}

impl fmt::Display for Type {
    fn fmt(&self, f: &mut fmt::Formatter<'_>) -> fmt::Result {
        match self {
            Type::Named(name) => write!(f, "{name}"),
            Type::NonNullNamed(name) => write!(f, "{name}!"),
            Type::List(inner) => write!(f, "[{inner}]"),
            Type::NonNullList(inner) => write!(f, "[{inner}]!"),
        }
    }
}

/// A literal of the document or of a default.
pub enum Value {
    Null,
    Enum(Name),
    Variable(Name),
    String(String),
    Float(NumberText),
    Int(NumberText),
    Boolean(bool),
    List(Vec<Node<Value>>),
    Object(Vec<(Name, Node<Value>)>),
}

/// A number as it is spelled in the document.
pub struct NumberText(pub String);

impl NumberText {
    pub fn as_str(&self) -> &str {
        &self.0
    }
}

impl Value {
    pub fn is_null(&self) -> bool {
        matches!(self, Value::Null)
    }

    pub fn as_variable(&self) -> Option<&Name> {
        match self {
            Value::Variable(name) => Some(name),
            _ => None,
        }
    }

    pub fn as_list(&self) -> Option<&[Node<Value>]> {
        match self {
            Value::List(items) => Some(items),
            _ => None,
        }
    }

    pub fn as_object(&self) -> Option<&[(Name, Node<Value>)]> {
        match self {
            Value::Object(entries) => Some(entries),
            _ => None,
        }
    }
}

/// Only for message texts, which nothing compares: enough to read one by.
impl fmt::Display for Value {
    fn fmt(&self, f: &mut fmt::Formatter<'_>) -> fmt::Result {
        match self {
            Value::Null => f.write_str("null"),
            Value::Enum(name) => write!(f, "{name}"),
            Value::Variable(name) => write!(f, "${name}"),
            Value::String(text) => write!(f, "{text:?}"),
            Value::Float(number) | Value::Int(number) => f.write_str(number.as_str()),
            Value::Boolean(value) => write!(f, "{value}"),
            Value::List(_) => f.write_str("[…]"),
            Value::Object(_) => f.write_str("{…}"),
        }
    }
}

/// An argument as a field or a directive gives it.
pub struct Argument {
    pub name: Name,
    pub value: Node<Value>,
}

pub struct Directive {
    pub name: Name,
    pub arguments: Vec<Node<Argument>>,
}

impl Directive {
    pub fn specified_argument_by_name(&self, name: &str) -> Option<&Node<Value>> {
        let argument = self.arguments.iter().find(|argument| argument.name == *name)?;
        Some(&argument.value)
    }
}

#[derive(Default)]
pub struct DirectiveList(pub Vec<Node<Directive>>);

impl DirectiveList {
    /// The first directive of that name.
    pub fn get(&self, name: &str) -> Option<&Node<Directive>> {
        self.0.iter().find(|directive| directive.name == *name)
    }
}

/// An output field of an object or interface type.
pub struct FieldDefinition {
    pub arguments: Vec<Node<InputValueDefinition>>,
    pub ty: Type,
}

/// An argument of a field, or a field of an input object.
pub struct InputValueDefinition {
    pub name: Name,
    pub ty: Node<Type>,
    pub default_value: Option<Node<Value>>,
}

/// A variable of an operation. The oracle's variables are coerced already, so it declares none.
pub struct VariableDefinition {
    pub name: Name,
    pub ty: Node<Type>,
    pub default_value: Option<Node<Value>>,
}

impl Deref for DirectiveList {
    type Target = [Node<Directive>];

    fn deref(&self) -> &Self::Target {
        &self.0
    }
}
