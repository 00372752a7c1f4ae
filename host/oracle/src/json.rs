//! JSON values, in the place of `serde_json_bytes`.
//!
//! Neither `serde_json` nor `serde_json_bytes` was at hand. Relied on are these of their documented
//! properties: a map keeps the order of insertion; a number is an unsigned 64-bit integer, a
//! negative 64-bit one, or a float, and `as_i64`, `is_i64`, `is_f64` go by that; parsing a float
//! that is not finite fails; text is escaped as RFC 8259 asks and no further.
//!
//! One thing is ours: a float keeps its spelling and is printed by it. The crate would print what
//! its own writer makes of the double; the comparison uses spellings on which the two agree.

use crate::collections::{Entries, IndexMap};
use std::fmt;
use std::str::FromStr;
use std::sync::Arc;

/// A string, and a key of a map.
#[derive(Debug, Clone, PartialEq, Eq)]
pub struct ByteString(Arc<str>);

impl ByteString {
    pub fn as_str(&self) -> &str {
        &self.0
    }
}

impl From<&str> for ByteString {
    fn from(text: &str) -> Self {
        ByteString(text.into())
    }
}

impl std::borrow::Borrow<str> for ByteString {
    fn borrow(&self) -> &str {
        &self.0
    }
}

#[derive(Debug, Clone)]
pub enum Value {
    Null,
    Bool(bool),
    Number(Number),
    String(ByteString),
    Array(Vec<Value>),
    Object(Map),
}

#[derive(Debug, Clone)]
pub enum Number {
    /// An integer from 0 on.
    Unsigned(u64),
    /// A negative integer.
    Negative(i64),
    /// A float, by its spelling.
    Float(Arc<str>),
}

impl Number {
    fn as_i64(&self) -> Option<i64> {
        match self {
            Number::Unsigned(value) => i64::try_from(*value).ok(),
            Number::Negative(value) => Some(*value),
            Number::Float(_) => None,
        }
    }

    fn as_f64(&self) -> Option<f64> {
        match self {
            Number::Unsigned(value) => Some(*value as f64),
            Number::Negative(value) => Some(*value as f64),
            Number::Float(spelling) => spelling.parse().ok(),
        }
    }
}

/// The text is no number, or one that is out of range.
#[derive(Debug)]
pub struct NotANumber;

impl FromStr for Number {
    type Err = NotANumber;

    fn from_str(text: &str) -> Result<Self, NotANumber> {
        if text.contains(['.', 'e', 'E']) {
            return match text.parse::<f64>() {
                Ok(value) if value.is_finite() => Ok(Number::Float(text.into())),
                _ => Err(NotANumber),
            };
        }
        if text.starts_with('-') {
            text.parse().map(Number::Negative).map_err(|_| NotANumber)
        } else {
            text.parse().map(Number::Unsigned).map_err(|_| NotANumber)
        }
    }
}

impl Value {
    pub fn is_null(&self) -> bool {
        matches!(self, Value::Null)
    }

    pub fn is_boolean(&self) -> bool {
        matches!(self, Value::Bool(_))
    }

    pub fn is_string(&self) -> bool {
        matches!(self, Value::String(_))
    }

    pub fn is_i64(&self) -> bool {
        self.as_i64().is_some()
    }

    pub fn is_f64(&self) -> bool {
        matches!(self, Value::Number(Number::Float(_)))
    }

    pub fn as_bool(&self) -> Option<bool> {
        match self {
            Value::Bool(value) => Some(*value),
            _ => None,
        }
    }

    pub fn as_i64(&self) -> Option<i64> {
        match self {
            Value::Number(number) => number.as_i64(),
            _ => None,
        }
    }

    pub fn as_f64(&self) -> Option<f64> {
        match self {
            Value::Number(number) => number.as_f64(),
            _ => None,
        }
    }

    pub fn as_str(&self) -> Option<&str> {
        match self {
            Value::String(text) => Some(text.as_str()),
            _ => None,
        }
    }

    pub fn as_array(&self) -> Option<&Vec<Value>> {
        match self {
            Value::Array(items) => Some(items),
            _ => None,
        }
    }

    pub fn as_object(&self) -> Option<&Map> {
        match self {
            Value::Object(map) => Some(map),
            _ => None,
        }
    }
}

impl From<bool> for Value {
    fn from(value: bool) -> Self {
        Value::Bool(value)
    }
}

impl From<&str> for Value {
    fn from(text: &str) -> Self {
        Value::String(text.into())
    }
}

impl From<Vec<Value>> for Value {
    fn from(items: Vec<Value>) -> Self {
        Value::Array(items)
    }
}

impl From<Map> for Value {
    fn from(map: Map) -> Self {
        Value::Object(map)
    }
}

impl FromIterator<Value> for Value {
    fn from_iter<I: IntoIterator<Item = Value>>(items: I) -> Self {
        Value::Array(items.into_iter().collect())
    }
}

impl<'k> FromIterator<(&'k str, Value)> for Value {
    fn from_iter<I: IntoIterator<Item = (&'k str, Value)>>(entries: I) -> Self {
        let mut map = Map::new();
        for (key, value) in entries {
            map.insert(key, value);
        }
        Value::Object(map)
    }
}

/// An object's entries in order of insertion.
#[derive(Debug, Clone, Default)]
pub struct Map {
    entries: IndexMap<ByteString, Value>,
}

impl Map {
    pub fn new() -> Self {
        Map::default()
    }

    pub fn with_capacity(capacity: usize) -> Self {
        Map { entries: IndexMap::with_capacity(capacity) }
    }

    pub fn insert(&mut self, key: impl Into<ByteString>, value: Value) -> Option<Value> {
        self.entries.insert(key.into(), value)
    }

    pub fn get(&self, key: &str) -> Option<&Value> {
        self.entries.get(key)
    }

    pub fn get_mut(&mut self, key: &str) -> Option<&mut Value> {
        self.entries.get_mut(key)
    }

    pub fn get_key_value(&self, key: &str) -> Option<(&ByteString, &Value)> {
        self.entries.get_key_value(key)
    }

    pub fn keys(&self) -> impl Iterator<Item = &ByteString> {
        self.entries.keys()
    }

    pub fn iter(&self) -> Entries<'_, ByteString, Value> {
        self.entries.iter()
    }
}

/// Compact JSON text.
impl fmt::Display for Value {
    fn fmt(&self, f: &mut fmt::Formatter<'_>) -> fmt::Result {
        match self {
            Value::Null => f.write_str("null"),
            Value::Bool(value) => write!(f, "{value}"),
            Value::Number(Number::Unsigned(value)) => write!(f, "{value}"),
            Value::Number(Number::Negative(value)) => write!(f, "{value}"),
            Value::Number(Number::Float(spelling)) => f.write_str(spelling),
            Value::String(text) => write_string(f, text.as_str()),
            Value::Array(items) => {
                f.write_str("[")?;
                for (index, item) in items.iter().enumerate() {
                    f.write_str(if index == 0 { "" } else { "," })?;
                    item.fmt(f)?;
                }
                f.write_str("]")
            }
            Value::Object(map) => map.fmt(f),
        }
    }
}

impl fmt::Display for Map {
    fn fmt(&self, f: &mut fmt::Formatter<'_>) -> fmt::Result {
        f.write_str("{")?;
        for (index, (key, value)) in self.iter().enumerate() {
            f.write_str(if index == 0 { "" } else { "," })?;
            write_string(f, key.as_str())?;
            f.write_str(":")?;
            value.fmt(f)?;
        }
        f.write_str("}")
    }
}

/// Document 01: escaped are quote, backslash, `\b \f \n \r \t` and other bytes below 32.
fn write_string(f: &mut fmt::Formatter<'_>, text: &str) -> fmt::Result {
    use fmt::Write;
    f.write_char('"')?;
    for character in text.chars() {
        match character {
            '"' => f.write_str("\\\"")?,
            '\\' => f.write_str("\\\\")?,
            '\u{8}' => f.write_str("\\b")?,
            '\u{c}' => f.write_str("\\f")?,
            '\n' => f.write_str("\\n")?,
            '\r' => f.write_str("\\r")?,
            '\t' => f.write_str("\\t")?,
            control if control < ' ' => write!(f, "\\u{:04x}", control as u32)?,
            other => f.write_char(other)?,
        }
    }
    f.write_char('"')
}
