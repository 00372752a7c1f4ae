//! JSON values: leaves and coerced arguments.

use std::fmt::Write;
use tables::rows;
use tables::Tables;

#[derive(Debug, Clone)]
pub(crate) enum Value {
    Null,
    Bool(bool),
    Unsigned(u64),
    /// A negative integer, by its magnitude.
    Negative(u64),
    /// By its spelling.
    Float(String),
    String(String),
    List(Vec<Value>),
    Object(Vec<(String, Value)>),
}

impl Value {
    /// A signed 64-bit integer.
    pub(crate) fn as_signed(&self) -> Option<i64> {
        match self {
            Value::Unsigned(value) => i64::try_from(*value).ok(),
            Value::Negative(magnitude) => i64::try_from(-i128::from(*magnitude)).ok(),
            _ => None,
        }
    }

    /// How many containers are open at the deepest place within.
    pub(crate) fn containers(&self) -> usize {
        match self {
            Value::List(items) => 1 + items.iter().map(Value::containers).max().unwrap_or(0),
            Value::Object(entries) => {
                1 + entries.iter().map(|(_, value)| value.containers()).max().unwrap_or(0)
            }
            _ => 0,
        }
    }

    /// How many values stand within, itself among them.
    pub(crate) fn size(&self) -> u64 {
        match self {
            Value::List(items) => items.iter().map(Value::size).sum::<u64>() + 1,
            Value::Object(entries) => {
                entries.iter().map(|(_, value)| value.size()).sum::<u64>() + 1
            }
            _ => 1,
        }
    }

    pub(crate) fn write(&self, text: &mut String) {
        match self {
            Value::Null => text.push_str("null"),
            Value::Bool(value) => text.push_str(if *value { "true" } else { "false" }),
            Value::Unsigned(value) => write!(text, "{value}").expect("text can grow"),
            Value::Negative(magnitude) => write!(text, "-{magnitude}").expect("text can grow"),
            Value::Float(spelling) => text.push_str(spelling),
            Value::String(string) => write_string(string, text),
            Value::List(items) => {
                text.push('[');
                for (index, item) in items.iter().enumerate() {
                    if index > 0 {
                        text.push(',');
                    }
                    item.write(text);
                }
                text.push(']');
            }
            Value::Object(entries) => {
                text.push('{');
                for (index, (key, value)) in entries.iter().enumerate() {
                    if index > 0 {
                        text.push(',');
                    }
                    write_string(key, text);
                    text.push(':');
                    value.write(text);
                }
                text.push('}');
            }
        }
    }
}

/// Escaped are quote, backslash, `\b \f \n \r \t`, and other bytes below 32 as `\u00` and two
/// lowercase hex digits.
pub(crate) fn write_string(string: &str, text: &mut String) {
    text.push('"');
    for letter in string.chars() {
        let short = match letter {
            '"' | '\\' => Some(letter),
            '\u{8}' => Some('b'),
            '\u{c}' => Some('f'),
            '\n' => Some('n'),
            '\r' => Some('r'),
            '\t' => Some('t'),
            _ => None,
        };
        match short {
            Some(short) => text.extend(['\\', short]),
            None if letter < ' ' => {
                write!(text, "\\u00{:02x}", letter as u32).expect("text can grow")
            }
            None => text.push(letter),
        }
    }
    text.push('"');
}

/// The value of a JSON node. `room` falls by one a row; `None` when there is none left.
pub(crate) fn node_value(tables: &Tables, row: u32, room: &mut u64) -> Option<Value> {
    *room = room.checked_sub(1)?;
    Some(match tables.node(row) {
        rows::Value::Null => Value::Null,
        rows::Value::Bool(value) => Value::Bool(value),
        rows::Value::Unsigned(value) => Value::Unsigned(value),
        rows::Value::Negative(magnitude) => Value::Negative(magnitude),
        rows::Value::Float(span) => Value::Float(tables.text(span).into()),
        rows::Value::String(span) => Value::String(tables.text(span).into()),
        rows::Value::List(range) => {
            let items = range.rows().map(|item| node_value(tables, item, room));
            Value::List(items.collect::<Option<_>>()?)
        }
        rows::Value::Object(range) => {
            let entries = range.rows().map(|entry| {
                let key = tables.text(tables.node_key(entry)).to_string();
                Some((key, node_value(tables, entry, room)?))
            });
            Value::Object(entries.collect::<Option<_>>()?)
        }
        rows::Value::Enum(_) | rows::Value::Variable(_) => unreachable!("only literals are these"),
    })
}
