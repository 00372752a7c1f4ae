//! Values written straight from their rows: nodes, literals part by part, literals at a type.

use crate::request::{find, part, span, Request, What};
use crate::text::Text;
use tables::layout::value_kind;

const ARRAY: [u8; 2] = *b"[]";
const OBJECT: [u8; 2] = *b"{}";

/// A 64-bit number.
fn wide(one: u32, two: u32) -> u64 {
    u64::from(two) << 32 | u64::from(one)
}

impl Request<'_> {
    /// A node's or literal's value that is no container, as nodes have it.
    fn put_scalar(&self, text: &mut Text<'_>, kind: u32, one: u32, two: u32) {
        match kind {
            value_kind::NULL => text.put_null(),
            value_kind::FALSE => text.put_bool(false),
            value_kind::TRUE => text.put_bool(true),
            value_kind::UNSIGNED => text.put_integer(wide(one, two)),
            value_kind::NEGATIVE => {
                text.put(b'-');
                text.put_integer(wide(one, two));
            }
            value_kind::FLOAT => text.put_bytes(&self.rows.pool[span(one, two)]),
            _ => text.put_string(self.rows.pool, span(one, two)),
        }
    }

    /// A leaf that [`crate::request::PlainKinds`] take.
    #[inline(always)]
    pub fn put_plain(&self, text: &mut Text<'_>, kind: u32, one: u32, two: u32) {
        match kind {
            value_kind::UNSIGNED => text.put_integer(u64::from(one)),
            value_kind::STRING => text.put_string(self.rows.pool, span(one, two)),
            value_kind::FLOAT => text.put_bytes(&self.rows.pool[span(one, two)]),
            kind => text.put_bool(kind == value_kind::TRUE),
        }
    }

    /// A node. Once the text is too long, what is left of it does not matter.
    pub fn put_node(&self, text: &mut Text<'_>, node: usize) {
        let [kind, one, two, ..] = self.rows.nodes[node];
        if kind < value_kind::LIST {
            return self.put_scalar(text, kind, one, two);
        }
        let start = text.end();
        for child in span(one, two) {
            if text.is_too_long() {
                return;
            }
            text.put(b',');
            if kind == value_kind::OBJECT {
                let [_, _, _, key, length] = self.rows.nodes[child];
                text.put_string(self.rows.pool, span(key, length));
                text.put(b':');
            }
            self.put_node(text, child);
        }
        text.close(start, if kind == value_kind::LIST { ARRAY } else { OBJECT });
    }

    /// A literal part by part. It has no variable.
    pub fn put_converted(&self, text: &mut Text<'_>, literal: usize) {
        let [kind, one, two, ..] = self.rows.literals[literal];
        match kind {
            value_kind::LIST => {
                let start = text.end();
                for item in span(one, two) {
                    if text.is_too_long() {
                        return;
                    }
                    text.put(b',');
                    self.put_converted(text, item);
                }
                text.close(start, ARRAY);
            }
            value_kind::OBJECT => {
                let start = text.end();
                for entry in span(one, two) {
                    if text.is_too_long() {
                        return;
                    }
                    text.put_key(self.rows.pool, self.name(self.rows.literals[entry][4]));
                    self.put_converted(text, entry);
                }
                text.close(start, OBJECT);
            }
            value_kind::UNSIGNED => text.put_integer(u64::from(one)),
            value_kind::NEGATIVE => {
                text.put(b'-');
                text.put_integer(u64::from(one));
            }
            value_kind::ENUM => text.put_string(self.rows.pool, self.name(one)),
            kind => self.put_scalar(text, kind, one, two),
        }
    }

    /// A literal at a type to which it can be coerced.
    pub fn put_coerced(&self, text: &mut Text<'_>, type_ref: u32, literal: usize) {
        let [kind, one, ..] = self.rows.literals[literal];
        if kind == value_kind::NULL {
            return text.put_null();
        }
        if kind == value_kind::VARIABLE {
            return match self.variable_node(one) {
                Some(node) => self.put_node(text, node),
                None => text.put_null(),
            };
        }
        let expected = self.expected(type_ref);
        match expected.what {
            What::List => {
                let start = text.end();
                for item in self.items(literal) {
                    if text.is_too_long() {
                        return;
                    }
                    text.put(b',');
                    self.put_coerced(text, u32::from(expected.row), item);
                }
                text.close(start, ARRAY);
            }
            What::InputObject => self.put_input_object(text, usize::from(expected.row), literal),
            _ => self.put_converted(text, literal),
        }
    }

    fn put_input_object(&self, text: &mut Text<'_>, ty: usize, literal: usize) {
        let [_, first, count, ..] = self.rows.literals[literal];
        let [_, _, first_field, field_count, _, _] = self.rows.types[ty];
        let entries = part(self.rows.literals, first, count);
        let start = text.end();
        let mut likely = 0;
        for &[name, type_ref, default, ..] in part(self.rows.fields, first_field, field_count) {
            if text.is_too_long() {
                return;
            }
            if let Some(at) = find::<5, 4>(entries, name, likely) {
                likely = at + 1;
                text.put_key(self.rows.pool, self.name(name));
                self.put_coerced(text, type_ref, first as usize + at);
            } else if default != 0 {
                text.put_key(self.rows.pool, self.name(name));
                self.put_converted(text, default as usize - 1);
            }
        }
        text.close(start, OBJECT);
    }
}
