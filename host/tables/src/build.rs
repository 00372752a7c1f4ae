//! From a description to tables.

use crate::describe::{self as d, Case};
use crate::layout::{
    answer_kind, condition, selection_kind, type_kind, value_kind, width, RESERVED,
};
use crate::rows::{Range, Span, Tables};
use std::collections::HashMap;

/// The tables of a description. Names are numbered as they are met, the reserved ones first;
/// equal strings share their bytes, equal type references their row.
pub fn build(case: &Case) -> Tables {
    let mut builder = Builder::default();
    for name in RESERVED {
        builder.name(name);
    }
    builder.types(&case.types);
    let root = case.types.iter().position(|ty| ty.name == case.root);
    builder.tables.root = root.expect("the root type is described") as u32;
    builder.document(case);
    builder.variables(&case.variables);
    builder.answers(&case.answer);
    builder.tables
}

#[derive(Default)]
struct Builder {
    tables: Tables,
    names: HashMap<String, u32>,
    strings: HashMap<String, Span>,
    type_refs: HashMap<d::Type, u32>,
}

/// Room for `count` rows that follow one another; the first row's number.
fn reserve(table: &mut Vec<u32>, width: usize, count: usize) -> u32 {
    let first = (table.len() / width) as u32;
    table.resize(table.len() + count * width, 0);
    first
}

fn fill(table: &mut [u32], row: u32, words: &[u32]) {
    let start = row as usize * words.len();
    table[start..start + words.len()].copy_from_slice(words);
}

/// A row's number plus one; 0 for none.
fn row_or_none(row: Option<u32>) -> u32 {
    row.map_or(0, |row| row + 1)
}

fn kind_number(kind: d::Kind) -> u32 {
    match kind {
        d::Kind::Scalar => type_kind::SCALAR,
        d::Kind::Enum => type_kind::ENUM,
        d::Kind::Object => type_kind::OBJECT,
        d::Kind::Interface => type_kind::INTERFACE,
        d::Kind::Union => type_kind::UNION,
        d::Kind::InputObject => type_kind::INPUT_OBJECT,
    }
}

impl Builder {
    fn string(&mut self, text: &str) -> Span {
        if let Some(span) = self.strings.get(text) {
            return *span;
        }
        let span = Span { start: self.tables.pool.len() as u32, length: text.len() as u32 };
        self.tables.pool.extend_from_slice(text.as_bytes());
        self.strings.insert(text.into(), span);
        span
    }

    fn name(&mut self, text: &str) -> u32 {
        if let Some(number) = self.names.get(text) {
            return *number;
        }
        let span = self.string(text);
        let number = self.tables.name_count();
        self.tables.names.extend([span.start, span.length]);
        self.names.insert(text.into(), number);
        number
    }

    fn type_ref(&mut self, ty: &d::Type) -> u32 {
        if let Some(row) = self.type_refs.get(ty) {
            return *row;
        }
        let (kind, target) = match &ty.shape {
            d::Shape::Named(name) => (0, self.name(name)),
            d::Shape::List(inner) => (1, self.type_ref(inner)),
        };
        let row = reserve(&mut self.tables.type_refs, width::TYPE_REFS, 1);
        fill(&mut self.tables.type_refs, row, &[kind, u32::from(ty.non_null), target]);
        self.type_refs.insert(ty.clone(), row);
        row
    }

    fn types(&mut self, types: &[d::TypeDef]) {
        for ty in types {
            let name = self.name(&ty.name);
            let first_field = reserve(&mut self.tables.fields, width::FIELDS, ty.fields.len());
            for (row, field) in (first_field..).zip(&ty.fields) {
                self.field(row, field);
            }
            let first_member = self.tables.members.len() as u32;
            for member in &ty.members {
                let member = self.name(member);
                self.tables.members.push(member);
            }
            let (fields, members) = (ty.fields.len() as u32, ty.members.len() as u32);
            let kind = kind_number(ty.kind);
            self.tables.types.extend([name, kind, first_field, fields, first_member, members]);
        }
    }

    fn field(&mut self, row: u32, field: &d::FieldDef) {
        let name = self.name(&field.name);
        let type_ref = self.type_ref(&field.ty);
        let default = self.default_literal(&field.default);
        let count = field.arguments.len();
        let first = reserve(&mut self.tables.arguments, width::ARGUMENTS, count);
        for (row, argument) in (first..).zip(&field.arguments) {
            let name = self.name(&argument.name);
            let type_ref = self.type_ref(&argument.ty);
            let default = self.default_literal(&argument.default);
            fill(&mut self.tables.arguments, row, &[name, type_ref, default, argument.place]);
        }
        let words = [name, type_ref, default, field.place, first, count as u32];
        fill(&mut self.tables.fields, row, &words);
    }

    fn default_literal(&mut self, default: &Option<d::Literal>) -> u32 {
        row_or_none(default.as_ref().map(|literal| self.literal(literal)))
    }

    /// A literal that is nobody's child.
    fn literal(&mut self, literal: &d::Literal) -> u32 {
        self.literals(std::iter::once((0, literal))).first
    }

    fn literals<'l>(&mut self, items: impl Iterator<Item = (u32, &'l d::Literal)>) -> Range {
        let items: Vec<_> = items.collect();
        let first = reserve(&mut self.tables.literals, width::LITERALS, items.len());
        for (row, (key, literal)) in (first..).zip(&items) {
            let [kind, one, two] = self.literal_words(&literal.value);
            fill(&mut self.tables.literals, row, &[kind, one, two, literal.place, *key]);
        }
        Range { first, count: items.len() as u32 }
    }

    fn literal_words(&mut self, value: &d::LiteralValue) -> [u32; 3] {
        match value {
            d::LiteralValue::Null => [value_kind::NULL, 0, 0],
            d::LiteralValue::Bool(false) => [value_kind::FALSE, 0, 0],
            d::LiteralValue::Bool(true) => [value_kind::TRUE, 0, 0],
            d::LiteralValue::Int(value) => {
                let kind = if *value < 0 { value_kind::NEGATIVE } else { value_kind::UNSIGNED };
                [kind, value.unsigned_abs() as u32, 0]
            }
            d::LiteralValue::Float(text) => self.string_words(value_kind::FLOAT, text),
            d::LiteralValue::String(text) => self.string_words(value_kind::STRING, text),
            d::LiteralValue::List(items) => {
                let range = self.literals(items.iter().map(|item| (0, item)));
                [value_kind::LIST, range.first, range.count]
            }
            d::LiteralValue::Object(entries) => {
                let keys: Vec<u32> = entries.iter().map(|(key, _)| self.name(key)).collect();
                let values = entries.iter().map(|(_, literal)| literal);
                let range = self.literals(keys.into_iter().zip(values));
                [value_kind::OBJECT, range.first, range.count]
            }
            d::LiteralValue::Enum(name) => [value_kind::ENUM, self.name(name), 0],
            d::LiteralValue::Variable(name) => [value_kind::VARIABLE, self.name(name), 0],
        }
    }

    fn string_words(&mut self, kind: u32, text: &str) -> [u32; 3] {
        let span = self.string(text);
        [kind, span.start, span.length]
    }

    fn document(&mut self, case: &Case) {
        self.set(&case.operation);
        for fragment in &case.fragments {
            let name = self.name(&fragment.name);
            let condition = self.name(&fragment.condition);
            let set = self.set(&fragment.set);
            self.tables.fragments.extend([name, condition, set]);
        }
    }

    /// A set is numbered before the sets below it, so a child has the larger number.
    fn set(&mut self, selections: &[d::Selection]) -> u32 {
        let set = reserve(&mut self.tables.sets, width::SETS, 1);
        let count = selections.len();
        let first = reserve(&mut self.tables.selections, width::SELECTIONS, count);
        fill(&mut self.tables.sets, set, &[first, count as u32]);
        for (row, selection) in (first..).zip(selections) {
            let skip = self.condition(&selection.skip);
            let include = self.condition(&selection.include);
            let (kind, [name, key, given, count, set, attached]) = match &selection.kind {
                d::SelectionKind::Field(field) => (selection_kind::FIELD, self.field_words(field)),
                d::SelectionKind::Spread(name) => {
                    (selection_kind::SPREAD, [self.name(name), 0, 0, 0, 0, 0])
                }
                d::SelectionKind::Inline { condition, set } => {
                    let condition = condition.as_ref().map(|name| self.name(name));
                    let set = self.set(set);
                    (selection_kind::INLINE, [row_or_none(condition), 0, 0, 0, set, 0])
                }
            };
            let place = selection.place;
            let words = [kind, skip, include, place, name, key, given, count, set, attached];
            fill(&mut self.tables.selections, row, &words);
        }
        set
    }

    fn condition(&mut self, condition: &d::Condition) -> u32 {
        match condition {
            d::Condition::None => condition::NONE,
            d::Condition::Constant(false) => condition::FALSE,
            d::Condition::Constant(true) => condition::TRUE,
            d::Condition::Variable(name) => condition::VARIABLE + self.name(name),
        }
    }

    fn field_words(&mut self, field: &d::Field) -> [u32; 6] {
        let name = self.name(&field.name);
        let key = self.name(&field.key);
        let count = field.arguments.len();
        let first = reserve(&mut self.tables.given, width::GIVEN, count);
        for (row, (name, literal)) in (first..).zip(&field.arguments) {
            let words = [self.name(name), self.literal(literal)];
            fill(&mut self.tables.given, row, &words);
        }
        let set = field.set.as_ref().map_or(0, |set| self.set(set));
        [name, key, first, count as u32, set, self.type_ref(&field.attached)]
    }

    fn variables(&mut self, variables: &[(String, d::Json)]) {
        for (name, value) in variables {
            let name = self.name(name);
            let node = self.node(value);
            self.tables.variables.extend([name, node]);
        }
    }

    /// A node that is nobody's child.
    fn node(&mut self, value: &d::Json) -> u32 {
        self.nodes(std::iter::once((Span { start: 0, length: 0 }, value))).first
    }

    fn nodes<'n>(&mut self, items: impl Iterator<Item = (Span, &'n d::Json)>) -> Range {
        let items: Vec<_> = items.collect();
        let first = reserve(&mut self.tables.nodes, width::NODES, items.len());
        for (row, (key, value)) in (first..).zip(&items) {
            let [kind, one, two] = self.node_words(value);
            fill(&mut self.tables.nodes, row, &[kind, one, two, key.start, key.length]);
        }
        Range { first, count: items.len() as u32 }
    }

    fn node_words(&mut self, value: &d::Json) -> [u32; 3] {
        match value {
            d::Json::Null => [value_kind::NULL, 0, 0],
            d::Json::Bool(false) => [value_kind::FALSE, 0, 0],
            d::Json::Bool(true) => [value_kind::TRUE, 0, 0],
            d::Json::Int(value) => {
                let kind = if *value < 0 { value_kind::NEGATIVE } else { value_kind::UNSIGNED };
                let magnitude = value.unsigned_abs();
                [kind, magnitude as u32, (magnitude >> 32) as u32]
            }
            d::Json::Float(text) => self.string_words(value_kind::FLOAT, text),
            d::Json::String(text) => self.string_words(value_kind::STRING, text),
            d::Json::Array(items) => {
                let no_key = Span { start: 0, length: 0 };
                let range = self.nodes(items.iter().map(|item| (no_key, item)));
                [value_kind::LIST, range.first, range.count]
            }
            d::Json::Object(entries) => {
                let keys: Vec<Span> = entries.iter().map(|(key, _)| self.string(key)).collect();
                let values = entries.iter().map(|(_, value)| value);
                let range = self.nodes(keys.into_iter().zip(values));
                [value_kind::OBJECT, range.first, range.count]
            }
        }
    }

    fn answers(&mut self, root: &d::ObjectAnswer) {
        let row = reserve(&mut self.tables.answers, width::ANSWERS, 1);
        let words = self.object_words(root, &mut Vec::new());
        self.answer_row(row, 0, words);
    }

    fn answer_row(&mut self, row: u32, field: u32, [kind, one, two, three]: [u32; 4]) {
        fill(&mut self.tables.answers, row, &[kind, field, one, two, three]);
    }

    /// `around` has the ranges of the objects around, the nearest last.
    fn answer_words(&mut self, answer: &d::Answer, around: &mut Vec<Range>) -> [u32; 4] {
        match answer {
            d::Answer::Skip => [answer_kind::SKIP, 0, 0, 0],
            d::Answer::Error => [answer_kind::ERROR, 0, 0, 0],
            d::Answer::Leaf(value) => [answer_kind::LEAF, self.node(value), 0, 0],
            d::Answer::Echo(name) => [answer_kind::ECHO, self.name(name), 0, 0],
            d::Answer::Object(object) => self.object_words(object, around),
            d::Answer::List(items) => {
                let first = reserve(&mut self.tables.answers, width::ANSWERS, items.len());
                for (row, item) in (first..).zip(items) {
                    let words = self.answer_words(item, around);
                    self.answer_row(row, 0, words);
                }
                [answer_kind::LIST, first, items.len() as u32, 0]
            }
            d::Answer::Again { type_name, outwards } => {
                let range = around[around.len().saturating_sub(1 + outwards)];
                [answer_kind::OBJECT, self.name(type_name), range.first, range.count]
            }
        }
    }

    fn object_words(&mut self, object: &d::ObjectAnswer, around: &mut Vec<Range>) -> [u32; 4] {
        let type_name = self.name(&object.type_name);
        let count = object.fields.len();
        let first = reserve(&mut self.tables.answers, width::ANSWERS, count);
        around.push(Range { first, count: count as u32 });
        for (row, (field, answer)) in (first..).zip(&object.fields) {
            let field = self.name(field);
            let words = self.answer_words(answer, around);
            self.answer_row(row, field, words);
        }
        around.pop();
        [answer_kind::OBJECT, type_name, first, count as u32]
    }
}
