//! The tables and a view of each row. The views trust the words: see [`crate::rules`].

use crate::layout::{answer_kind, condition, selection_kind, value_kind, width};

/// The sixteen things that every entry is lent.
#[derive(Debug, Clone, Default, PartialEq, Eq)]
pub struct Tables {
    pub pool: Vec<u8>,
    pub names: Vec<u32>,
    pub type_refs: Vec<u32>,
    pub types: Vec<u32>,
    pub members: Vec<u32>,
    pub fields: Vec<u32>,
    pub arguments: Vec<u32>,
    pub sets: Vec<u32>,
    pub selections: Vec<u32>,
    pub given: Vec<u32>,
    pub fragments: Vec<u32>,
    pub nodes: Vec<u32>,
    pub literals: Vec<u32>,
    pub variables: Vec<u32>,
    pub answers: Vec<u32>,
    pub root: u32,
}

/// Rows that belong together.
#[derive(Debug, Clone, Copy, PartialEq, Eq)]
pub struct Range {
    pub first: u32,
    pub count: u32,
}

impl Range {
    pub fn rows(self) -> std::ops::Range<u32> {
        self.first..self.first + self.count
    }
}

/// A string of the pool.
#[derive(Debug, Clone, Copy, PartialEq, Eq, Hash)]
pub struct Span {
    pub start: u32,
    pub length: u32,
}

#[derive(Debug, Clone, Copy, PartialEq, Eq)]
pub enum Shape {
    Named(u32),
    List(u32),
}

#[derive(Debug, Clone, Copy, PartialEq, Eq)]
pub struct TypeRef {
    pub shape: Shape,
    pub non_null: bool,
}

#[derive(Debug, Clone, Copy)]
pub struct TypeRow {
    pub name: u32,
    pub kind: u32,
    pub fields: Range,
    pub members: Range,
}

#[derive(Debug, Clone, Copy)]
pub struct FieldRow {
    pub name: u32,
    pub type_ref: u32,
    pub default: Option<u32>,
    pub place: u32,
    pub arguments: Range,
}

#[derive(Debug, Clone, Copy)]
pub struct ArgumentRow {
    pub name: u32,
    pub type_ref: u32,
    pub default: Option<u32>,
    pub place: u32,
}

#[derive(Debug, Clone, Copy, PartialEq, Eq)]
pub enum Condition {
    None,
    Constant(bool),
    Variable(u32),
}

#[derive(Debug, Clone, Copy)]
pub struct SelectionRow {
    pub skip: Condition,
    pub include: Condition,
    pub place: u32,
    pub kind: SelectionKind,
}

#[derive(Debug, Clone, Copy)]
pub enum SelectionKind {
    Field { name: u32, key: u32, given: Range, set: Option<u32>, attached: u32 },
    Spread { fragment: u32 },
    Inline { condition: Option<u32>, set: u32 },
}

#[derive(Debug, Clone, Copy)]
pub struct FragmentRow {
    pub name: u32,
    pub condition: u32,
    pub set: u32,
}

/// A JSON node, or a literal. Of the last two only literals are made.
#[derive(Debug, Clone, Copy, PartialEq, Eq)]
pub enum Value {
    Null,
    Bool(bool),
    Unsigned(u64),
    /// A negative integer, by its magnitude.
    Negative(u64),
    Float(Span),
    String(Span),
    List(Range),
    Object(Range),
    Enum(u32),
    Variable(u32),
}

#[derive(Debug, Clone, Copy)]
pub enum Answer {
    Skip,
    Error,
    Leaf(u32),
    List(Range),
    Object { type_name: u32, fields: Range },
    Echo(u32),
}

/// A row of a table, in which row.
fn row<const WIDTH: usize>(table: &[u32], number: u32) -> [u32; WIDTH] {
    let start = number as usize * WIDTH;
    table[start..start + WIDTH].try_into().expect("a row has its width")
}

/// 0 for none, otherwise one more than a row's number.
fn row_or_none(word: u32) -> Option<u32> {
    word.checked_sub(1)
}

fn condition_of(word: u32) -> Condition {
    match word {
        condition::NONE => Condition::None,
        condition::FALSE => Condition::Constant(false),
        condition::TRUE => Condition::Constant(true),
        variable => Condition::Variable(variable - condition::VARIABLE),
    }
}

fn unknown(what: &str, kind: u32) -> ! {
    panic!("{kind} is no kind of {what}: the tables were not tested")
}

/// A table of words: its name, its words a row, its words.
pub type WordTable<W> = (&'static str, usize, W);

impl Tables {
    /// The tables of words, in the order in which they are lent.
    pub fn word_tables(&self) -> [WordTable<&Vec<u32>>; 14] {
        [
            ("names", width::NAMES, &self.names),
            ("type_refs", width::TYPE_REFS, &self.type_refs),
            ("types", width::TYPES, &self.types),
            ("members", width::MEMBERS, &self.members),
            ("fields", width::FIELDS, &self.fields),
            ("arguments", width::ARGUMENTS, &self.arguments),
            ("sets", width::SETS, &self.sets),
            ("selections", width::SELECTIONS, &self.selections),
            ("given", width::GIVEN, &self.given),
            ("fragments", width::FRAGMENTS, &self.fragments),
            ("nodes", width::NODES, &self.nodes),
            ("literals", width::LITERALS, &self.literals),
            ("variables", width::VARIABLES, &self.variables),
            ("answers", width::ANSWERS, &self.answers),
        ]
    }

    /// The same, to be filled.
    pub fn word_tables_mut(&mut self) -> [WordTable<&mut Vec<u32>>; 14] {
        [
            ("names", width::NAMES, &mut self.names),
            ("type_refs", width::TYPE_REFS, &mut self.type_refs),
            ("types", width::TYPES, &mut self.types),
            ("members", width::MEMBERS, &mut self.members),
            ("fields", width::FIELDS, &mut self.fields),
            ("arguments", width::ARGUMENTS, &mut self.arguments),
            ("sets", width::SETS, &mut self.sets),
            ("selections", width::SELECTIONS, &mut self.selections),
            ("given", width::GIVEN, &mut self.given),
            ("fragments", width::FRAGMENTS, &mut self.fragments),
            ("nodes", width::NODES, &mut self.nodes),
            ("literals", width::LITERALS, &mut self.literals),
            ("variables", width::VARIABLES, &mut self.variables),
            ("answers", width::ANSWERS, &mut self.answers),
        ]
    }

    pub fn bytes(&self, span: Span) -> &[u8] {
        &self.pool[span.start as usize..span.start as usize + span.length as usize]
    }

    pub fn text(&self, span: Span) -> &str {
        std::str::from_utf8(self.bytes(span)).expect("a string is UTF-8")
    }

    pub fn name(&self, number: u32) -> &str {
        self.text(self.name_span(number))
    }

    pub fn name_span(&self, number: u32) -> Span {
        let [start, length] = row::<{ width::NAMES }>(&self.names, number);
        Span { start, length }
    }

    pub fn name_count(&self) -> u32 {
        (self.names.len() / width::NAMES) as u32
    }

    pub fn type_count(&self) -> u32 {
        (self.types.len() / width::TYPES) as u32
    }

    pub fn selection_count(&self) -> u32 {
        (self.selections.len() / width::SELECTIONS) as u32
    }

    pub fn fragment_count(&self) -> u32 {
        (self.fragments.len() / width::FRAGMENTS) as u32
    }

    pub fn node_count(&self) -> u32 {
        (self.nodes.len() / width::NODES) as u32
    }

    pub fn literal_count(&self) -> u32 {
        (self.literals.len() / width::LITERALS) as u32
    }

    pub fn variable_count(&self) -> u32 {
        (self.variables.len() / width::VARIABLES) as u32
    }

    pub fn answer_count(&self) -> u32 {
        (self.answers.len() / width::ANSWERS) as u32
    }

    pub fn type_ref(&self, number: u32) -> TypeRef {
        let [kind, non_null, target] = row::<{ width::TYPE_REFS }>(&self.type_refs, number);
        let shape = if kind == 0 { Shape::Named(target) } else { Shape::List(target) };
        TypeRef { shape, non_null: non_null != 0 }
    }

    pub fn type_row(&self, number: u32) -> TypeRow {
        let [name, kind, first_field, fields, first_member, members] =
            row::<{ width::TYPES }>(&self.types, number);
        TypeRow {
            name,
            kind,
            fields: Range { first: first_field, count: fields },
            members: Range { first: first_member, count: members },
        }
    }

    pub fn member(&self, number: u32) -> u32 {
        self.members[number as usize]
    }

    pub fn field(&self, number: u32) -> FieldRow {
        let [name, type_ref, default, place, first, count] =
            row::<{ width::FIELDS }>(&self.fields, number);
        let default = row_or_none(default);
        FieldRow { name, type_ref, default, place, arguments: Range { first, count } }
    }

    pub fn argument(&self, number: u32) -> ArgumentRow {
        let [name, type_ref, default, place] = row::<{ width::ARGUMENTS }>(&self.arguments, number);
        ArgumentRow { name, type_ref, default: row_or_none(default), place }
    }

    pub fn set(&self, number: u32) -> Range {
        let [first, count] = row::<{ width::SETS }>(&self.sets, number);
        Range { first, count }
    }

    pub fn selection(&self, number: u32) -> SelectionRow {
        let [kind, skip, include, place, name, key, first, count, set, attached] =
            row::<{ width::SELECTIONS }>(&self.selections, number);
        let kind = match kind {
            selection_kind::FIELD => SelectionKind::Field {
                name,
                key,
                given: Range { first, count },
                set: (set != 0).then_some(set),
                attached,
            },
            selection_kind::SPREAD => SelectionKind::Spread { fragment: name },
            selection_kind::INLINE => SelectionKind::Inline { condition: row_or_none(name), set },
            other => unknown("selection", other),
        };
        SelectionRow { skip: condition_of(skip), include: condition_of(include), place, kind }
    }

    /// An argument of a selection: its name and its literal.
    pub fn given_argument(&self, number: u32) -> (u32, u32) {
        let [name, literal] = row::<{ width::GIVEN }>(&self.given, number);
        (name, literal)
    }

    pub fn fragment(&self, number: u32) -> FragmentRow {
        let [name, condition, set] = row::<{ width::FRAGMENTS }>(&self.fragments, number);
        FragmentRow { name, condition, set }
    }

    pub fn node(&self, number: u32) -> Value {
        let [kind, one, two, ..] = row::<{ width::NODES }>(&self.nodes, number);
        let wide = u64::from(one) | u64::from(two) << 32;
        match kind {
            value_kind::UNSIGNED => Value::Unsigned(wide),
            value_kind::NEGATIVE => Value::Negative(wide),
            kind if kind <= value_kind::OBJECT => shared_value(kind, one, two),
            other => unknown("node", other),
        }
    }

    /// The key under which a node stands in its object.
    pub fn node_key(&self, number: u32) -> Span {
        let [_, _, _, start, length] = row::<{ width::NODES }>(&self.nodes, number);
        Span { start, length }
    }

    pub fn literal(&self, number: u32) -> Value {
        let [kind, one, two, ..] = row::<{ width::LITERALS }>(&self.literals, number);
        match kind {
            value_kind::UNSIGNED => Value::Unsigned(u64::from(one)),
            value_kind::NEGATIVE => Value::Negative(u64::from(one)),
            value_kind::ENUM => Value::Enum(one),
            value_kind::VARIABLE => Value::Variable(one),
            kind if kind <= value_kind::OBJECT => shared_value(kind, one, two),
            other => unknown("literal", other),
        }
    }

    pub fn literal_place(&self, number: u32) -> u32 {
        row::<{ width::LITERALS }>(&self.literals, number)[3]
    }

    /// The name under which a literal stands in its object.
    pub fn literal_key(&self, number: u32) -> u32 {
        row::<{ width::LITERALS }>(&self.literals, number)[4]
    }

    /// A variable's name and node.
    pub fn variable(&self, number: u32) -> (u32, u32) {
        let [name, node] = row::<{ width::VARIABLES }>(&self.variables, number);
        (name, node)
    }

    pub fn answer(&self, number: u32) -> Answer {
        let [kind, _, one, two, three] = row::<{ width::ANSWERS }>(&self.answers, number);
        match kind {
            answer_kind::SKIP => Answer::Skip,
            answer_kind::ERROR => Answer::Error,
            answer_kind::LEAF => Answer::Leaf(one),
            answer_kind::LIST => Answer::List(Range { first: one, count: two }),
            answer_kind::OBJECT => {
                Answer::Object { type_name: one, fields: Range { first: two, count: three } }
            }
            answer_kind::ECHO => Answer::Echo(one),
            other => unknown("answer", other),
        }
    }

    /// The name of the field that an answer is for.
    pub fn answer_field(&self, number: u32) -> u32 {
        row::<{ width::ANSWERS }>(&self.answers, number)[1]
    }
}

/// The kinds that nodes and literals write alike.
fn shared_value(kind: u32, one: u32, two: u32) -> Value {
    let span = Span { start: one, length: two };
    let range = Range { first: one, count: two };
    match kind {
        value_kind::NULL => Value::Null,
        value_kind::FALSE => Value::Bool(false),
        value_kind::TRUE => Value::Bool(true),
        value_kind::FLOAT => Value::Float(span),
        value_kind::STRING => Value::String(span),
        value_kind::LIST => Value::List(range),
        value_kind::OBJECT => Value::Object(range),
        other => unknown("value", other),
    }
}
