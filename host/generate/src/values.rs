//! Random literals and JSON.

use crate::{Maker, ABSENT, ARGUMENTS, ENUM_VALUES, VARIABLES};
use tables::describe::{Json, Kind, Literal, LiteralValue, Shape, Type};

/// Integers around every bound that a rule or a representation has.
const INTEGERS: [i128; 16] = [
    0,
    1,
    2,
    42,
    -1,
    -7,
    2_147_483_647,
    2_147_483_648,
    -2_147_483_648,
    -2_147_483_649,
    4_294_967_296,
    9_223_372_036_854_775_807,
    9_223_372_036_854_775_808,
    18_446_744_073_709_551_615,
    -9_223_372_036_854_775_808,
    -9_223_372_036_854_775_807,
];

/// Floats as the crate writes them.
const FLOATS: [&str; 8] = ["0.5", "1.0", "-0.0", "-2.25", "1e16", "1.5e300", "3e-7", "0.1"];

/// Strings with every kind of escape, letters of one to four bytes, and texts that look like
/// something else.
const STRINGS: [&str; 14] = [
    "",
    "a",
    "RED",
    "true",
    "1",
    "null",
    "\"quoted\" \\ back/slash",
    "\u{8}\u{c}\n\r\t",
    "\u{0}\u{1}\u{b}\u{1f}\u{7f}",
    "é",
    "€",
    "😀",
    "a.b",
    "{\"a\":1}",
];

impl Maker {
    pub(crate) fn string(&mut self) -> String {
        (*self.random.pick(&STRINGS)).into()
    }

    fn float(&mut self) -> String {
        (*self.random.pick(&FLOATS)).into()
    }

    fn int_literal(&mut self) -> LiteralValue {
        let value = *self.random.pick(&INTEGERS[..7]);
        LiteralValue::Int(if self.random.chance(5) { -2_147_483_648 } else { value as i64 })
    }

    fn located(&mut self, value: LiteralValue) -> Literal {
        Literal { value, place: self.place() }
    }

    fn enum_value(&mut self) -> LiteralValue {
        LiteralValue::Enum((*self.random.pick(&ENUM_VALUES)).into())
    }

    fn variable_value(&mut self) -> LiteralValue {
        LiteralValue::Variable((*self.random.pick(&VARIABLES)).into())
    }

    /// A variable that has a value, and where the type is non-null mostly one that is not null.
    fn variable_for(&mut self, ty: &Type) -> LiteralValue {
        if ty.non_null && !self.random.chance(10) {
            return LiteralValue::Variable(
                (*self.random.pick(&["yes", "one", "list", "object"])).into(),
            );
        }
        self.variable_value()
    }

    /// Any literal of at most so many levels.
    pub(crate) fn literal(&mut self, levels: usize, with_variables: bool) -> Literal {
        let has_room = self.literals_left > 0;
        self.literals_left = self.literals_left.saturating_sub(1);
        let kinds = if has_room && levels > 0 { 10 } else { 7 };
        let value = match self.random.below(kinds) {
            0 => LiteralValue::Null,
            1 => LiteralValue::Bool(self.random.chance(50)),
            2 => self.int_literal(),
            3 => LiteralValue::Float(self.float()),
            4 => LiteralValue::String(self.string()),
            5 => self.enum_value(),
            6 if with_variables && self.random.chance(40) => self.variable_value(),
            7 | 8 => {
                let count = self.random.below(4);
                LiteralValue::List(
                    (0..count).map(|_| self.literal(levels - 1, with_variables)).collect(),
                )
            }
            9 => {
                let mut entries = Vec::new();
                for key in ARGUMENTS {
                    if self.random.chance(40) {
                        entries.push((key.into(), self.literal(levels - 1, with_variables)));
                    }
                }
                LiteralValue::Object(entries)
            }
            _ => LiteralValue::Int(1),
        };
        self.located(value)
    }

    /// A literal for a type, with so much wrong as the noise says.
    pub(crate) fn typed_literal(&mut self, ty: &Type, with_variables: bool) -> Literal {
        if self.literals_left == 0 || self.errs() {
            return self.literal(2, with_variables);
        }
        self.literals_left -= 1;
        if with_variables && self.random.chance(15) {
            let value = self.variable_for(ty);
            return self.located(value);
        }
        if !ty.non_null && self.random.chance(10) {
            return self.located(LiteralValue::Null);
        }
        let value = match &ty.shape {
            // Wrapped once per level.
            Shape::List(inner) if self.random.chance(25) => {
                return self.typed_literal(&inner.clone().non_null(), with_variables)
            }
            Shape::List(inner) => {
                let count = self.random.below(4);
                let items = (0..count).map(|_| self.typed_literal(inner, with_variables));
                LiteralValue::List(items.collect())
            }
            Shape::Named(name) => self.named_literal(name, with_variables),
        };
        self.located(value)
    }

    fn named_literal(&mut self, name: &str, with_variables: bool) -> LiteralValue {
        let ty = self.type_named(name);
        let (kind, fields) = match ty {
            Some(ty) => (ty.kind, ty.fields.clone()),
            None => (Kind::Scalar, Vec::new()),
        };
        match (kind, name) {
            (Kind::Enum, _) => self.enum_value(),
            (Kind::InputObject, _) => {
                let mut entries = Vec::new();
                for field in fields {
                    let needed = field.ty.non_null && field.default.is_none();
                    if self.literals_left == 0 || !(needed || self.random.chance(50)) {
                        continue;
                    }
                    // A variable without a value, over a default or not.
                    let literal = if with_variables && !needed && self.random.chance(15) {
                        self.located(LiteralValue::Variable(ABSENT.into()))
                    } else {
                        self.typed_literal(&field.ty, with_variables)
                    };
                    entries.push((field.name, literal));
                }
                if self.errs() {
                    entries.retain(|(key, _)| key != "q");
                    entries.push(("q".into(), self.literal(1, with_variables)));
                }
                // The literal's order need not be the type's.
                if self.random.chance(50) {
                    entries.reverse();
                }
                LiteralValue::Object(entries)
            }
            (_, "Int") => self.int_literal(),
            (_, "Float") => LiteralValue::Float(self.float()),
            (_, "String" | "ID") => LiteralValue::String(self.string()),
            (_, "Boolean") => LiteralValue::Bool(self.random.chance(50)),
            // What converts part by part holds no variable, or the run is out of the domain; now
            // and then it may.
            _ => {
                let with_variables = with_variables && self.random.chance(3);
                self.literal(3, with_variables).value
            }
        }
    }

    /// Any JSON of at most so many levels.
    pub(crate) fn json(&mut self, levels: usize) -> Json {
        let has_room = self.nodes_left > 0;
        self.nodes_left = self.nodes_left.saturating_sub(1);
        let kinds = if has_room && levels > 0 { 8 } else { 5 };
        match self.random.below(kinds) {
            0 => Json::Null,
            1 => Json::Bool(self.random.chance(50)),
            2 => Json::Int(*self.random.pick(&INTEGERS)),
            3 => Json::Float(self.float()),
            4 => Json::String(self.string()),
            5 | 6 => {
                let count = self.random.below(4);
                Json::Array((0..count).map(|_| self.json(levels - 1)).collect())
            }
            _ => {
                let mut entries: Vec<(String, Json)> = Vec::new();
                for _ in 0..self.random.below(4) {
                    let key = self.string();
                    if entries.iter().all(|(other, _)| *other != key) {
                        entries.push((key, self.json(levels - 1)));
                    }
                }
                Json::Object(entries)
            }
        }
    }

    fn integer(&mut self) -> Json {
        self.nodes_left = self.nodes_left.saturating_sub(1);
        Json::Int(*self.random.pick(&INTEGERS))
    }

    /// JSON that a leaf type admits, mostly.
    pub(crate) fn leaf(&mut self, type_name: &str) -> Json {
        if self.errs() {
            return self.json(2);
        }
        let ty = self.type_named(type_name);
        let values = ty.filter(|ty| ty.kind == Kind::Enum).map(|ty| ty.members.clone());
        if let Some(values) = values.filter(|values| !values.is_empty()) {
            self.nodes_left = self.nodes_left.saturating_sub(1);
            return Json::String(self.random.pick(&values).clone());
        }
        // A few scalars of another kind or size, whatever the noise.
        if self.random.chance(5) {
            return if self.random.chance(50) { self.json(0) } else { self.integer() };
        }
        let value = match type_name {
            "Int" => Json::Int(*self.random.pick(&INTEGERS[..7])),
            "Float" => Json::Float(self.float()),
            "String" => Json::String(self.string()),
            "Boolean" => Json::Bool(self.random.chance(50)),
            "ID" if self.random.chance(50) => return self.integer(),
            "ID" => Json::String(self.string()),
            _ => return self.json(3),
        };
        self.nodes_left = self.nodes_left.saturating_sub(1);
        value
    }
}
