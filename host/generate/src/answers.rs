//! Random answers.

use crate::{Maker, ARGUMENTS, FIELDS};
use tables::describe::{Answer, ArgumentDef, Json, Kind, ObjectAnswer, Shape, Type};
use tables::layout::RESERVED;

impl Maker {
    /// An object of a type that answers most of its fields. `around` has the types of the objects
    /// around it, the nearest last.
    pub(crate) fn object_answer(
        &mut self,
        type_name: &str,
        levels: usize,
        around: &mut Vec<String>,
    ) -> ObjectAnswer {
        let fields = self.type_named(type_name).map(|ty| ty.fields.clone()).unwrap_or_default();
        around.push(type_name.into());
        let mut answers = Vec::new();
        for field in fields {
            if self.errs() {
                continue;
            }
            self.answers_left = self.answers_left.saturating_sub(1);
            let answer = self.answer(&field.ty, &field.arguments, levels, around);
            answers.push((field.name, answer));
        }
        around.pop();
        ObjectAnswer { type_name: type_name.into(), fields: answers }
    }

    fn answer(
        &mut self,
        ty: &Type,
        arguments: &[ArgumentDef],
        levels: usize,
        around: &mut Vec<String>,
    ) -> Answer {
        if self.errs() {
            return self.any_answer(2);
        }
        if self.random.chance(3) {
            return Answer::Skip;
        }
        // An argument is a leaf of any shape: at home at a custom scalar, wrong at most others.
        let echoes = if self.admits_any_leaf(ty) { 60 } else { 4 };
        if !arguments.is_empty() && self.random.chance(echoes) {
            return Answer::Echo(self.random.pick(arguments).name.clone());
        }
        if !ty.non_null && (self.random.chance(6) || self.answers_left == 0) {
            return Answer::Leaf(Json::Null);
        }
        match &ty.shape {
            Shape::List(inner) => {
                let most = if self.random.chance(5) { 12 } else { 4 };
                let count = if self.answers_left == 0 { 0 } else { self.random.below(most) };
                self.answers_left = self.answers_left.saturating_sub(count);
                let items = (0..count).map(|_| self.answer(inner, arguments, levels, around));
                Answer::List(items.collect())
            }
            Shape::Named(name) => self.named_answer(name, levels, around),
        }
    }

    /// Whether a type is a scalar that is not built in.
    fn admits_any_leaf(&self, ty: &Type) -> bool {
        let Shape::Named(name) = &ty.shape else { return false };
        let is_scalar = self.type_named(name).is_some_and(|ty| ty.kind == Kind::Scalar);
        is_scalar && !RESERVED.contains(&name.as_str())
    }

    fn named_answer(&mut self, name: &str, levels: usize, around: &mut Vec<String>) -> Answer {
        let Some(object) = self.object_for(name) else {
            return Answer::Leaf(self.leaf(name));
        };
        if levels > 0 && self.answers_left > 0 && !self.random.chance(5) {
            return Answer::Object(self.object_answer(&object, levels - 1, around));
        }
        // Back to an object of that type around this one, if there is any.
        match around.iter().rev().position(|other| *other == object) {
            Some(outwards) => Answer::Again { type_name: object, outwards },
            None => Answer::Object(ObjectAnswer { type_name: object, fields: Vec::new() }),
        }
    }

    /// The name of an object type that belongs at a composite type.
    fn object_for(&mut self, name: &str) -> Option<String> {
        let ty = self.type_named(name)?;
        let candidates: Vec<String> = match ty.kind {
            Kind::Object => return Some(name.into()),
            Kind::Union => ty.members.clone(),
            Kind::Interface => {
                let implements = |members: &[String]| members.iter().any(|other| other == name);
                let objects = self.types.iter().filter(|ty| ty.kind == Kind::Object);
                let listed = objects.filter(|ty| implements(&ty.members));
                listed.map(|ty| ty.name.clone()).collect()
            }
            Kind::Scalar | Kind::Enum | Kind::InputObject => return None,
        };
        if self.random.chance(3) {
            Some(self.any_type_name())
        } else if candidates.is_empty() {
            Some(self.object_name())
        } else {
            Some(self.random.pick(&candidates).clone())
        }
    }

    /// Any answer of at most so many levels.
    fn any_answer(&mut self, levels: usize) -> Answer {
        self.answers_left = self.answers_left.saturating_sub(1);
        let kinds = if levels > 0 && self.answers_left > 0 { 8 } else { 5 };
        match self.random.below(kinds) {
            0 => Answer::Error,
            1 => Answer::Skip,
            2 => Answer::Leaf(self.json(2)),
            3 => Answer::Leaf(Json::Null),
            4 => Answer::Echo((*self.random.pick(&ARGUMENTS)).into()),
            5 | 6 => {
                let count = self.random.below(4);
                Answer::List((0..count).map(|_| self.any_answer(levels - 1)).collect())
            }
            _ => {
                let type_name = self.any_type_name();
                let mut fields = Vec::new();
                for name in FIELDS {
                    if self.random.chance(40) {
                        fields.push((name.into(), self.any_answer(levels - 1)));
                    }
                }
                Answer::Object(ObjectAnswer { type_name, fields })
            }
        }
    }
}
