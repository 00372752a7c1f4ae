//! Random documents.

use crate::{Maker, ARGUMENTS, FIELDS, KEYS, VARIABLES};
use tables::describe::{
    Condition, Field, FieldDef, Fragment, Kind, Literal, Selection, SelectionKind, Shape, Type,
};
use tables::layout::RESERVED;

/// A fragment of this name is never defined.
const UNDEFINED_FRAGMENT: &str = "Missing";

impl Maker {
    /// Names and conditions of fragments, which have no sets yet.
    pub(crate) fn fragments(&mut self) -> Vec<Fragment> {
        let count = self.random.below(6);
        let fragment = |number| {
            let kinds = [Kind::Object, Kind::Interface, Kind::Union];
            let condition = if self.errs() { None } else { self.name_of_kind(&kinds) };
            let condition = condition.unwrap_or_else(|| self.any_type_name());
            Fragment { name: format!("F{number}"), condition, set: Vec::new() }
        };
        (0..count).map(fragment).collect()
    }

    /// Gives each fragment its set; a set may spread any fragment, also its own.
    pub(crate) fn fill_fragments(&mut self, fragments: Vec<Fragment>) -> Vec<Fragment> {
        let mut filled = fragments.clone();
        for fragment in &mut filled {
            let sets = self.random.between(1, 3);
            fragment.set = self.set(&fragment.condition, sets, &fragments);
        }
        filled
    }

    /// A set on a type, with at most so many sets within sets.
    pub(crate) fn set(&mut self, around: &str, sets: usize, known: &[Fragment]) -> Vec<Selection> {
        let count = if self.random.chance(3) { 0 } else { self.random.between(1, 5) };
        let mut selections = Vec::new();
        for _ in 0..count {
            if self.selections_left == 0 {
                break;
            }
            self.selections_left -= 1;
            let selection = self.selection(around, sets, known);
            selections.push(selection);
            if self.random.chance(10) {
                self.once_more(&mut selections);
            }
        }
        selections
    }

    fn selection(&mut self, around: &str, sets: usize, known: &[Fragment]) -> Selection {
        let kind = match self.random.below(100) {
            0..=11 if sets > 1 => {
                let condition = self.inline_condition(around);
                let inner = condition.clone().unwrap_or_else(|| around.into());
                let set = self.set(&inner, sets - 1, known);
                SelectionKind::Inline { condition, set }
            }
            12..=24 if !known.is_empty() && !self.random.chance(5) => {
                SelectionKind::Spread(self.random.pick(known).name.clone())
            }
            25..=26 => SelectionKind::Spread(UNDEFINED_FRAGMENT.into()),
            _ => SelectionKind::Field(self.field(around, sets, known)),
        };
        let place = self.place();
        Selection { skip: self.condition(), include: self.condition(), place, kind }
    }

    /// The last selection once more, a field without its arguments and child set: merged fields
    /// and visited fragments, one of the two dropped in half of all cases.
    fn once_more(&mut self, selections: &mut Vec<Selection>) {
        let Some(last) = selections.last_mut() else { return };
        let mut again = last.clone();
        match &mut again.kind {
            SelectionKind::Inline { .. } => return,
            SelectionKind::Spread(_) => {}
            SelectionKind::Field(field) => {
                field.arguments.clear();
                field.set = None;
            }
        }
        let dropped = Condition::Constant(true);
        match self.random.below(4) {
            0 => again.skip = dropped,
            1 => last.skip = dropped,
            _ => {}
        }
        again.place = self.place();
        self.selections_left = self.selections_left.saturating_sub(1);
        selections.push(again);
    }

    fn inline_condition(&mut self, around: &str) -> Option<String> {
        match self.random.below(5) {
            0 => None,
            1 => Some(around.into()),
            2 => self.name_of_kind(&[Kind::Object, Kind::Interface, Kind::Union]),
            3 => self.listed_name(),
            _ => Some(self.any_type_name()),
        }
    }

    /// A name that some object lists as an interface, whatever it is.
    fn listed_name(&mut self) -> Option<String> {
        let objects = self.types.iter().filter(|ty| ty.kind == Kind::Object);
        let names: Vec<String> = objects.flat_map(|ty| ty.members.clone()).collect();
        (!names.is_empty()).then(|| self.random.pick(&names).clone())
    }

    fn condition(&mut self) -> Condition {
        match self.random.below(40) {
            0 => Condition::Constant(true),
            1 => Condition::Constant(false),
            2 | 3 => Condition::Variable((*self.random.pick(&VARIABLES)).into()),
            _ => Condition::None,
        }
    }

    fn field(&mut self, around: &str, sets: usize, known: &[Fragment]) -> Field {
        let defined = self.type_named(around).map(|ty| ty.fields.clone()).unwrap_or_default();
        let (name, definition) = match self.random.below(100) {
            0..=7 => (RESERVED[0].into(), None),
            8..=12 => ((*self.random.pick(&FIELDS)).into(), None),
            _ if defined.is_empty() => ((*self.random.pick(&FIELDS)).into(), None),
            _ => {
                let definition = self.random.pick(&defined);
                (definition.name.clone(), Some(definition))
            }
        };
        let key =
            if self.random.chance(70) { name.clone() } else { (*self.random.pick(&KEYS)).into() };
        let attached = self.attached(&name, definition);
        let set = self.child_set(&attached, sets, known);
        Field { arguments: self.given(definition), name, key, set, attached }
    }

    /// Mostly the definition's type; otherwise one that is near it, or any.
    fn attached(&mut self, name: &str, definition: Option<&FieldDef>) -> Type {
        let own = match definition {
            Some(definition) => definition.ty.clone(),
            None if name == RESERVED[0] => Type::named("String").non_null(),
            None => self.output_type(),
        };
        if !self.random.chance(4) && !self.errs() {
            return own;
        }
        match self.random.below(5) {
            0 => Type { non_null: !own.non_null, ..own },
            1 => Type::list(own),
            2 => match own.shape {
                Shape::List(inner) => *inner,
                Shape::Named(_) => self.any_type(),
            },
            3 => Type::named(own.inner_name()),
            _ => self.any_type(),
        }
    }

    fn child_set(
        &mut self,
        attached: &Type,
        sets: usize,
        known: &[Fragment],
    ) -> Option<Vec<Selection>> {
        let name = attached.inner_name().to_string();
        let kind = self.type_named(&name).map(|ty| ty.kind);
        let composite = matches!(kind, Some(Kind::Object | Kind::Interface | Kind::Union));
        let wanted = if composite { 95 } else { 4 };
        if sets > 1 && self.random.chance(wanted) {
            Some(self.set(&name, sets - 1, known))
        } else if self.random.chance(3) {
            Some(Vec::new())
        } else {
            None
        }
    }

    fn given(&mut self, definition: Option<&FieldDef>) -> Vec<(String, Literal)> {
        let mut given: Vec<(String, Literal)> = Vec::new();
        let arguments = definition.map_or(&[][..], |definition| &definition.arguments);
        for argument in arguments {
            let needed = argument.ty.non_null && argument.default.is_none() && !self.errs();
            if self.literals_left > 0 && (needed || self.random.chance(60)) {
                given.push((argument.name.clone(), self.typed_literal(&argument.ty, true)));
            }
        }
        // One that has no definition is passed over.
        if self.random.chance(5) {
            let name = *self.random.pick(&ARGUMENTS);
            if given.iter().all(|(other, _)| other != name) {
                given.insert(0, (name.into(), self.literal(2, true)));
            }
        }
        given
    }
}
