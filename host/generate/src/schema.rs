//! Random schemas.

use crate::{Maker, ARGUMENTS, ENUM_VALUES, FIELDS, UNDEFINED};
use tables::describe::{ArgumentDef, FieldDef, Kind, Literal, Type, TypeDef};
use tables::layout::RESERVED;

impl Maker {
    /// Types of every kind. First their names are chosen, then what they hold, so that fields can
    /// be of any of them.
    pub(crate) fn schema(&mut self) -> Vec<TypeDef> {
        for name in &RESERVED[1..6] {
            if !self.errs() {
                self.types.push(empty(name, Kind::Scalar));
            }
        }
        let kinds = [
            ("Any", Kind::Scalar, 1, 2),
            ("Hue", Kind::Enum, 0, 2),
            ("Pet", Kind::Interface, 0, 3),
            ("Obj", Kind::Object, 1, 4),
            ("Mix", Kind::Union, 0, 2),
            ("Put", Kind::InputObject, 0, 3),
        ];
        for (name, kind, least, most) in kinds {
            for number in 0..self.random.between(least, most) {
                self.types.push(empty(&format!("{name}{number}"), kind));
            }
        }
        if self.random.chance(4) {
            self.misnamed_built_in();
        }
        for row in 0..self.types.len() {
            let kind = self.types[row].kind;
            self.types[row].members = self.members(kind);
            self.types[row].fields = self.fields(kind);
        }
        std::mem::take(&mut self.types)
    }

    /// A built-in scalar's name may be that of a type of another kind.
    fn misnamed_built_in(&mut self) {
        let row = self.random.below(self.types.len());
        let kind = *self.random.pick(&[Kind::Enum, Kind::Interface, Kind::InputObject]);
        if self.types[row].kind == Kind::Scalar {
            self.types[row].kind = kind;
        }
    }

    fn members(&mut self, kind: Kind) -> Vec<String> {
        let count = self.random.between(0, 3);
        let mut members = Vec::new();
        for _ in 0..count {
            let member = match kind {
                Kind::Scalar | Kind::InputObject => break,
                Kind::Enum => Some((*self.random.pick(&ENUM_VALUES)).into()),
                _ if self.errs() || self.random.chance(5) => Some(self.any_type_name()),
                Kind::Object | Kind::Interface => self.name_of_kind(&[Kind::Interface]),
                Kind::Union => self.name_of_kind(&[Kind::Object]),
            };
            members.extend(member);
        }
        members
    }

    fn fields(&mut self, kind: Kind) -> Vec<FieldDef> {
        let is_input = match kind {
            Kind::Object | Kind::Interface => false,
            Kind::InputObject => true,
            Kind::Scalar | Kind::Enum | Kind::Union => return Vec::new(),
        };
        let names: &[&str] = if is_input { &ARGUMENTS } else { &FIELDS };
        let mut fields = Vec::new();
        for name in names {
            if self.random.chance(40) {
                continue;
            }
            let (ty, default) =
                if is_input { self.input_slot() } else { (self.output_type(), None) };
            let place = self.place();
            let arguments = if is_input { Vec::new() } else { self.argument_defs() };
            fields.push(FieldDef { name: (*name).into(), ty, default, place, arguments });
        }
        fields
    }

    fn argument_defs(&mut self) -> Vec<ArgumentDef> {
        let mut arguments = Vec::new();
        if self.random.chance(50) {
            return arguments;
        }
        for name in ARGUMENTS {
            if self.random.chance(50) {
                let (ty, default) = self.input_slot();
                let place = self.place();
                arguments.push(ArgumentDef { name: name.into(), ty, default, place });
            }
        }
        arguments
    }

    /// The type and the default of an argument or an input field.
    fn input_slot(&mut self) -> (Type, Option<Literal>) {
        let ty = self.input_type();
        let default = match self.random.below(4) {
            _ if self.literals_left == 0 => None,
            0 => Some(self.typed_literal(&ty, false)),
            1 if self.errs() => Some(self.literal(2, false)),
            _ => None,
        };
        (ty, default)
    }

    /// Wraps a named type in lists and exclamation marks.
    fn wrapped(&mut self, name: &str) -> Type {
        let mut ty = Type::named(name);
        if self.random.chance(20) {
            ty = ty.non_null();
        }
        while self.random.chance(25) {
            ty = Type::list(ty);
            if self.random.chance(20) {
                ty = ty.non_null();
            }
        }
        ty
    }

    pub(crate) fn output_type(&mut self) -> Type {
        let kinds: &[Kind] = match self.random.below(100) {
            _ if self.errs() => return self.any_type(),
            0..=34 => &[Kind::Scalar],
            35..=42 => &[Kind::Enum],
            43..=74 => &[Kind::Object],
            75..=89 => &[Kind::Interface],
            _ => &[Kind::Union],
        };
        match self.name_of_kind(kinds) {
            Some(name) => self.wrapped(&name),
            None => self.any_type(),
        }
    }

    fn input_type(&mut self) -> Type {
        let kinds: &[Kind] = match self.random.below(100) {
            _ if self.errs() => return self.any_type(),
            0..=54 => &[Kind::Scalar],
            55..=69 => &[Kind::Enum],
            _ => &[Kind::InputObject],
        };
        match self.name_of_kind(kinds) {
            Some(name) => self.wrapped(&name),
            None => self.any_type(),
        }
    }

    pub(crate) fn any_type(&mut self) -> Type {
        let name = if self.random.chance(20) {
            (*self.random.pick(&UNDEFINED)).into()
        } else {
            self.any_type_name()
        };
        self.wrapped(&name)
    }
}

fn empty(name: &str, kind: Kind) -> TypeDef {
    TypeDef { name: name.into(), kind, fields: Vec::new(), members: Vec::new() }
}
