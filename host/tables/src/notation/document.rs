//! Documents of the notation.

use super::scan::Scanner;
use super::Fault;
use crate::describe::{Condition, Field, Fragment, Selection, SelectionKind, Type, TypeDef};
use crate::layout::RESERVED;

/// An operation's set and the fragments.
pub(super) fn read(
    scanner: &mut Scanner<'_>,
    types: &[TypeDef],
    root: &str,
) -> Result<(Vec<Selection>, Vec<Fragment>), Fault> {
    let operation = set(scanner, types, root)?;
    let mut fragments = Vec::new();
    while scanner.word("fragment") {
        let name = scanner.name()?;
        if !scanner.word("on") {
            return scanner.fault("on");
        }
        let condition = scanner.name()?;
        let set = set(scanner, types, &condition)?;
        fragments.push(Fragment { name, condition, set });
    }
    if scanner.at_end() {
        Ok((operation, fragments))
    } else {
        scanner.fault("a fragment")
    }
}

fn set(
    scanner: &mut Scanner<'_>,
    types: &[TypeDef],
    around: &str,
) -> Result<Vec<Selection>, Fault> {
    scanner.expect("{")?;
    scanner.until("}", |scanner| selection(scanner, types, around))
}

fn selection(
    scanner: &mut Scanner<'_>,
    types: &[TypeDef],
    around: &str,
) -> Result<Selection, Fault> {
    if !scanner.take("...") {
        return field(scanner, types, around);
    }
    let is_spread = scanner.peek_name().is_some_and(|name| name != "on");
    if is_spread {
        let name = scanner.name()?;
        let place = scanner.place()?;
        let (skip, include) = directives(scanner)?;
        return Ok(Selection { skip, include, place, kind: SelectionKind::Spread(name) });
    }
    let condition = if scanner.word("on") { Some(scanner.name()?) } else { None };
    let place = scanner.place()?;
    let (skip, include) = directives(scanner)?;
    let set = set(scanner, types, condition.as_deref().unwrap_or(around))?;
    Ok(Selection { skip, include, place, kind: SelectionKind::Inline { condition, set } })
}

fn field(scanner: &mut Scanner<'_>, types: &[TypeDef], around: &str) -> Result<Selection, Fault> {
    let mut name = scanner.name()?;
    let key = name.clone();
    if scanner.take(":") {
        name = scanner.name()?;
    }
    let place = scanner.place()?;
    let arguments =
        if scanner.take("(") { scanner.until(")", Scanner::argument)? } else { Vec::new() };
    let attached = if scanner.take("<") {
        let ty = scanner.ty()?;
        scanner.expect(">")?;
        ty
    } else {
        defined_type(types, around, &name)
    };
    let (skip, include) = directives(scanner)?;
    let set =
        if scanner.peek("{") { Some(set(scanner, types, attached.inner_name())?) } else { None };
    let kind = SelectionKind::Field(Field { name, key, arguments, set, attached });
    Ok(Selection { skip, include, place, kind })
}

/// The type of a field's definition: on the type around it, or on any that has such a field.
fn defined_type(types: &[TypeDef], around: &str, name: &str) -> Type {
    if name == RESERVED[0] {
        return Type::named("String").non_null();
    }
    let here = types.iter().filter(|ty| ty.name == around);
    let mut fields = here.chain(types).flat_map(|ty| &ty.fields);
    let found = fields.find(|field| field.name == name);
    found.map_or_else(|| Type::named("Int"), |field| field.ty.clone())
}

/// `@skip(if: ..)` and `@include(if: ..)`, in any order.
fn directives(scanner: &mut Scanner<'_>) -> Result<(Condition, Condition), Fault> {
    let mut found = (Condition::None, Condition::None);
    while scanner.take("@") {
        let name = scanner.name()?;
        for sign in ["(", "if", ":"] {
            scanner.expect(sign)?;
        }
        let condition = if scanner.take("$") {
            Condition::Variable(scanner.name()?)
        } else {
            Condition::Constant(scanner.name()? == "true")
        };
        scanner.expect(")")?;
        match name.as_str() {
            "skip" => found.0 = condition,
            "include" => found.1 = condition,
            _ => return scanner.fault("skip or include"),
        }
    }
    Ok(found)
}
