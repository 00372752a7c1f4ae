//! Schemas of the notation.

use super::scan::Scanner;
use super::{built_in_scalars, Fault};
use crate::describe::{ArgumentDef, FieldDef, Kind, Literal, TypeDef};

pub(super) fn read(scanner: &mut Scanner<'_>) -> Result<Vec<TypeDef>, Fault> {
    let mut types = Vec::new();
    if !scanner.word("bare") {
        types.extend(built_in_scalars().iter().map(|name| plain(name, Kind::Scalar)));
    }
    while !scanner.at_end() {
        types.push(type_def(scanner)?);
    }
    Ok(types)
}

/// The name of the first object type.
pub(super) fn root(types: &[TypeDef]) -> Result<String, Fault> {
    let root = types.iter().find(|ty| ty.kind == Kind::Object);
    root.map(|ty| ty.name.clone()).ok_or_else(|| "the schema has no object type".into())
}

fn plain(name: &str, kind: Kind) -> TypeDef {
    TypeDef { name: name.into(), kind, fields: Vec::new(), members: Vec::new() }
}

fn type_def(scanner: &mut Scanner<'_>) -> Result<TypeDef, Fault> {
    let kind = match scanner.name()?.as_str() {
        "scalar" => Kind::Scalar,
        "enum" => Kind::Enum,
        "type" => Kind::Object,
        "interface" => Kind::Interface,
        "union" => Kind::Union,
        "input" => Kind::InputObject,
        other => return scanner.fault(&format!("a kind of type for {other}")),
    };
    let mut ty = plain(&scanner.name()?, kind);
    match kind {
        Kind::Scalar => {}
        Kind::Union => {
            scanner.expect("=")?;
            ty.members.push(scanner.name()?);
            while scanner.take("|") {
                ty.members.push(scanner.name()?);
            }
        }
        Kind::Enum => {
            scanner.expect("{")?;
            ty.members = scanner.until("}", Scanner::name)?;
        }
        Kind::Object | Kind::Interface | Kind::InputObject => {
            if scanner.word("implements") {
                ty.members.push(scanner.name()?);
                while scanner.take("&") {
                    ty.members.push(scanner.name()?);
                }
            }
            scanner.expect("{")?;
            ty.fields = scanner.until("}", field)?;
        }
    }
    Ok(ty)
}

fn field(scanner: &mut Scanner<'_>) -> Result<FieldDef, Fault> {
    let name = scanner.name()?;
    let place = scanner.place()?;
    let arguments = if scanner.take("(") { scanner.until(")", argument)? } else { Vec::new() };
    scanner.expect(":")?;
    let ty = scanner.ty()?;
    Ok(FieldDef { name, ty, default: default(scanner)?, place, arguments })
}

fn argument(scanner: &mut Scanner<'_>) -> Result<ArgumentDef, Fault> {
    let name = scanner.name()?;
    let place = scanner.place()?;
    scanner.expect(":")?;
    let ty = scanner.ty()?;
    Ok(ArgumentDef { name, ty, default: default(scanner)?, place })
}

fn default(scanner: &mut Scanner<'_>) -> Result<Option<Literal>, Fault> {
    if scanner.take("=") {
        scanner.literal().map(Some)
    } else {
        Ok(None)
    }
}
