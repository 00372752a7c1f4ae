//! A short notation for descriptions, so that a test can be read: GraphQL for schema and document,
//! JSON for variables, and something like JSON for answers. It is for tests and by no means a
//! GraphQL parser.
//!
//! * `'7` behind the name of a field, argument definition or spread, or behind a literal, gives
//!   its place; whatever has none is numbered from [`FIRST_PLACE`] on, so that places differ.
//! * The five built-in scalars are types of every schema, unless its text begins with `bare`.
//! * The root type is the first object type.
//! * `f(x: 1) <[Int]>` attaches `[Int]` to a field. Without that, it is the type of the definition
//!   that validation would find: on the type around the field, or anywhere.
//! * Answers: `skip`, `error`, `echo x`, JSON leaves, `leaf [1]` or `leaf {"a": 1}` for a leaf that
//!   is a container, `[1, error]` for a list, `T{f: 1}` for an object, and `T^0` for an object that
//!   answers as the nearest around it does, `T^1` as the one around that.

mod answers;
mod document;
mod scan;
mod schema;

use crate::describe::Case;
use crate::layout;
use crate::rows::Tables;
use scan::Scanner;

/// The first place that is given to something that has none.
pub const FIRST_PLACE: u32 = 1_000;

/// Why a text could not be read, and what was left of it.
pub type Fault = String;

/// A description from its texts.
pub fn describe(
    schema: &str,
    document: &str,
    variables: &str,
    answers: &str,
) -> Result<Case, Fault> {
    let mut place = FIRST_PLACE;
    let types = schema::read(&mut Scanner::new(schema, &mut place))?;
    let root = schema::root(&types)?;
    let (operation, fragments) =
        document::read(&mut Scanner::new(document, &mut place), &types, &root)?;
    let variables = answers::read_variables(&mut Scanner::new(variables, &mut place))?;
    let answer = answers::read_root(&mut Scanner::new(answers, &mut place), &root)?;
    Ok(Case { types, root, operation, fragments, variables, answer })
}

/// The tables of such a description. A text that cannot be read is a mistake of the test.
pub fn tables(schema: &str, document: &str, variables: &str, answers: &str) -> Tables {
    match describe(schema, document, variables, answers) {
        Ok(case) => crate::build::build(&case),
        Err(fault) => panic!("{fault}"),
    }
}

/// The names of the built-in scalars.
fn built_in_scalars() -> &'static [&'static str] {
    &layout::RESERVED[1..6]
}
