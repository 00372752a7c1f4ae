//! The Rust's messages as codes.
//!
//! A message may quote a value, so it is told by how it begins and, where a value comes first, by
//! how it ends: names have neither blanks nor commas.

/// The code of document 01 for a message; none for what document 01 gives no code.
pub(crate) fn code(message: &str) -> Option<u32> {
    if let Some(rest) = message.strip_prefix("resolver returned ") {
        return completion_code(rest);
    }
    if let Some(rest) = message.strip_prefix("undefined type ") {
        return Some(if rest.contains(" for ") { 20 } else { 5 });
    }
    let beginnings = [
        ("resolver error: ", 1),
        ("non-null type ", 2),
        ("list type ", 3),
        ("Non-list type ", 4),
        ("field with input object type ", 6),
        ("null value for non-nullable argument ", 16),
        ("null value for non-null ", 17),
        ("null variable value for non-null ", 18),
        ("missing variable for non-null ", 19),
        ("input object has key ", 21),
        ("Missing value for non-null input object field ", 22),
        ("could not coerce ", 23),
        ("missing value for required argument ", 24),
    ];
    let found = beginnings.iter().find(|(beginning, _)| message.starts_with(beginning));
    found.map(|(_, code)| *code)
}

/// What a resolver returned: an object, or a leaf that is quoted as JSON. A leaf's JSON begins
/// with none of these words.
fn completion_code(returned: &str) -> Option<u32> {
    if returned.starts_with("a an object of type ") {
        return Some(7);
    }
    if returned.starts_with("a leaf value but ") {
        return Some(12);
    }
    if let Some(object) = returned.strip_prefix("an object of type ") {
        return Some(match object {
            _ if object.ends_with(" not defined in the schema") => 8,
            _ if object.contains(", expected a member of union type ") => 9,
            _ if object.contains(" which does not implement interface ") => 10,
            _ => 11,
        });
    }
    if returned.ends_with(" which overflows Int") {
        return Some(14);
    }
    let (_, expected) = returned.rsplit_once(", expected ")?;
    Some(if expected.starts_with("enum ") { 13 } else { 15 })
}
