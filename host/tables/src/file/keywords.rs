//! The words of a table. Each list is in the order of the numbers that its words stand for.

const TYPE_REF_SHAPES: &[&str] = &["named", "list"];
const TYPE_REF_NULLS: &[&str] = &["nullable", "non-null"];
const TYPES: &[&str] = &["scalar", "enum", "object", "interface", "union", "input"];
const SELECTIONS: &[&str] = &["field", "spread", "inline"];
const CONDITIONS: &[&str] = &["none", "false", "true"];
const LITERALS: &[&str] = &[
    "null", "false", "true", "integer", "negative", "float", "string", "array", "object", "enum",
    "variable",
];
/// The kinds that nodes have too.
const NODES: &[&str] = LITERALS.split_at(9).0;
const ANSWERS: &[&str] = &["skip", "error", "leaf", "list", "object", "echo"];

/// What a word stands for in a row of this table.
pub(super) fn number(table: &str, word: &[u8]) -> Option<u32> {
    if matches!(word, b"none" | b"-") {
        return Some(0);
    }
    let (lists, word): (&[&[&str]], &[u8]) = match table {
        "type_refs" => (&[TYPE_REF_SHAPES, TYPE_REF_NULLS], word),
        "types" => (&[TYPES], word),
        "selections" => (&[SELECTIONS, CONDITIONS], word),
        "nodes" => (&[NODES], array_for_list(word)),
        "literals" => (&[LITERALS], array_for_list(word)),
        "answers" => (&[ANSWERS], word),
        _ => return None,
    };
    let place = |list: &&[&str]| list.iter().position(|other| other.as_bytes() == word);
    lists.iter().find_map(place).map(|place| place as u32)
}

/// Values have two words for the same kind.
fn array_for_list(word: &[u8]) -> &[u8] {
    match word {
        b"list" => b"array",
        _ => word,
    }
}
