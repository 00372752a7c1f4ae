//! The depth check: document 01's two examples, readings 26 and 27, and the guard before the Rust.

mod support;

use support::depth;

const F: &str = "fragment F on Q { fields'20 }";

#[test]
fn document_01() {
    depth(&format!("{{ ...F'1 fields'2 {{ interfaces'3 {{ ...F'4 }} }} }} {F}"), "0 2");
    depth(&format!("{{ fields'2 {{ interfaces'3 {{ ...F'4 }} }} ...F'1 }} {F}"), "8 @20");
}

#[test]
fn depth_rises_on_four_names() {
    depth("{ a { b { c } } }", "0 0");
    depth("{ fields a { inputFields } }", "0 1");
    depth("{ fields { a { possibleTypes } } }", "0 2");
    depth("{ fields'1 { interfaces'2 { inputFields'3 } } }", "8 @3");
    // Names, not response keys; skip and include are ignored.
    depth("{ fields:a { interfaces:b { inputFields:c } } }", "0 0");
    depth("{ fields @skip(if: true) { x:fields { y:fields'3 @include(if: false) } } }", "8 @3");
    depth("{ ... { fields { ... on Nope { interfaces } } } ...None'3 }", "0 2");
}

#[test]
fn a_fragment_met_again() {
    // Remembered rise 2: at depth 1 it is 3, not over 3; at depth 2 it is 4.
    let g = "fragment G on Q { fields { fields } }";
    depth(&format!("{{ ...G'1 fields {{ ...G'2 }} }} {g}"), "0 2");
    depth(&format!("{{ ...G'1 fields {{ fields {{ ...G'2 }} }} }} {g}"), "8 @2");
}

#[test]
fn reading_26_nothing_is_added_to_another_fragments_rise() {
    let fragments = "fragment F on Q { fields'20 { interfaces'21 } } fragment G on Q { ...F'22 }";
    let rest = "...G'2 fields'3 { interfaces'4 { ...G'5 } }";
    depth(&format!("{{ ...F'1 {rest} }} {fragments}"), "0 2");
    depth(&format!("{{ {rest} }} {fragments}"), "8 @5");
}

#[test]
fn reading_27_a_fragment_within_itself() {
    depth("{ ...F'1 } fragment F on Q { ...F'2 }", "3");
    depth("{ ...F'1 } fragment F on Q { fields'20 { ...F'2 } }", "8 @20");
}

/// Sets within sets by inline fragments: `levels` open ones, the operation's the first.
fn nested(levels: usize) -> String {
    format!("{}a{}", "{ ... ".repeat(levels - 1) + "{ ", " }".repeat(levels))
}

#[test]
fn open_sets_are_counted() {
    depth(&nested(32), "0 0");
    depth(&nested(33), "3");
    // A field without a child set and an undefined fragment open none, any other spread does.
    depth(&nested(32).replace("{ a", "{ a ...None"), "0 0");
    let fragment = "fragment F on Q { a }";
    depth(&format!("{} {fragment}", nested(31).replace("{ a", "{ a ...F")), "0 0");
    depth(&format!("{} {fragment}", nested(32).replace("{ a", "{ a ...F")), "3");
    // What is refused first counts: here a field that is too deep.
    let deep = "{ fields { fields { fields'7 } } ";
    depth(&format!("{deep} ... {} }}", nested(33)), "8 @7");
}
