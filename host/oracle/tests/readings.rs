//! The readings of document 01 that were settled by running the Rust, by their numbers, and those
//! of the others that a run in document order can show.

mod support;

use support::{echoes, gives, gives_with};

#[test]
fn reading_1_an_error_item_goes_past_the_list() {
    let own = "type Q { f: [Int]! }";
    gives(own, "{ f'2<[Int]> }", "{ f: [error] }", "null 1:f.0@2");
    let own = "type Q { f: [Int!]! }";
    gives(own, "{ f'2<[Int!]> }", "{ f: [null] }", r#"{"f":null} 2:f.0@2"#);
}

#[test]
fn reading_2_a_list_is_a_list_answer() {
    gives("type Q { f: [Int] }", "{ f }", "{ f: leaf [1] }", r#"{"f":null} 3:f"#);
    let schema = "type Q { f(x: [Int]): [Int] }";
    gives(schema, "{ f(x: [1]) }", "{ f: echo x }", r#"{"f":null} 3:f"#);
    gives("type Q { f: Nope }", "{ f }", "{ f: [1] }", r#"{"f":null} 4:f"#);
}

#[test]
fn reading_3_a_named_type_that_is_no_object() {
    let schema = "type Q { f: I g: U h: T } interface I { a: Int } union U = T | I | E
                  enum E { A } type T { a: Int }";
    let document = "{ f { a } g { a } h { a } }";
    let answers = "{ f: I{}, g: E{}, h: Nope{} }";
    gives(schema, document, answers, r#"{"f":null,"g":null,"h":null} 8:f 8:g 11:h"#);
}

#[test]
fn reading_4_typename_is_completed_against_its_attached_type() {
    let schema = "type Q { a: Int }";
    gives(schema, "{ __typename }", "{}", r#"{"__typename":"Q"}"#);
    gives(schema, "{ n: __typename'2<Int> }", "{}", "null 15:n@2");
    gives("bare type Q { a: Int }", "{ __typename'2 }", "{}", "null 5:__typename@2");
    // The answers are not asked.
    gives(schema, "{ __typename }", "{ __typename: error }", r#"{"__typename":"Q"}"#);
}

#[test]
fn reading_5_an_interface_that_is_none() {
    let schema = "type Q implements Nope & S { a: Int } scalar S";
    gives(schema, "{ ... on Nope { a } ... on S { a } }", "{ a: 1 }", "{}");
    let schema = "type Q implements I { a: Int } interface I { a: Int }";
    gives(schema, "{ ... on I { a } }", "{ a: 1 }", r#"{"a":1}"#);
}

#[test]
fn reading_6_items_behind_a_failure_are_not_taken() {
    let schema = "type Q { f: [Int!] g: [Int] }";
    let answers = "{ f: [1, null, error, null], g: [error, error] }";
    gives(schema, "{ f g }", answers, r#"{"f":null,"g":null} 2:f.1 1:g.0"#);
}

#[test]
fn reading_7_an_echo_without_its_argument_fails_the_list() {
    let schema = "type Q { f(x: Int): [Int!]! }";
    gives(schema, "{ f(x: 1)<[Int]> }", "{ f: [echo x, echo y] }", "null 1:f.1");
    gives(schema, "{ f(x: 1) }", "{ f: [echo x, echo x] }", r#"{"f":[1,1]}"#);
}

#[test]
fn reading_8_defaults_convert_part_by_part_only() {
    echoes("", "[Int] = 1", "", "", r#"{"f":1}"#);
    echoes("input P { a: Int = 1 b: Int! }", "P = {}", "", "", r#"{"f":{}}"#);
    echoes("", "Int! = null", "", "", r#"{"f":null}"#);
    echoes("", "Nope = 1", "", "", r#"{"f":1}"#);
    // Also those of input fields.
    echoes(
        "input P { a: [Int!]! = null b: Nope = A }",
        "P",
        "(x: {})",
        "",
        r#"{"f":{"a":null,"b":"A"}}"#,
    );
}

#[test]
fn reading_9_the_order_of_keys() {
    echoes(
        "input P { a: Int b: Int c: Int = 3 }",
        "P",
        "(x: {b: 2, a: 1})",
        "",
        r#"{"f":{"a":1,"b":2,"c":3}}"#,
    );
    echoes("", "Any", "(x: {b: 2, a: 1})", "", r#"{"f":{"b":2,"a":1}}"#);
    echoes("input P { a: Any }", "P", "(x: {a: {z: 1, y: 2}})", "", r#"{"f":{"a":{"z":1,"y":2}}}"#);
}

#[test]
fn reading_10_an_absent_variable_in_an_input_object() {
    echoes("input P { a: Int = 1 }", "P", "(x: {a: $v})", "", r#"{"f":{"a":null}}"#);
    echoes("input P { a: Int = 1 }", "P", "(x: {a: $v})", r#"{"v": 2}"#, r#"{"f":{"a":2}}"#);
    // At the top it is as if nothing were given.
    echoes("", "Int = 1", "(x: $v)", "", r#"{"f":1}"#);
    echoes("", "Int", "(x: $v)", "", r#"{"f":null} 1:f"#);
}

#[test]
fn reading_11_places() {
    let input = "input P { a'50: Int! b'51: Int }";
    echoes(input, "P", "(x: {c: 1'4}'3)", "", r#"{"f":null} 21:f@3"#);
    echoes(input, "P", "(x: {b: 1'4}'3)", "", r#"{"f":null} 22:f@3"#);
    echoes(input, "[Nope]", "(x: [1'4]'3)", "", r#"{"f":null} 20:f@4"#);
    echoes(input, "[P]", "(x: [1'4]'3)", "", r#"{"f":null} 23:f@4"#);
    // A literal that is wrapped keeps its own place.
    echoes(input, "[[P]]", "(x: 1'3)", "", r#"{"f":null} 23:f@3"#);
}

#[test]
fn reading_12_null_and_absent_variables() {
    let null = r#"{"v": null}"#;
    echoes("", "Int!", "(x: $v'3)", null, r#"{"f":null} 16:f@1"#);
    echoes("", "Int!", "(x: $v'3)", "", r#"{"f":null} 24:f@1"#);
    echoes("", "[Int!]", "(x: [null'4]'3)", "", r#"{"f":null} 17:f@4"#);
    echoes("", "[Int!]", "(x: [$v'4]'3)", null, r#"{"f":null} 18:f@4"#);
    echoes("", "[Int!]", "(x: [$v'4]'3)", "", r#"{"f":null} 19:f@4"#);
    echoes("", "[Int]", "(x: [$v'4]'3)", "", r#"{"f":[null]}"#);
}

#[test]
fn reading_13_an_undefined_argument_type_is_met_by_some_literals_only() {
    echoes("", "[Nope]", "(x: [])", "", r#"{"f":[]}"#);
    echoes("", "[Nope]", "(x: [null])", "", r#"{"f":[null]}"#);
    echoes("", "Nope", "(x: $v)", r#"{"v": 1}"#, r#"{"f":1}"#);
    echoes("", "Nope", "(x: null)", "", r#"{"f":null}"#);
    echoes("", "Nope", "(x: {})", "", r#"{"f":null} 20:f"#);
}

#[test]
fn reading_14_arguments_go_in_definition_order() {
    let schema = "scalar Any type Q { f(b'1: Int!, a'2: Int!): Any }";
    gives(schema, "{ f(a: null, b: null) }", "{ f: 1 }", r#"{"f":null} 16:f@1"#);
    let schema = "scalar Any type Q { f(x: Int): Any }";
    let document = "{ f(y: [[$v]], x: 1) f(x: 2) }";
    gives_with(schema, document, r#"{"v": 1}"#, "{ f: echo x }", r#"{"f":1}"#);
    gives(schema, document, "{ f: echo y }", r#"{"f":null} 1:f"#);
}

#[test]
fn reading_15_an_unknown_key_comes_first() {
    let input = "input P { a: Int! b: Nope }";
    echoes(input, "P", "(x: {b: 1'4, z: 1'5}'3)", "", r#"{"f":null} 21:f@3"#);
    // Then fields in definition order: what is missing of `a` comes before what is wrong in `b`.
    echoes(input, "P", "(x: {b: 1'4}'3)", "", r#"{"f":null} 22:f@3"#);
}

#[test]
fn reading_16_part_by_part_checks_nothing() {
    echoes("", "Int", r#"(x: ["x"])"#, "", r#"{"f":["x"]}"#);
    echoes("type T { a: Int }", "T", "(x: {a: A})", "", r#"{"f":{"a":"A"}}"#);
    echoes("interface I { a: Int }", "I", "(x: 1.50)", "", r#"{"f":1.50}"#);
    echoes("union U = T", "U!", "(x: true)", "", r#"{"f":true}"#);
    echoes("enum E { A }", "E", "(x: B)", "", r#"{"f":"B"}"#);
    let schema = "type Q { f(x: Float): Float }";
    gives(schema, "{ f(x: 1) }", "{ f: echo x }", r#"{"f":null} 15:f"#);
    gives(schema, "{ f(x: 1.0) }", "{ f: echo x }", r#"{"f":1.0}"#);
}

#[test]
fn reading_17_a_variable_inside_what_converts_part_by_part() {
    let no_code =
        "cannot judge: a message without a code: variable in default value of argument x.";
    echoes("", "[Int]", "(x: [[$v]])", r#"{"v": 1}"#, no_code);
    echoes("", "Int", "(x: [$v])", r#"{"v": 1}"#, no_code);
    echoes("", "[Int]", "(x: [$v])", r#"{"v": 1}"#, r#"{"f":[1]}"#);
}

#[test]
fn reading_18_a_variable_is_used_as_it_stands() {
    echoes("", "[Int]", "(x: $v)", r#"{"v": "a"}"#, r#"{"f":"a"}"#);
    echoes("", "[[Int!]!]!", "(x: [$v])", r#"{"v": {"a": [null]}}"#, r#"{"f":[{"a":[null]}]}"#);
    echoes("input P { a: Int! }", "P!", "(x: $v)", r#"{"v": {}}"#, r#"{"f":{}}"#);
}

#[test]
fn wrapping_goes_once_per_level() {
    echoes("", "[[[Int]]]", "(x: 1)", "", r#"{"f":[[[1]]]}"#);
    echoes("", "[[Int]]", "(x: [[1], 2, null])", "", r#"{"f":[[1],[2],null]}"#);
    echoes("input P { a: [Int] }", "[P]", "(x: {a: 1})", "", r#"{"f":[{"a":[1]}]}"#);
}

#[test]
fn collecting() {
    let schema = "type Q { a: Int b: T } type T implements I { c: Int d: Int }
                  interface I { c: Int } union U = T";
    // A spread that skip dropped is not marked, one whose type doesn't apply is.
    let document = "{ ...F @skip(if: true) ...F ...G ...G ...None } 
                    fragment F on Q { a } fragment G on T { a }";
    gives(schema, document, "{ a: 1 }", r#"{"a":1}"#);
    // Child sets of merged fields are collected together; each collection has its own marks.
    let document = "{ b { ...F } b { ...F d ... on U { e: c } ... on I { c } ... on Q { x: c } } }
                    fragment F on T { c }";
    gives(schema, document, "{ b: T{c: 1, d: 2} }", r#"{"b":{"c":1,"d":2,"e":1}}"#);
    // A group whose first field isn't defined is left out, even if a later one is.
    gives(schema, "{ x:nope x:a a ... { a } }", "{ a: 1 }", r#"{"a":1}"#);
    // A variable that is no boolean is no directive.
    let document =
        "{ a @skip(if: $v) x:a @include(if: $v) y:a @include(if: $f) z:a @skip(if: $f) }";
    let variables = r#"{"v": "true", "f": false}"#;
    gives_with(schema, document, variables, "{ a: 1 }", r#"{"a":1,"x":1,"z":1}"#);
}

#[test]
fn the_own_type_decides_where_a_failure_stops() {
    // Attached `Int!`, own `Int`: error 2 by the attached type, nulled by the own.
    gives("type Q { f: Int }", "{ f<Int!> }", "{ f: null }", r#"{"f":null} 2:f"#);
    // Attached `Int`, own `Int!`: a null passes, a failure goes up.
    gives("type Q { f: Int! }", "{ f<Int> }", "{ f: null }", r#"{"f":null}"#);
    gives("type Q { f: Int! }", "{ f<Int> }", "{ f: error }", "null 1:f");
    gives("type Q { f(x: Int!): Int! }", "{ f<Int> }", "{ f: 1 }", "null 24:f");
}

#[test]
fn skipped_fields_are_left_out() {
    let schema = "type Q { a: Int! b: Int }";
    gives(schema, "{ a b }", "{ a: skip, b: 1 }", r#"{"b":1}"#);
}

#[test]
fn text_is_escaped_as_document_01_says() {
    let leaf = r#"{ f: "\"\\/\b\f\n\r\t\u0001\u001f\u007fé" }"#;
    let text = format!(r#"{{"f":"\"\\/\b\f\n\r\t\u0001\u001f{}é"}}"#, '\u{7f}');
    gives("type Q { f: String }", "{ f }", leaf, &text);
}

#[test]
fn answers_may_lead_back() {
    let schema = "type Q { a: Int q: Q }";
    let document = "{ q { q { q { a } } } a }";
    let answers = "{ a: 1, q: Q^0 }";
    gives(schema, document, answers, r#"{"q":{"q":{"q":{"a":1}}},"a":1}"#);
    let endless = "{ ...F } fragment F on Q { a q { ...F } }";
    let stopped = "cannot judge: a path of more than 32 segments";
    gives(schema, endless, answers, stopped);
}

#[test]
fn outside_of_the_domain() {
    let schema = "type Q { a: Int }";
    gives(
        schema,
        "{ a x:__schema }",
        "{ a: 1 }",
        "cannot judge: a field is named __schema or __type",
    );
    // A float that is no finite double: the Rust has words for it, document 01 no code.
    echoes(
        "",
        "Float",
        "(x: 1e400)",
        "",
        "cannot judge: a message without a code: float value overflow in argument x",
    );
    // As a leaf it is never parsed.
    gives("type Q { f: Float }", "{ f }", "{ f: 1e400 }", r#"{"f":1e400}"#);
}
