//! Each of the 24 error codes at least once, with its place, path and data. Places: 1 the argument
//! definition, 2 the first field, 3 and up literals; 9 is a later field of the same key.

mod support;

use support::{gives, gives_with};

const TYPES: &str = "
    scalar Any  enum Hue { RED }  input P { a: Int  b: Int! }
    interface Pet { name: String }  interface Lone { a: Int }
    type Dog implements Pet { name: String }  type Cat { name: String }
    union Friend = Cat | Nobody
";

/// A run of `{ f }` at a type, f being answered so.
fn completes(ty: &str, answer: &str, expected: &str) {
    let schema = format!("type Q {{ f: {ty} }} {TYPES}");
    gives(&schema, "{ f'2 { name } f'9 { name } }", &format!("{{ f: {answer} }}"), expected);
}

/// A run of `{ f(x: ..) }`, which is answered with the coerced argument.
fn coerces(definition: &str, given: &str, expected: &str) {
    let schema = format!("type Q {{ f(x'1: {definition}): Any }} {TYPES}");
    let document = format!("{{ f'2{given} }}");
    gives_with(&schema, &document, r#"{"null": null}"#, "{ f: echo x }", expected);
}

#[test]
fn code_1_resolver() {
    completes("Int", "error", r#"{"f":null} 1:f@2"#);
    completes("Int!", "error", "null 1:f@2");
    completes("Int", "echo x", r#"{"f":null} 1:f@2"#);
    completes("[Int]", "[1, error]", r#"{"f":null} 1:f.1@2"#);
    let schema = "type Q { f: Int }";
    gives(schema, "{ f'2 }", "{}", r#"{"f":null} 1:f@2"#);
}

#[test]
fn code_2_null_for_non_null() {
    completes("Int!", "null", "null 2:f@2");
    completes("[Int!]", "[null]", r#"{"f":null} 2:f.0@2"#);
}

#[test]
fn code_3_list_type_without_list() {
    completes("[Int]", "5", r#"{"f":null} 3:f@2"#);
    completes("[Dog]", r#"Dog{name: "a"}"#, r#"{"f":null} 3:f@2"#);
    completes("[[Int]]", "[1]", r#"{"f":[null]} 3:f.0@2"#);
}

#[test]
fn code_4_list_for_non_list_type() {
    completes("Int", "[1]", r#"{"f":null} 4:f@2"#);
    completes("Int!", "[]", "null 4:f@2");
}

#[test]
fn code_5_undefined_type() {
    completes("Nope", "1", r#"{"f":null} 5:f@2"#);
    completes("Nope", "Dog{}", r#"{"f":null} 5:f@2"#);
}

#[test]
fn code_6_input_object_type() {
    completes("P", "1", r#"{"f":null} 6:f@2"#);
    completes("[P!]!", "[Dog{}]", "null 6:f.0@2");
}

#[test]
fn code_7_object_for_scalar_or_enum() {
    completes("Int", "Dog{}", r#"{"f":null} 7:f@2"#);
    completes("Hue", "Dog{}", r#"{"f":null} 7:f@2"#);
    completes("Any", "Dog{}", r#"{"f":null} 7:f@2"#);
}

#[test]
fn code_8_object_type_unknown() {
    completes("Pet", "Nope{}", r#"{"f":null} 8:f@2"#);
    completes("Friend", "Nobody{}", r#"{"f":null} 8:f@2"#);
}

#[test]
fn code_9_not_in_union() {
    completes("Friend", "Dog{}", r#"{"f":null} 9:f@2"#);
    completes("Friend", r#"Cat{name: "a"}"#, r#"{"f":{"name":"a"}}"#);
}

#[test]
fn code_10_not_implementing() {
    completes("Pet", "Cat{}", r#"{"f":null} 10:f@2"#);
    completes("Pet", r#"Dog{name: "a"}"#, r#"{"f":{"name":"a"}}"#);
}

#[test]
fn code_11_other_object_type() {
    completes("Dog", "Cat{}", r#"{"f":null} 11:f@2"#);
    completes("[Dog]", r#"[Cat{}, Dog{name: "a"}]"#, r#"{"f":[null,{"name":"a"}]} 11:f.0@2"#);
}

#[test]
fn code_12_leaf_for_composite() {
    completes("Dog", "1", r#"{"f":null} 12:f@2"#);
    completes("Pet", r#""Dog""#, r#"{"f":null} 12:f@2"#);
    completes("Friend", "leaf {}", r#"{"f":null} 12:f@2"#);
}

#[test]
fn code_13_not_an_enum_value() {
    completes("Hue", r#""BLUE""#, r#"{"f":null} 13:f@2"#);
    completes("Hue", "1", r#"{"f":null} 13:f@2"#);
    completes("Hue", r#""RED""#, r#"{"f":"RED"}"#);
}

#[test]
fn code_14_int_overflow() {
    completes("Int", "2147483648", r#"{"f":null} 14:f@2"#);
    completes("Int", "-2147483649", r#"{"f":null} 14:f@2"#);
    completes("Int", "9223372036854775807", r#"{"f":null} 14:f@2"#);
    completes("Int", "-9223372036854775808", r#"{"f":null} 14:f@2"#);
    completes("[Int]", "[2147483647, -2147483648]", r#"{"f":[2147483647,-2147483648]}"#);
}

#[test]
fn code_15_leaf_of_another_kind() {
    completes("Int", "1.0", r#"{"f":null} 15:f@2"#);
    completes("Int", "9223372036854775808", r#"{"f":null} 15:f@2"#);
    completes("Float", "1", r#"{"f":null} 15:f@2"#);
    completes("Float", "-1.5e3", r#"{"f":-1.5e3}"#);
    completes("String", "1", r#"{"f":null} 15:f@2"#);
    completes("Boolean", r#""true""#, r#"{"f":null} 15:f@2"#);
    completes("ID", "9223372036854775808", r#"{"f":null} 15:f@2"#);
    completes("ID", "1.5", r#"{"f":null} 15:f@2"#);
    completes("[ID]", r#"["a", -9223372036854775808]"#, r#"{"f":["a",-9223372036854775808]}"#);
    // A message quotes the value: one that looks like the end of another message.
    completes("Int", r#""1 which overflows Int""#, r#"{"f":null} 15:f@2"#);
    completes("String", r#"leaf [", expected enum Hue"]"#, r#"{"f":null} 15:f@2"#);
    completes("Hue", r#"", expected Int""#, r#"{"f":null} 13:f@2"#);
}

#[test]
fn code_16_null_argument() {
    coerces("Int!", "(x: null'3)", r#"{"f":null} 16:f@1"#);
    coerces("Int!", "(x: $null'3)", r#"{"f":null} 16:f@1"#);
    coerces("Int", "(x: null'3)", r#"{"f":null}"#);
}

#[test]
fn code_17_inner_null() {
    coerces("[Int!]", "(x: [1'4, null'5]'3)", r#"{"f":null} 17:f@5"#);
    coerces("P", "(x: {b: null'4}'3)", r#"{"f":null} 17:f@4"#);
}

#[test]
fn code_18_null_variable() {
    coerces("[Int!]", "(x: [$null'4]'3)", r#"{"f":null} 18:f@4"#);
    coerces("P", "(x: {b: $null'4}'3)", r#"{"f":null} 18:f@4"#);
}

#[test]
fn code_19_missing_variable() {
    coerces("[Int!]", "(x: [$none'4]'3)", r#"{"f":null} 19:f@4"#);
    coerces("P", "(x: {b: $none'4}'3)", r#"{"f":null} 19:f@4"#);
}

#[test]
fn code_20_undefined_type() {
    coerces("Nope", "(x: 1'3)", r#"{"f":null} 20:f@3"#);
    coerces("[Nope]", "(x: [null'4, 1'5]'3)", r#"{"f":null} 20:f@5"#);
}

#[test]
fn code_21_unknown_key() {
    coerces("P", "(x: {c: 1'4}'3)", r#"{"f":null} 21:f@3"#);
    coerces("[P]", "(x: [{b: 1'5, c: 1'6}'4]'3)", r#"{"f":null} 21:f@4"#);
}

#[test]
fn code_22_missing_input_field() {
    coerces("P", "(x: {a: 1'4}'3)", r#"{"f":null} 22:f@3"#);
}

#[test]
fn code_23_cannot_coerce() {
    coerces("P", "(x: 1'3)", r#"{"f":null} 23:f@3"#);
    coerces("[P]", "(x: [[]'4]'3)", r#"{"f":null} 23:f@4"#);
    coerces("P", "(x: RED'3)", r#"{"f":null} 23:f@3"#);
}

#[test]
fn code_24_missing_argument() {
    coerces("Int!", "", r#"{"f":null} 24:f@1"#);
    coerces("Int!", "(x: $none'3)", r#"{"f":null} 24:f@1"#);
    coerces("Int!", "(y: 1'3)", r#"{"f":null} 24:f@1"#);
}
