//! The cases of document 01 that are runs in document order with room for their answer: A to J, M
//! and N. (K needs a choice and L a buffer, which the Rust has not.)

mod support;

use support::{gives, gives_with};

#[test]
fn a_an_error_item_fails_the_list() {
    gives("type Q { f: [Int] }", "{ f }", "{ f: [42, error] }", r#"{"f":null} 1:f.1"#);
}

#[test]
fn b_a_skipped_item_is_dropped_and_counted() {
    gives("type Q { f: [Int] }", "{ f }", r#"{ f: [42, skip, "x"] }"#, r#"{"f":[42,null]} 15:f.2"#);
}

#[test]
fn c_a_null_item_goes_up_through_non_null_types() {
    gives("type Q { f: [Int!]! }", "{ f }", "{ f: [1, null] }", "null 2:f.1");
}

#[test]
fn d_a_null_item_nulls_its_list() {
    gives("type Q { f: [Int!] }", "{ f }", "{ f: [1, null] }", r#"{"f":null} 2:f.1"#);
}

#[test]
fn e_an_int_overflows() {
    gives("type Q { f: Int }", "{ f }", "{ f: 2147483648 }", r#"{"f":null} 14:f"#);
}

#[test]
fn f_an_integer_beyond_64_signed_bits_is_no_int() {
    gives("type Q { f: Int }", "{ f }", "{ f: 9223372036854775808 }", r#"{"f":null} 15:f"#);
}

#[test]
fn g_an_integer_is_no_float() {
    gives("type Q { f: Float }", "{ f }", "{ f: 1 }", r#"{"f":null} 15:f"#);
}

#[test]
fn h_groups_stand_by_first_appearance() {
    let document = "{ x:f @skip(if: $v) y:g x:f }";
    gives("type Q { f: Int g: Int }", document, "{ f: 1, g: 2 }", r#"{"x":1,"y":2}"#);
}

#[test]
fn i_skip_wins_over_include() {
    gives("type Q { f: Int }", "{ f @skip(if: true) @include(if: true) }", "{ f: 1 }", "{}");
}

#[test]
fn j_the_first_failure_ends_the_run() {
    gives("type Q { a: Int! b: Int! }", "{ a b }", "{ a: error, b: error }", "null 1:a");
}

#[test]
fn m_items_are_wrapped_one_by_one() {
    let schema = "scalar Any type Q { f(x: [[Int]]): Any }";
    gives_with(schema, "{ f(x: [1, 2]) }", "", "{ f: echo x }", r#"{"f":[[1],[2]]}"#);
}

#[test]
fn n_a_leaf_is_no_list() {
    gives("type Q { f: [Int] }", "{ f }", "{ f: 5 }", r#"{"f":null} 3:f"#);
}
