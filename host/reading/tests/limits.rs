//! What the Rust cannot judge: limits, choices, buffers. By document 01 and its readings. Plain Rust is
//! asked as well.

use reading::{run, Lent};
use tables::{notation, record};

const LARGEST: Lent<'static> = Lent { choices: &[], text_bytes: 65_536, error_words: 16_384 };

/// Demands the code of a run and, with code 0, its answer.
fn answers_with(lent: Lent<'_>, texts: [&str; 4], expected: &str) {
    let [schema, document, variables, answers] = texts;
    let tables = notation::tables(schema, document, variables, answers);
    let answer = run(&tables, lent).expect("tests are small");
    let line = match answer.code {
        0 => format!("0 {}", record::line(&tables, &answer.data, &answer.errors, false)),
        code => code.to_string(),
    };
    assert_eq!(line, expected, "\n{schema}\n{document}\n{variables}\n{answers}");
    let (mut text, mut errors) = (vec![1; lent.text_bytes], vec![1; lent.error_words]);
    let ran = plain::run_ordered(&tables, lent.choices, &mut text, &mut errors);
    let words: Vec<u32> = answer.errors.iter().flat_map(|error| error.words()).collect();
    let counts = (ran.bytes, ran.words, ran.records);
    assert_eq!(
        (ran.code, counts),
        (answer.code, (answer.data.len(), words.len(), answer.errors.len()))
    );
    assert_eq!(text[..ran.bytes], *answer.data.as_bytes(), "{document}");
    assert_eq!(errors[..ran.words], words, "{document}");
}

fn answers(schema: &str, document: &str, answers: &str, expected: &str) {
    answers_with(LARGEST, [schema, document, "", answers], expected)
}

/// `text` within so many brackets.
fn nested(levels: usize, text: &str) -> String {
    format!("{}{text}{}", "[".repeat(levels), "]".repeat(levels))
}

#[test]
fn case_k_takes_the_second_group_first() {
    let texts = ["type Q { a: Int! b: Int! }", "{ a b }", "", "{ a: error, b: error }"];
    answers_with(Lent { choices: &[1], ..LARGEST }, texts, "0 null 1:b");
    answers_with(Lent { choices: &[3], ..LARGEST }, texts, "0 null 1:b");
    answers_with(Lent { choices: &[2], ..LARGEST }, texts, "0 null 1:a");
}

#[test]
fn choices_are_one_sequence_and_the_text_keeps_group_order() {
    let schema = "type Q { a: Int b: Q }";
    let document = "{ nope b { a x:a y:a } a }";
    let texts = [schema, document, "", "{ a: error, b: Q^0 }"];
    let data = r#"{"b":{"a":null,"x":null,"y":null},"a":null}"#;
    // Groups nope, b, a: first b (of three), within it y (of three), then a, x, then nope, a.
    let lent = Lent { choices: &[1, 2], ..LARGEST };
    answers_with(lent, texts, &format!("0 {data} 1:b.y 1:b.a 1:b.x 1:a"));
    // The undefined one uses a choice.
    let lent = Lent { choices: &[0, 1], ..LARGEST };
    answers_with(lent, texts, &format!("0 {data} 1:a 1:b.a 1:b.x 1:b.y"));
}

#[test]
fn case_l_the_text_is_longer_than_its_buffer() {
    let texts = ["type Q { f: Int }", "{ f }", "", "{ f: 1 }"];
    answers_with(Lent { text_bytes: 1, ..LARGEST }, texts, "6");
    answers_with(Lent { text_bytes: 6, ..LARGEST }, texts, "6");
    answers_with(Lent { text_bytes: 7, ..LARGEST }, texts, r#"0 {"f":1}"#);
}

#[test]
fn only_the_final_text_counts() {
    let texts = ["type Q { a: Int b: Int! }", "{ a b }", "", "{ a: 1234567890, b: null }"];
    let lent = Lent { text_bytes: 4, ..LARGEST };
    answers_with(lent, texts, "0 null 2:b");
    // Text before errors.
    answers_with(Lent { text_bytes: 3, error_words: 0, ..LARGEST }, texts, "6");
    answers_with(Lent { text_bytes: 4, error_words: 4, ..LARGEST }, texts, "7");
    answers_with(Lent { text_bytes: 4, error_words: 5, ..LARGEST }, texts, "0 null 2:b");
}

#[test]
fn code_2_comes_before_the_walk() {
    answers("type Q { q: Q }", "{ q { x:__type @skip(if: true) } }", "{}", "2");
}

/// `{ q { q .. { end } } }`, the end's path having so many segments.
fn path(segments: usize, end: &str) -> String {
    let fields = segments - 1;
    format!("{}{{ {end} }}{}", "{ q ".repeat(fields), " }".repeat(fields))
}

#[test]
fn reading_21_a_path_of_33_segments() {
    let schema = "type Q { q: Q a: Int x(x: Int!): Int l: [Int] }";
    let reaches = |segments, end: &str, list: &str, reached: bool| {
        let tables = notation::tables(
            schema,
            &path(segments, end),
            "",
            &format!("{{ q: Q^0, a: 1, l: {list} }}"),
        );
        let answer = run(&tables, LARGEST).expect("tests are small");
        assert_eq!(answer.code == 3, reached, "{segments} {end} {list}");
    };
    for end in ["a", "__typename", "x", "q", "l"] {
        reaches(32, end, "[]", false);
        reaches(33, end, "[]", true);
    }
    reaches(33, "nope", "[]", false);
    reaches(33, "a @skip(if: true)", "[]", false);
    // An item's segment is made before the item is taken; an empty list and error 4 make none.
    for list in ["[1]", "[skip]", "[error]"] {
        reaches(31, "l", list, false);
        reaches(32, "l", list, true);
        reaches(32, "l <Int>", list, false);
    }
    // An error ahead of an item stops before it.
    reaches(32, "l", "error", false);
}

#[test]
fn readings_6_and_25_containers_of_a_leaf() {
    let schema = "scalar Any type Q { f: Any g: [Any] h: Int i(x: Any, y: [Any]): Any }";
    let fits = nested(32, "1");
    let deep = nested(33, "1");
    let object = format!("{{\"a\": {}}}", nested(31, "{}"));
    answers(schema, "{ f }", &format!("{{ f: leaf {fits} }}"), &format!("0 {{\"f\":{fits}}}"));
    answers(schema, "{ f }", &format!("{{ f: leaf {deep} }}"), "3");
    answers(schema, "{ f }", &format!("{{ f: leaf {object} }}"), "3");
    // Ahead of its type.
    answers(schema, "{ h }", &format!("{{ h: leaf {deep} }}"), "3");
    answers(schema, "{ h }", &format!("{{ h: leaf {fits} }}"), r#"0 {"h":null} 15:h"#);
    // Items behind an error item are not taken, nor those of a list at a non-list type.
    let list = format!("[error, leaf {deep}]");
    answers(schema, "{ g }", &format!("{{ g: {list} }}"), r#"0 {"g":null} 1:g.0"#);
    answers(schema, "{ h }", &format!("{{ h: {list} }}"), r#"0 {"h":null} 4:h"#);
    // What is asked for by nobody counts for nothing.
    answers(schema, "{ h }", &format!("{{ h: 1, f: leaf {deep} }}"), r#"0 {"h":1}"#);
    // A variable's containers count when they are echoed, not when they are coerced.
    let variables = format!("{{\"v\": {fits}}}");
    let echo = |document, answer, expected: &str| {
        answers_with(LARGEST, [schema, document, &variables, answer], expected)
    };
    echo("{ i(x: $v) }", "{ i: echo x }", &format!("0 {{\"i\":{fits}}}"));
    echo("{ i(y: [$v]) }", "{ i: 1 }", r#"0 {"i":1}"#);
    echo("{ i(y: [$v]) }", "{ i: echo y }", "3");
}

/// A run whose argument `x` is not echoed: only building its value can reach a limit.
fn builds(types: &str, definition: &str, given: &str, expected: &str) {
    let schema = format!("type Q {{ f(x: {definition}): Int }} scalar Any {types}");
    answers(&schema, &format!("{{ f{given} }}"), "{ f: 1 }", expected)
}

#[test]
fn readings_15_17_and_19_containers_of_a_literal() {
    let fine = r#"0 {"f":1}"#;
    builds("", "Any", &format!("(x: {})", nested(32, "1")), fine);
    builds("", "Any", &format!("(x: {})", nested(33, "1")), "3");
    builds("", "Any", &format!("(x: {})", nested(32, "{}")), "3");
    // Wrapping opens containers too.
    builds("", &nested(32, "Any"), "(x: 1)", fine);
    builds("", &nested(33, "Any"), "(x: 1)", "3");
    builds("", &nested(33, "Any"), "(x: null)", fine);
    builds("", &nested(33, "Any"), &format!("(x: {})", nested(32, "null")), fine);
    // Defaults, if they are used.
    let default = format!("Any = {}", nested(33, "1"));
    builds("", &default, "", "3");
    builds("", &default, "(x: 1)", fine);
    let types = format!("input P {{ a: Any = {} }}", nested(32, "1"));
    builds(&types, "P", "(x: {})", "3");
    builds(&types, "P", "(x: {a: 1})", fine);
    // Tests for null, variable, undefined type, non-object and unknown key come first.
    let types = "input P { a: Int }";
    builds(types, &nested(32, "Nope"), "(x: 1)", r#"0 {"f":null} 20:f"#);
    builds(types, &nested(32, "P"), "(x: 1)", r#"0 {"f":null} 23:f"#);
    builds(types, &nested(32, "P"), "(x: {b: 1})", r#"0 {"f":null} 21:f"#);
    builds(types, &nested(32, "P"), "(x: {})", "3");
    // An argument without a definition is not built.
    builds("", "Any", &format!("(y: {}, x: 1)", nested(33, "1")), fine);
}

#[test]
fn code_5_a_variable_where_a_literal_converts_part_by_part() {
    builds("", "Any", "(x: [$v])", "5");
    builds("", "[Int]", "(x: [[$v]])", "5");
    builds("", "[Int]", "(x: [$v])", r#"0 {"f":1}"#);
    builds("", "Int", "(y: [$v])", r#"0 {"f":1}"#);
    // Which is reached first.
    builds("", "Any", &format!("(x: {})", nested(32, "$v")), "5");
    builds("", "Any", &format!("(x: {})", nested(33, "$v")), "3");
    builds("", "Any", &format!("(x: [$v, {}])", nested(33, "1")), "5");
    builds("", "Any", &format!("(x: [{}, $v])", nested(32, "1")), "3");
}

#[test]
fn reading_22_fragments_that_are_open() {
    let schema = "type Q { a: Int }";
    let document = |levels: usize, end: &str| {
        format!(
            "{{ {}{end}{} }} fragment F on Q {{ a }}",
            "... { ".repeat(levels),
            " }".repeat(levels)
        )
    };
    let fine = r#"0 {"a":1}"#;
    answers(schema, &document(32, "a"), "{ a: 1 }", fine);
    answers(schema, &document(33, "a"), "{ a: 1 }", "3");
    answers(schema, &document(33, ""), "{ a: 1 }", "3");
    answers(schema, &document(31, "...F"), "{ a: 1 }", fine);
    answers(schema, &document(32, "...F"), "{ a: 1 }", "3");
    // Not opened: undefined, dropped, visited, not applying.
    answers(schema, &document(32, "a ...G"), "{ a: 1 }", fine);
    answers(schema, &document(32, "a ...F @skip(if: true)"), "{ a: 1 }", fine);
    answers(schema, &document(32, "a ... on Nope { a }"), "{ a: 1 }", fine);
    answers(schema, &format!("{{ ...F {}", &document(32, "...F")[1..]), "{ a: 1 }", fine);
}

#[test]
fn reading_23_fields_that_are_collected() {
    let schema = "type Q { a: Int q: Q }";
    let collects = |document: &str, code: u32| {
        let tables = notation::tables(schema, document, "", "{ a: 1, q: Q^0 }");
        assert_eq!(run(&tables, LARGEST).expect("tests are small").code, code, "{document}");
    };
    collects(&format!("{{ {} }}", "a ".repeat(128)), 0);
    collects(&format!("{{ {} }}", "a ".repeat(129)), 4);
    collects(&format!("{{ {} }}", "nope ".repeat(129)), 4);
    collects(&format!("{{ {} a @skip(if: true) ... on Nope {{ a }} }}", "a ".repeat(128)), 0);
    collects(&format!("{{ {} ... {{ a }} }}", "a ".repeat(128)), 4);
    // The child sets of merged fields are one collection.
    let half = "a ".repeat(64);
    collects(&format!("{{ q {{ {half} }} a q {{ {half} }} }}"), 0);
    collects(&format!("{{ q {{ {half} }} a q {{ {half} a }} }}"), 4);
}
