//! The rules: lawful tables pass, and each single word that breaks a rule is found.

use tables::rules::{self, is_float_spelling};
use tables::{notation, Tables};

/// Tables with a row of every kind.
fn lawful() -> Tables {
    notation::tables(
        "type Q implements I { f(x: [Int] = 1, y: P): Int q: Q } interface I { f: Int }
         union U = Q | Nope  enum E { A B }  input P { a: Int = 2 b: [Any!]! }  scalar Any",
        "{ f(x: [$v, -1], y: {b: [A, 1.5, \"s\", null, true]}) @skip(if: $v) ...F
           ... on Q { q { f } } ... @include(if: false) { f } } fragment F on Q { f }",
        r#"{"v": true, "w": {"a": [-1, 1, 1.5], "b": {}}}"#,
        "{ f: [1, skip, error], q: Q{f: echo x} }",
    )
}

type Change = fn(&mut Tables);

#[test]
fn lawful_tables_break_none() {
    assert_eq!(rules::check(&lawful()), Ok(()));
    // An empty range may start anywhere, also where no child could stand.
    let mut tables = lawful();
    tables.nodes[..3].copy_from_slice(&[7, 0, 0]);
    assert_eq!(rules::check(&tables), Ok(()));
}

#[test]
fn each_change_breaks_one() {
    let changes: [(&str, Change); 29] = [
        ("names", |t| t.names[3] = 0),
        ("reserved", |t| t.names.swap(0, 2)),
        ("name bytes", |t| t.pool[0] = b'!'),
        ("half a row", |t| t.types.push(0)),
        ("long pool", |t| t.pool.resize(65_537, b'a')),
        ("outside the pool", |t| t.names[0] = 65_000),
        ("type reference kind", |t| t.type_refs[0] = 2),
        ("type reference null", |t| t.type_refs[1] = 2),
        ("type reference ahead", |t| t.type_refs[..3].copy_from_slice(&[1, 0, 1])),
        ("type kind", |t| t.types[1] = 6),
        ("type twice", |t| t.types[6] = t.types[0]),
        ("fields of a scalar", |t| t.types[3] = 1),
        ("fields outside", |t| t.types[5 * 6 + 3] = 1_000),
        ("field named __typename", |t| t.fields[0] = 0),
        ("field type", |t| t.fields[1] = 1_000),
        ("default", |t| t.fields[2] = 5_000),
        ("argument twice", |t| t.arguments[4] = t.arguments[0]),
        ("default with a variable", |t| {
            let variable = t.literals.chunks(5).position(|row| row[0] == 10);
            t.arguments[2] = variable.expect("a variable") as u32 + 1;
        }),
        ("selection kind", |t| t.selections[0] = 3),
        ("condition", |t| t.selections[1] = 3 + 511),
        ("parent set", |t| {
            let inline = t.selections.chunks(10).position(|row| row[0] == 2);
            t.selections[inline.expect("an inline fragment") * 10 + 8] = 0;
        }),
        ("two owners", |t| t.fragments[2] = 1),
        ("node kind", |t| t.nodes[0] = 9),
        ("array within itself", |t| t.nodes[..3].copy_from_slice(&[7, 0, 1])),
        ("literal kind", |t| t.literals[0] = 11),
        ("literal range", |t| t.literals[..2].copy_from_slice(&[3, 1 << 31])),
        ("answer kind", |t| t.answers[0] = 6),
        ("root answer", |t| t.answers[0] = 0),
        ("root", |t| t.root = 0),
    ];
    for (what, change) in changes {
        let mut tables = lawful();
        change(&mut tables);
        assert!(rules::check(&tables).is_err(), "{what}");
    }
}

#[test]
fn float_spellings() {
    for float in ["0.0", "-0.0", "1e5", "1E+5", "10.25e-3", "0e0"] {
        assert!(is_float_spelling(float.as_bytes()), "{float}");
    }
    for other in ["", "1", "-", "01.5", ".5", "1.", "1e", "1e+", "1.5x", "+1.5", "0x1", "--1.0"] {
        assert!(!is_float_spelling(other.as_bytes()), "{other}");
    }
}
