//! Lawful tables as an ordinary program lends them, each large in one respect: for measuring.

use std::fmt::Write as _;
use tables::describe::{Answer, Json};
use tables::layout::width;
use tables::{build, notation, Tables};

/// So many texts with a blank between them.
fn many(count: usize, text: impl Fn(usize) -> String) -> String {
    (0..count).map(text).collect::<Vec<_>>().join(" ")
}

/// A list of 2,000 integers of up to four digits.
pub fn integers() -> Tables {
    let items = many(2_000, |number| format!("{}", number * 5 % 10_000));
    notation::tables("type Q { f: [Int] }", "{ f }", "", &format!("{{ f: [{items}] }}"))
}

/// Objects of [`objects`], and how many of them have fields of their own: there are not more answers.
const OBJECTS: usize = 2_000;
const OWN: usize = 697;

/// A list of 2,000 objects of three leaves.
pub fn objects() -> Tables {
    let schema = "type Q { l: [T] }  type T { id: Int  name: String  ok: Boolean }";
    let fields = |number| format!("id: {number}, name: \"item {number}\", ok: true");
    objects_of(schema, "{ l { id name ok } }", fields)
}

/// The same with shorter keys and names, so that a run's text has room for them.
pub fn short_objects() -> Tables {
    let schema = "type Q { l: [T] }  type T { i: Int  n: String  b: Boolean }";
    let fields = |number| format!("i: {number}, n: \"n{number}\", b: true");
    objects_of(schema, "{ l { i n b } }", fields)
}

/// A list of 2,000 objects of three fields: some have their own, the others share them.
fn objects_of(schema: &str, document: &str, fields: impl Fn(usize) -> String) -> Tables {
    let items = many(OBJECTS, |number| match number {
        ..OWN => format!("T{{ {} }}", fields(number)),
        _ => "T{ }".into(),
    });
    let mut tables = notation::tables(schema, document, "", &format!("{{ l: [{items}] }}"));
    // The answers are the root, the list, the objects one behind the other, then their fields.
    let (own, others) = tables.answers[2 * width::ANSWERS..].split_at_mut(OWN * width::ANSWERS);
    let others = others.chunks_exact_mut(width::ANSWERS).take(OBJECTS - OWN);
    for (other, own) in others.zip(own.chunks_exact(width::ANSWERS).cycle()) {
        other.copy_from_slice(own);
    }
    tables
}

/// Fields of each type of [`wide`].
const FIELDS: usize = 30;

/// 64 objects of two types, each of 30 entries, by aliases and fragments.
pub fn wide() -> Tables {
    let fields = many(FIELDS, |number| format!("f{number}: Int"));
    let schema = format!(
        "type Q {{ l: [I] }}  interface I {{ {fields} }}
         type A implements I {{ {fields} }}  type B implements I {{ {fields} }}"
    );
    let aliased = |first: usize| many(10, |number| format!("a{0}: f{0}", first + number));
    let document = format!(
        "{{ l {{ {} ...F ... on A {{ ...G }} ... on B {{ {} }} __typename }} }}
         fragment F on I {{ {} }} fragment G on A {{ {} }}",
        aliased(0),
        aliased(20),
        aliased(10),
        aliased(20)
    );
    let items = many(64, |number| {
        let name = if number % 2 == 0 { "A" } else { "B" };
        format!("{name}{{ {} }}", many(FIELDS, |field| format!("f{field}: {}", number * field)))
    });
    notation::tables(&schema, &document, "", &format!("{{ l: [{items}] }}"))
}

/// 100 chains of 26 objects: paths of 28 levels.
pub fn deep() -> Tables {
    let levels = 25;
    let chain =
        |open: &str, end: &str| format!("{}{end}{}", open.repeat(levels), "}".repeat(levels));
    let document = format!("{{ l {{ {} }} }}", chain("t { ", "v"));
    let items = many(100, |number| format!("T{{ {} }}", chain("t: T{ ", &format!("v: {number}"))));
    let schema = "type Q { l: [T] }  type T { t: T  v: Int }";
    notation::tables(schema, &document, "", &format!("{{ l: [{items}] }}"))
}

/// 600 strings, about 60 kB, in which every tenth character has to be escaped. Where not all is ASCII,
/// every fifth character is of two, three or four bytes.
pub fn strings(ascii: bool) -> Tables {
    strings_of(98, ascii)
}

/// The same, about 48 kB, so that a run's text has room for them.
pub fn short_strings(ascii: bool) -> Tables {
    strings_of(78, ascii)
}

/// The same, of about so many bytes each.
fn strings_of(bytes: usize, ascii: bool) -> Tables {
    let others: &[char] = if ascii { &['x', 'y', 'z'] } else { &['é', '€', '𝄞'] };
    let text = |number: usize| {
        let mut text = format!("{number} ");
        for place in 0.. {
            match place % 10 {
                0 => text.push(['"', '\\', '\n', '\u{1}'][place / 10 % 4]),
                4 | 9 => text.push(others[place / 5 % 3]),
                _ => text.push('a'),
            }
            if text.len() >= bytes {
                break;
            }
        }
        Answer::Leaf(Json::String(text))
    };
    let described = notation::describe("type Q { l: [String] }", "{ l }", "", "{ }");
    let mut case = described.expect("this is in the notation");
    case.answer.fields.push(("l".into(), Answer::List((0..600).map(text).collect())));
    build::build(&case)
}

/// 80 fields with arguments that are coerced: input objects within one another, lists, defaults.
pub fn coerced() -> Tables {
    let schema = "scalar Any  enum Hue { RED GREEN }
        type Q { f(x: In!, y: [Int!] = [1, 2], z: String = \"z\", hue: Hue = RED): Any }
        input In { a: Int! = 1  b: [Int] = [1, 2, 3]  c: In  d: Hue = GREEN  e: [[Float]] }";
    let mut document = String::new();
    let mut answers = String::new();
    for number in 0..80 {
        let x = format!("{{ a: {number}, b: [1, $v], c: {{ a: 2, d: RED, e: [[1.5]] }} }}");
        write!(document, "k{number}: f(x: {x}, y: {number}) ").expect("a string takes all");
    }
    answers += "f: echo x";
    notation::tables(
        schema,
        &format!("{{ {document} }}"),
        "{\"v\": 7}",
        &format!("{{ {answers} }}"),
    )
}

/// A list of 2,000 echoes of an input object.
pub fn echoes() -> Tables {
    let schema = "scalar Any  enum Hue { RED GREEN }
        type Q { f(x: In!): [Any] }  input In { a: Int! = 1  b: [Int]  c: Hue = RED  d: In }";
    let document = "{ f(x: { b: [2, $v], a: 7 }) }";
    let items = many(2_000, |_| "echo x".into());
    notation::tables(schema, document, "{\"v\": 3}", &format!("{{ f: [{items}] }}"))
}

/// Objects of [`coercions`], and the fields of each.
const COERCING: usize = 16;
const COERCED: usize = 125;

/// 2,000 fields, each a selection of its own, with coerced arguments: an input object, which is echoed,
/// and two defaults. The arguments are given by the same rows.
pub fn coercions() -> Tables {
    let document = many(COERCING, |object| {
        let fields = many(COERCED, |field| match (object, field) {
            (0, 0) => "k0: f(x: { a: 7, b: [2, $v] })".into(),
            _ => format!("k{field}: f"),
        });
        format!("o{object}: o {{ {fields} }}")
    });
    let answers = "{ o: T{ f: echo x } }";
    let mut tables =
        notation::tables(COERCING_SCHEMA, &format!("{{ {document} }}"), "{\"v\": 3}", answers);
    let is_given = |row: &[u32]| row[7] != 0;
    let mut rows = tables.selections.chunks_exact(width::SELECTIONS);
    let given = rows.find(|row| is_given(row)).map_or([0; 2], |row| [row[6], row[7]]);
    for row in tables.selections.chunks_exact_mut(width::SELECTIONS).filter(|row| row[8] == 0) {
        row[6..8].copy_from_slice(&given);
    }
    tables
}

const COERCING_SCHEMA: &str = "scalar Any  enum Hue { RED GREEN }
    type Q { o: T  l: [T] }
    type T { f(x: In!, y: [Int!] = [1, 2], hue: Hue = RED): Any }
    input In { a: Int! = 1  b: [Int] = [1, 2, 3]  c: In }";

/// 25 objects of 80 fields with such arguments, which are the same for each object.
pub fn coercions_again() -> Tables {
    let fields = many(80, |field| format!("k{field}: f(x: {{ a: {field}, b: [2, $v] }})"));
    let items = many(25, |_| "T{ f: echo x }".into());
    let document = format!("{{ l {{ {fields} }} }}");
    notation::tables(COERCING_SCHEMA, &document, "{\"v\": 3}", &format!("{{ l: [{items}] }}"))
}

/// 500 lists of three integers, the last of which is null and may not be: each list becomes null.
pub fn nulled_lists() -> Tables {
    let items = many(500, |number| format!("[{number}, {number}, null]"));
    notation::tables("type Q { f: [[Int!]] }", "{ f }", "", &format!("{{ f: [{items}] }}"))
}

/// A list of 1,500 integers, every third of which is none and becomes null.
pub fn wrong_leaves() -> Tables {
    let items = many(1_500, |number| match number % 3 {
        2 => "\"x\"".into(),
        _ => format!("{number}"),
    });
    notation::tables("type Q { f: [Int] }", "{ f }", "", &format!("{{ f: [{items}] }}"))
}

/// 20 objects of 100 leaves.
pub fn leaves() -> Tables {
    leaves_and(String::new(), String::new(), String::new())
}

/// 20 objects of 99 leaves and a list between them.
pub fn leaves_and_lists() -> Tables {
    leaves_and("l50: [Int]".into(), "l50".into(), "l50: [1, 2, 3]".into())
}

/// 20 objects of 100 fields: leaves, and in place of one of them something else, unless it is empty.
fn leaves_and(defined: String, selected: String, answered: String) -> Tables {
    let or_leaf = |field: usize, other: &String, leaf: String| {
        if field == 50 && !other.is_empty() {
            other.clone()
        } else {
            leaf
        }
    };
    let fields = many(100, |field| or_leaf(field, &defined, format!("f{field}: Int")));
    let schema = format!("type Q {{ l: [T] }}  type T {{ {fields} }}");
    let document = many(100, |field| or_leaf(field, &selected, format!("f{field}")));
    let items = many(20, |object| {
        let leaf = |field| format!("f{field}: {}", object * 100 + field);
        format!("T{{ {} }}", many(100, |field| or_leaf(field, &answered, leaf(field))))
    });
    let (document, answers) = (format!("{{ l {{ {document} }} }}"), format!("{{ l: [{items}] }}"));
    notation::tables(&schema, &document, "", &answers)
}

/// One leaf.
pub fn one_leaf() -> Tables {
    notation::tables("type Q { f: Int }", "{ f }", "", "{ f: 1 }")
}
