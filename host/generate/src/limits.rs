//! Cases on either side of a limit: a path of 32 segments, 32 open fragments, 128 collected
//! fields, 32 open containers of a leaf or a literal, 32 open sets of a depth check, the largest
//! buffers for text and errors. They are written in the notation, with random parts.

use crate::Maker;
use tables::describe::Case;
use tables::layout::limit;
use tables::notation;

/// What such a case is described by, in the notation.
struct Texts {
    schema: String,
    document: String,
    variables: String,
    answers: String,
}

/// The largest buffers.
const TEXT_BYTES: usize = 65_536;
const ERROR_WORDS: usize = 16_384;

const TYPES: &str = "scalar Any  interface I { a: Int }  union U = Q  enum Hue { RED }";

/// The root type of most of these, with room for one more field.
fn root_type(field: &str) -> String {
    format!(
        "type Q implements I {{ a: Int  q: Q  n: Q!  l: [Q]  i: I  u: U  x(x: Int!): Int
         e(x: Any): Any  {field} }} {TYPES}"
    )
}

/// Answers of such a root, which lead back to it, with room for one more.
fn root_answers(answer: &str) -> String {
    format!(
        "{{ a: 1, q: Q^0, n: Q^0, l: [Q^0, null, skip], i: Q^0, u: Q^0, x: 1, e: echo x, {answer} }}"
    )
}

impl Maker {
    pub(crate) fn limit_case(&mut self) -> Case {
        let texts = match self.random.below(21) {
            0 | 1 => self.path_of_fields(),
            2 | 3 => self.path_of_items(),
            4 | 5 => self.path_of_answers(),
            6 | 7 => self.open_fragments(),
            8 | 9 => self.collected_fields(),
            10 | 11 => self.leaf_containers(),
            12 | 13 => self.literal_containers(),
            14 | 15 => self.input_object_containers(),
            16 => self.wide_text(),
            17 => self.many_errors(),
            _ => self.open_sets(),
        };
        let Texts { schema, document, variables, answers } = texts;
        match notation::describe(&schema, &document, &variables, &answers) {
            Ok(case) => case,
            Err(fault) => panic!("{fault}\n{schema}\n{document}\n{variables}\n{answers}"),
        }
    }

    /// A number near the limit of 32.
    fn near(&mut self) -> usize {
        self.random.between(limit::OPEN - 3, limit::OPEN + 2)
    }

    fn one_of(&mut self, texts: &[&str]) -> String {
        (*self.random.pick(texts)).into()
    }

    /// Fields within fields.
    fn path_of_fields(&mut self) -> Texts {
        let length = self.near() - 1;
        let mut document = String::new();
        for _ in 0..length {
            document += "{ ";
            document += &self.one_of(&["q ", "q ", "n ", "k:q ", "a q "]);
        }
        let ends = [
            "a",
            "__typename",
            "nope",
            "x",
            "x(x: 1)",
            "e(x: [[1]])",
            "e",
            "l { a }",
            "q { a }",
            "i { a }",
            "u { ... on Q { a } }",
            "a @skip(if: true)",
            "... { a }",
            "",
        ];
        document += &format!("{{ {} }}{}", self.one_of(&ends), " }".repeat(length));
        Texts {
            schema: root_type(""),
            document,
            variables: String::new(),
            answers: root_answers(""),
        }
    }

    /// Lists within lists, at the end of fields within fields.
    fn path_of_items(&mut self) -> Texts {
        let length = self.near();
        let lists = self.random.between(1, length - 2);
        let fields = length - lists - 1;
        let mut ty = self.one_of(&["Int", "Int!", "Any", "Q"]);
        let ends = ["1", "null", "skip", "error", "", "1, 2", "skip, 3", "Q^0", "leaf [1]"];
        let mut answer = self.one_of(&ends);
        for _ in 0..lists {
            ty = format!("[{ty}]{}", self.one_of(&["", "", "", "!"]));
            answer = format!("[{answer}]");
        }
        let mut document = "{ d { a } }".to_string();
        for _ in 0..fields {
            document = format!("{{ q {document} }}");
        }
        Texts {
            schema: root_type(&format!("d: {ty}")),
            document,
            variables: String::new(),
            answers: root_answers(&format!("d: {answer}")),
        }
    }

    /// A document without end, whose answers have one.
    fn path_of_answers(&mut self) -> Texts {
        let mut answers = self.one_of(&["null", "skip", "error", "1", "[1]", "Q{a: 1}", "Nope{}"]);
        let mut length = self.near();
        while length > 1 {
            if length > 2 && self.random.chance(20) {
                answers = format!("Q{{a: 2, l: [{answers}]}}");
                length -= 2;
            } else {
                answers = format!("Q{{a: 3, q: {answers}, n: Q^0}}");
                length -= 1;
            }
        }
        let n = self.one_of(&["", "", "n { a }"]);
        Texts {
            schema: root_type(""),
            document: format!("{{ ...F }} fragment F on Q {{ a q {{ ...F }} l {{ ...F }} {n} }}"),
            variables: String::new(),
            answers: format!("{{ a: 0, q: {answers}, n: error }}"),
        }
    }

    /// Fragments within fragments of one collection.
    fn open_fragments(&mut self) -> Texts {
        let ends = [
            "a",
            "",
            "...Missing",
            "... on Nope { a }",
            "...F0",
            "... {}",
            "... on Q { a }",
            "... @skip(if: true) { a }",
            "q { ... { a } }",
        ];
        let mut text = self.one_of(&ends);
        let mut definitions = String::new();
        let mut fragments = 0;
        for _ in 0..self.near() {
            let condition = self.one_of(&["Q", "Q", "I", "U"]);
            match self.random.below(4) {
                0 => text = format!("... {{ {text} }}"),
                1 => text = format!("b: a ... on {condition} {{ {text} }}"),
                _ => {
                    definitions += &format!(" fragment F{fragments} on {condition} {{ {text} }}");
                    text = format!("...F{fragments}");
                    fragments += 1;
                }
            }
        }
        let document = match self.random.below(3) {
            0 => format!("{{ {text} a }} {definitions}"),
            1 => format!("{{ q {{ {text} a }} }} {definitions}"),
            _ => format!("{{ ... {{ a }} {text} }} {definitions}"),
        };
        Texts {
            schema: root_type(""),
            document,
            variables: String::new(),
            answers: root_answers(""),
        }
    }

    /// Fields of one collection: some further rows of a group, some undefined, some dropped.
    fn collected_fields(&mut self) -> Texts {
        let wanted = self.random.between(limit::COLLECTED - 2, limit::COLLECTED + 2);
        let mut sets = [String::new(), String::new(), String::new()];
        let mut counted = 0;
        while counted < wanted {
            let set = &mut sets[self.random.below(3)];
            let (text, fields) = match self.random.below(30) {
                0 => (" nope".into(), 1),
                1 => (" a @skip(if: true)".into(), 0),
                2 => (" ... on Nope { a a a }".into(), 0),
                3 if counted + 2 <= wanted => (" ... { a b: a }".into(), 2),
                4 => (" ...F".into(), 0),
                5 => (" q { a }".into(), 1),
                6 | 7 => (" a".into(), 1),
                _ => (format!(" k{counted}: a"), 1),
            };
            *set += &text;
            counted += fields;
        }
        let [one, two, three] = sets;
        let document = if self.random.chance(50) {
            format!("{{ {one} ... {{ {two} }} {three} }} fragment F on I {{ }}")
        } else {
            format!("{{ q {{ {one} }} q {{ {two} }} a q {{ {three} }} }} fragment F on Hue {{ a }}")
        };
        Texts {
            schema: root_type(""),
            document,
            variables: String::new(),
            answers: root_answers(""),
        }
    }

    /// A text about as long as the largest buffer, in two fields; in some cases nulled at the end.
    fn wide_text(&mut self) -> Texts {
        let total = self.random.between(TEXT_BYTES - 3, TEXT_BYTES + 3);
        // So many items of the same length, and one more that fills it up.
        let end = self.one_of(&["1", "1", "1", "error"]);
        let around = r#"{"a":1,"s":[],"k":1}"#.len();
        let (items, length) = (63, 1_000);
        let last = total - around - items * (length + 3) - 2;
        let item = format!("\"{}\", ", "x".repeat(length)).repeat(items);
        let end_type = self.one_of(&["Int", "Int!"]);
        Texts {
            schema: root_type(&format!("s: [String] k: {end_type}")),
            document: "{ a s k }".into(),
            variables: String::new(),
            answers: root_answers(&format!("s: [{item} \"{}\"], k: {end}", "y".repeat(last))),
        }
    }

    /// Error records about as long as the largest buffer: seven words each, and five for the last.
    fn many_errors(&mut self) -> Texts {
        let count = self.random.between(ERROR_WORDS / 7 - 2, ERROR_WORDS / 7 + 1);
        let item = self.one_of(&["\"x\", ", "1.5, ", "2147483648, "]);
        let end = self.one_of(&["1", "error"]);
        Texts {
            schema: root_type("s: [Int] k: Int"),
            document: "{ s k a }".into(),
            variables: String::new(),
            answers: root_answers(&format!("s: [{}], k: {end}", item.repeat(count))),
        }
    }

    /// JSON of so many levels of containers.
    fn nested_json(&mut self, levels: usize) -> String {
        let mut text = self.one_of(&["1", "null", "\"é\"", "[]", "{}"]);
        let levels = if text == "[]" || text == "{}" { levels.saturating_sub(1) } else { levels };
        for _ in 0..levels {
            text = match self.random.below(4) {
                0 => format!("{{\"a\": {text}}}"),
                1 => format!("[1, {text}, [2]]"),
                2 => format!("{{\"b\": {{}}, \"\\n\": {text}}}"),
                _ => format!("[{text}]"),
            };
        }
        text
    }

    /// A leaf's containers, and those of a variable's value that is echoed.
    fn leaf_containers(&mut self) -> Texts {
        let levels = self.near();
        let json = self.nested_json(levels);
        let ty = self.one_of(&["Any", "Any", "Any", "Int", "Hue", "Q", "Nope", "[Any]"]);
        let (field, document, answer) = match self.random.below(5) {
            0 => ("(x: Any)", "{ f(x: $v) }", "echo x".to_string()),
            1 => ("(x: [Any])", "{ f(x: [$v]) }", "echo x".to_string()),
            2 => ("(x: Any)", "{ f(x: $v) }", "1".to_string()),
            3 => ("", "{ f a }", format!("[1, leaf {json}]")),
            _ => ("", "{ f a }", format!("leaf {json}")),
        };
        Texts {
            schema: root_type(&format!("f{field}: {ty}")),
            document: document.into(),
            variables: format!("{{\"v\": {json}}}"),
            answers: root_answers(&format!("f: {answer}")),
        }
    }

    /// A literal of so many levels of containers.
    fn nested_literal(&mut self, levels: usize) -> String {
        let mut text = self.one_of(&["1", "null", "RED", "\"a\"", "1.5"]);
        for _ in 0..levels {
            text = match self.random.below(3) {
                0 => format!("{{a: {text}}}"),
                1 => format!("[1, {text}]"),
                _ => format!("[{text}]"),
            };
        }
        text
    }

    /// A literal's containers: its own, those that wrapping adds, a default's, one that is not used.
    fn literal_containers(&mut self) -> Texts {
        let levels = self.near();
        let lists = self.random.between(0, levels);
        let ty = format!("{}Any{}", "[".repeat(lists), "]".repeat(lists));
        let own = if self.random.chance(50) { 0 } else { levels - lists };
        // Lists up to the type's levels, then whatever converts part by part.
        let inner = self.nested_literal(own);
        let written = self.random.between(0, lists);
        let literal = format!("{}{inner}{}", "[".repeat(written), "]".repeat(written));
        let deep = self.nested_literal(levels);
        let variable = format!("{}$v{}", "[".repeat(levels), "]".repeat(levels));
        let given = match self.random.below(8) {
            0 => String::new(),
            1 => format!("(x: {deep})"),
            2 => format!("(y: {deep})"),
            3 => format!("(y: 1, x: {variable})"),
            _ => format!("(x: {literal})"),
        };
        let default = if self.random.chance(40) { format!("= {deep}") } else { String::new() };
        let field = format!("f(x: {ty}, y: Any {default}): Any");
        Texts {
            schema: root_type(&field),
            document: format!("{{ f{given} a }}"),
            variables: self.one_of(&["", "{\"v\": [[1]]}", "{\"v\": null}"]),
            answers: root_answers(&format!("f: {}", self.one_of(&["echo x", "echo y", "1"]))),
        }
    }

    /// Input objects within input objects, with lists and defaults at the end.
    fn input_object_containers(&mut self) -> Texts {
        let levels = self.near();
        let objects = self.random.between(1, levels);
        let rest = levels - objects;
        let deep = self.nested_literal(rest);
        let default = self.nested_literal(rest);
        let ends = [
            format!("{{e: {deep}}}"),
            "{}".into(),
            "{z: 1}".into(),
            "{e: $v}".into(),
            "{p: null}".into(),
            "{l: 1}".into(),
            "{e: [$v]}".into(),
            "1".into(),
        ];
        let mut literal = self.random.pick(&ends).clone();
        for _ in 1..objects {
            literal = match self.random.below(3) {
                0 => format!("{{e: 1, p: {literal}}}"),
                _ => format!("{{p: {literal}}}"),
            };
        }
        let default =
            if self.random.chance(50) { format!("d: Any = {default}") } else { String::new() };
        let lists = format!("l: {}Int{}", "[".repeat(rest), "]".repeat(rest));
        let need = self.one_of(&["", "", "", "m: Int!"]);
        Texts {
            schema: format!(
                "{} input P {{ p: P  e: Any  {default}  {lists}  {need} }}",
                root_type("f(x: P): Any")
            ),
            document: format!("{{ f(x: {literal}) a }}"),
            variables: "{\"v\": {\"a\": [1]}}".into(),
            answers: root_answers("f: echo x"),
        }
    }

    /// Sets within sets for the depth check, with fields that count among them.
    fn open_sets(&mut self) -> Texts {
        let ends =
            ["a", "", "...Missing", "a {}", "q { a }", "...F0", "fields", "fields { interfaces }"];
        let mut text = self.one_of(&ends);
        let mut definitions = String::new();
        let mut fragments = 0;
        for _ in 0..self.near() - 1 {
            match self.random.below(8) {
                0 | 1 => text = format!("... {{ {text} }}"),
                2 => text = format!("q {{ {text} }} a"),
                3 if self.random.chance(30) => text = format!("fields {{ {text} }}"),
                4 if fragments > 0 => text = format!("...F{} ... {{ {text} }}", fragments - 1),
                _ => {
                    definitions += &format!(" fragment F{fragments} on Q {{ {text} }}");
                    text = format!("...F{fragments}");
                    fragments += 1;
                }
            }
        }
        Texts {
            schema: root_type(""),
            document: format!("{{ {text} }} {definitions}"),
            variables: String::new(),
            answers: root_answers(""),
        }
    }
}
