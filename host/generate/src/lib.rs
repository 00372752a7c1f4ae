//! Random schemas, documents, variables and answers.
//!
//! A seed gives a case, always the same one. Most cases are mixed: a schema, a document that was
//! made looking at it, and answers that fit it, each with so much wrong as the case's noise says.
//! The others go to one of the limits and stand on either side of it. Of a third of all cases some
//! words are changed in the tables themselves.
//!
//! [`depth_tables`] are small and made for depth checks alone. Not by a seed, for measuring: [`ordinary`]
//! tables, and [`full`] ones.
//!
//! All tables but [`spoiled_tables`] obey document 01's rules; they need not be valid GraphQL.

mod answers;
mod depths;
mod document;
pub mod full;
mod limits;
pub mod ordinary;
mod random;
mod schema;
mod shuffle;
mod twist;
mod values;

use random::Random;
use tables::describe::{Case, Json, Kind, TypeDef};
use tables::{build, Tables};

/// The tables of a seed.
pub fn tables(seed: u64) -> Tables {
    let mut tables = build::build(&case(seed));
    let mut random = Random::new(!seed);
    if random.chance(33) {
        twist::twist(&mut tables, &mut random);
    }
    tables
}

/// The tables of a seed with something changed that may break a rule or not: for the table check.
pub fn spoiled_tables(seed: u64) -> Tables {
    spoiled(tables(seed), seed)
}

/// Tables with something changed, by a seed, that may break a rule or not.
pub fn spoiled(mut tables: Tables, seed: u64) -> Tables {
    twist::spoil(&mut tables, &mut Random::new(!seed.rotate_left(16)));
    tables
}

/// The tables of a seed for a depth check. In some of them a few words are changed, so that sets
/// may share rows.
pub fn depth_tables(seed: u64) -> Tables {
    let mut tables = build::build(&depths::case(Random::new(seed)));
    let mut random = Random::new(!seed);
    shuffle::shuffle(&mut tables, &mut random);
    if random.chance(8) {
        twist::twist(&mut tables, &mut random);
    }
    tables
}

/// Choices for a run in a given order: small ones, some larger than any set has groups, and often
/// too few.
pub fn choices(seed: u64) -> Vec<u32> {
    let mut random = Random::new(seed.rotate_left(32));
    let count = random.below(65);
    let choice = |_| if random.chance(90) { random.below(6) as u32 } else { random.next() as u32 };
    (0..count).map(choice).collect()
}

/// The description of a seed, before any word is changed.
fn case(seed: u64) -> Case {
    let mut random = Random::new(seed);
    let noise = *random.pick(&[0, 0, 0, 2, 5, 15, 40]);
    let mut maker = Maker::new(random, noise);
    if maker.random.chance(70) {
        maker.mixed_case()
    } else {
        maker.limit_case()
    }
}

/// Names that are types nowhere.
const UNDEFINED: [&str; 2] = ["Nope", "Gone"];
/// Names of fields, of response keys, of arguments and input fields. Few, so that they meet.
const FIELDS: [&str; 9] =
    ["a", "b", "c", "d", "e", "fields", "interfaces", "possibleTypes", "inputFields"];
const KEYS: [&str; 5] = ["a", "b", "k", "m", "__typename"];
const ARGUMENTS: [&str; 4] = ["x", "y", "z", "a"];
const ENUM_VALUES: [&str; 4] = ["RED", "GREEN", "a", "Int"];
const VARIABLES: [&str; 8] = ["yes", "no", "nil", "one", "list", "object", "x", ABSENT];
/// The variable that has no value.
const ABSENT: &str = "absent";

/// What a case is made with.
struct Maker {
    random: Random,
    /// How many of a hundred things are wrong.
    noise: usize,
    types: Vec<TypeDef>,
    next_place: u32,
    /// What is left of the tables' rows, with some to spare.
    literals_left: usize,
    nodes_left: usize,
    answers_left: usize,
    selections_left: usize,
}

impl Maker {
    fn new(random: Random, noise: usize) -> Self {
        Maker {
            random,
            noise,
            types: Vec::new(),
            next_place: 0,
            literals_left: 800,
            nodes_left: 3_600,
            answers_left: 3_600,
            selections_left: 1_800,
        }
    }

    fn mixed_case(mut self) -> Case {
        self.types = self.schema();
        let root = self.object_name();
        let fragments = self.fragments();
        let sets = self.random.between(2, 6);
        let operation = self.set(&root, sets, &fragments);
        let fragments = self.fill_fragments(fragments);
        let variables = self.variables();
        let depth = self.random.between(2, 6);
        let answer = self.object_answer(&root, depth, &mut Vec::new());
        Case { types: self.types, root, operation, fragments, variables, answer }
    }

    /// Whether this is one of the things that are wrong.
    fn errs(&mut self) -> bool {
        self.random.chance(self.noise)
    }

    /// A new place: mostly the next number, now and then one that is anything.
    fn place(&mut self) -> u32 {
        self.next_place += 1;
        if self.random.chance(2) {
            self.random.next() as u32
        } else {
            self.next_place
        }
    }

    fn name_of_kind(&mut self, kinds: &[Kind]) -> Option<String> {
        let of_kind = self.types.iter().filter(|ty| kinds.contains(&ty.kind));
        let names: Vec<String> = of_kind.map(|ty| ty.name.clone()).collect();
        (!names.is_empty()).then(|| self.random.pick(&names).clone())
    }

    /// An object type: every schema has one.
    fn object_name(&mut self) -> String {
        self.name_of_kind(&[Kind::Object]).expect("a schema has an object type")
    }

    /// Any name that could stand where a type's is wanted.
    fn any_type_name(&mut self) -> String {
        if self.random.chance(15) {
            return (*self.random.pick(&UNDEFINED)).into();
        }
        let row = self.random.below(self.types.len());
        self.types[row].name.clone()
    }

    fn type_named(&self, name: &str) -> Option<&TypeDef> {
        self.types.iter().find(|ty| ty.name == name)
    }

    /// Values for most of the variables.
    fn variables(&mut self) -> Vec<(String, Json)> {
        let mut variables = Vec::new();
        for name in &VARIABLES[..VARIABLES.len() - 1] {
            if self.errs() {
                continue;
            }
            let value = match *name {
                _ if self.errs() => self.json(2),
                "yes" => Json::Bool(true),
                "no" => Json::Bool(false),
                "nil" => Json::Null,
                "one" => Json::Int(1),
                "list" => Json::Array(vec![self.json(1), Json::Null]),
                "object" => Json::Object(vec![("a".into(), self.json(2))]),
                _ => self.json(2),
            };
            variables.push(((*name).into(), value));
        }
        variables
    }
}
