//! The order of work does not show: pairs of the port's runs of the same tables with other choices.
//!
//! * (a) Where both answer 0, their data texts are equal.
//! * (b) Where both answer 0 and in one of them no selection set is given up, they have the same error
//!   records, with the same repeats.
//! * (c) Where a run answers 0 and no list item is skipped, every null of its data that no resolver
//!   answered has an error record at its place or below.
//!
//! The reading says of a run whether a set was given up, whether an item was skipped, and where resolvers
//! answered; the texts and the records are the port's.

use crate::lent;
use compare::runs::{ERROR_WORDS, TEXT_BYTES};
use ladlehedge::Segment;
use reading::{Lent, Seen};
use std::fmt;
use std::ops::Range;
use tables::Tables;

/// How many pairs of choices there are for a seed.
const PAIRS: u64 = 4;

/// A step of a path in the data.
#[derive(Debug, Clone, PartialEq, Eq, PartialOrd, Ord)]
enum Step {
    Key(String),
    Index(u32),
}

/// An error record: code, place, path.
type Record = (u32, u32, Vec<Step>);

/// A run that answered 0.
struct Ran {
    text: String,
    records: Vec<Record>,
}

/// What came of some seeds.
#[derive(Debug, Default)]
pub struct Orders {
    pub pairs: u64,
    /// How many pairs both answered 0: (a) was looked at.
    pub both_answered: u64,
    /// How many of these had records in another order.
    pub rearranged: u64,
    /// How often (b) was looked at, and how often there were records.
    pub none_given_up: u64,
    pub none_given_up_with_records: u64,
    /// How often (c) was looked at, and how many nulls there were that no resolver answered.
    pub none_skipped: u64,
    pub nulls: u64,
    pub too_much_work: u64,
    pub counterexamples: Vec<String>,
}

pub fn pairs(seeds: Range<u64>) -> Orders {
    let mut orders = Orders::default();
    for seed in seeds {
        let tables = generate::tables(seed);
        if reading::run(&tables, Lent::default()).is_none() {
            orders.too_much_work += 1;
            continue;
        }
        for pair in 0..PAIRS {
            let first = seed.wrapping_mul(2 * PAIRS).wrapping_add(2 * pair);
            let choices = [first, first + 1].map(generate::choices);
            orders.compare(seed, &tables, &choices);
        }
    }
    orders
}

impl Orders {
    fn compare(&mut self, seed: u64, tables: &Tables, [first, second]: &[Vec<u32>; 2]) {
        let Some((_, seen)) = reading::run_seen(tables, Lent { choices: first, ..Lent::default() })
        else {
            self.too_much_work += 1;
            return;
        };
        self.pairs += 1;
        let Some(ran) = ran(tables, first) else { return };
        let fault = |what: &str| format!("({what}) seed {seed}: {first:?} and {second:?}");
        if !self.are_nulls_explained(&ran, &seen, tables) {
            self.counterexamples.push(fault("c"));
        }
        let Some(other) = self::ran(tables, second) else { return };
        self.both_answered += 1;
        self.rearranged += u64::from(ran.records != other.records);
        if ran.text != other.text {
            self.counterexamples.push(fault("a"));
        }
        if seen.sets_given_up == 0 {
            self.none_given_up += 1;
            self.none_given_up_with_records += u64::from(!ran.records.is_empty());
            if sorted(&ran.records) != sorted(&other.records) {
                self.counterexamples.push(fault("b"));
            }
        }
    }

    fn are_nulls_explained(&mut self, ran: &Ran, seen: &Seen, tables: &Tables) -> bool {
        if seen.items_skipped > 0 {
            return true;
        }
        self.none_skipped += 1;
        let leaves: Vec<Vec<Step>> = seen.leaves.iter().map(|path| steps(path, tables)).collect();
        let is_resolvers = |spot: &[Step]| leaves.iter().any(|leaf| spot.starts_with(leaf));
        let has_record =
            |spot: &[Step]| ran.records.iter().any(|(_, _, path)| path.starts_with(spot));
        let nulls: Vec<Vec<Step>> =
            nulls(&ran.text).into_iter().filter(|spot| !is_resolvers(spot)).collect();
        self.nulls += nulls.len() as u64;
        nulls.iter().all(|spot| has_record(spot))
    }
}

fn sorted(records: &[Record]) -> Vec<Record> {
    let mut records = records.to_vec();
    records.sort();
    records
}

fn steps(path: &[tables::Segment], tables: &Tables) -> Vec<Step> {
    let step = |segment: &tables::Segment| match segment {
        tables::Segment::Name(name) => Step::Key(tables.name(*name).into()),
        tables::Segment::Index(index) => Step::Index(*index),
    };
    path.iter().map(step).collect()
}

/// The port's run with the largest buffers, if it answers 0.
fn ran(tables: &Tables, choices: &[u32]) -> Option<Ran> {
    let (mut text, mut errors) = (vec![0; TEXT_BYTES], vec![0; ERROR_WORDS]);
    let lent = lent(tables);
    let run = ladlehedge::run_ordered(&lent, choices, &mut text, &mut errors).ok()?;
    let step = |segment: Segment<'_>| match segment {
        Segment::Key(key) => Step::Key(key.into()),
        Segment::Index(index) => Step::Index(index),
    };
    let record = |record: ladlehedge::Record<'_>| {
        (record.code, record.place, record.path.segments().map(step).collect())
    };
    Some(Ran { text: run.data().into(), records: run.errors().map(record).collect() })
}

/// Where in a JSON text there is a null. Response keys have no escapes; a leaf's keys may, and what they
/// spell does not matter.
fn nulls(text: &str) -> Vec<Vec<Step>> {
    let (mut path, mut found) = (Vec::<Step>::new(), Vec::new());
    let bytes = text.as_bytes();
    let mut at = 0;
    let mut is_key = false;
    while at < bytes.len() {
        match bytes[at] {
            b'{' => {
                path.push(Step::Key(String::new()));
                is_key = true;
            }
            b'[' => {
                path.push(Step::Index(0));
                is_key = false;
            }
            b'}' | b']' => {
                path.pop();
                is_key = false;
            }
            b',' => match path.last_mut() {
                Some(Step::Index(index)) => *index += 1,
                _ => is_key = true,
            },
            b'n' => found.push(path.clone()),
            b'"' => {
                let end = end_of_string(bytes, at);
                if is_key {
                    *path.last_mut().expect("it is open") = Step::Key(text[at + 1..end].into());
                    is_key = false;
                }
                at = end;
            }
            _ => {}
        }
        at += 1;
    }
    found
}

/// Where the string that begins here has its closing quote.
fn end_of_string(bytes: &[u8], start: usize) -> usize {
    let mut at = start + 1;
    while bytes[at] != b'"' {
        at += if bytes[at] == b'\\' { 2 } else { 1 };
    }
    at
}

impl fmt::Display for Orders {
    fn fmt(&self, f: &mut fmt::Formatter<'_>) -> fmt::Result {
        for counterexample in &self.counterexamples {
            writeln!(f, "{counterexample}")?;
        }
        writeln!(f, "{:9} pairs of runs", self.pairs)?;
        writeln!(f, "{:9} both answered 0, their texts compared (a)", self.both_answered)?;
        writeln!(f, "{:9} of these have records in another order", self.rearranged)?;
        writeln!(f, "{:9} give no set up, their records compared (b)", self.none_given_up)?;
        writeln!(f, "{:9} of these have records", self.none_given_up_with_records)?;
        writeln!(f, "{:9} runs skip no item, their nulls looked at (c)", self.none_skipped)?;
        writeln!(f, "{:9} nulls there that no resolver answered", self.nulls)?;
        writeln!(f, "{:9} more that are too much work", self.too_much_work)?;
        write!(f, "{:9} counterexamples", self.counterexamples.len())
    }
}

#[cfg(test)]
mod tests {
    use super::*;

    #[test]
    fn nulls_of_a_text() {
        let key = |key: &str| Step::Key(key.into());
        let text = r#"{"a":null,"b":["n\"",null,{"c":true,"d":null}],"e":{},"f":null}"#;
        let expected = [
            vec![key("a")],
            vec![key("b"), Step::Index(1)],
            vec![key("b"), Step::Index(2), key("d")],
            vec![key("f")],
        ];
        assert_eq!(nulls(text), expected);
        assert_eq!(nulls("null"), [vec![]]);
    }
}
