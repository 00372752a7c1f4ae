//! What is asked about: lawful tables, some as an ordinary program lends them, some at every limit, some
//! as an enemy would send them.

use generate::full::{self, Differ};
use generate::ordinary;
use plain::hash;
use tables::Tables;

/// Tables to be asked about, under a name.
pub struct Workload {
    pub name: &'static str,
    pub what: &'static str,
    /// Makes them. More than one: a time is that of all of them, divided by their number.
    pub make: fn() -> Vec<Tables>,
}

/// A run to be timed, under a name.
pub struct Run {
    pub name: &'static str,
    pub what: &'static str,
    pub make: fn() -> Tables,
    /// The sizes of the buffers: bytes and words.
    pub sizes: (usize, usize),
    /// How many choices are given: 0 for document order.
    pub choices: usize,
    /// How many error records it leaves.
    pub records: usize,
}

impl Run {
    /// In document order, with the largest buffers, and without errors.
    const fn new(name: &'static str, what: &'static str, make: fn() -> Tables) -> Self {
        Run { name, what, make, sizes: (65_536, 16_384), choices: 0, records: 0 }
    }

    const fn with_records(self, records: usize) -> Self {
        Run { records, ..self }
    }

    const fn with_choices(self, choices: usize) -> Self {
        Run { choices, ..self }
    }

    const fn with_sizes(self, bytes: usize, words: usize) -> Self {
        Run { sizes: (bytes, words), ..self }
    }

    /// The choices: as if at random, and always the same.
    pub fn choices(&self) -> Vec<u32> {
        (0..self.choices as u32).map(|number| number.wrapping_mul(0x9e37_79b9) >> 7).collect()
    }
}

/// Seeds of random tables.
const SEEDS: std::ops::Range<u64> = 0..200;
/// Sets where they share selections.
const SETS: usize = 10_000;
/// Keys of an object that has long ones.
const LONG_KEYS: usize = 512;
const MANY_KEYS: usize = 3_800;
/// Keys of 16 bytes, as many as the pool has room for.
const PLAIN_KEYS: usize = 3_840;
/// Selections in each level, and levels, of a document that unfolds.
const ACROSS: usize = 3;
const LEVELS: usize = 10;

fn random() -> Vec<Tables> {
    SEEDS.map(generate::tables).collect()
}

fn small() -> Vec<Tables> {
    SEEDS.map(generate::depth_tables).collect()
}

/// So many keys of 16 bytes that have one hash in plain Rust. Whatever the first eight are, there are
/// eight more that make it 0; about every 256th of these keys is ASCII.
fn keys_with_one_plain_hash(count: usize) -> Vec<Vec<u8>> {
    let key = |number: u64| {
        let first = number.to_string().into_bytes();
        let last = hash::making_zero(hash::mix(16, hash::eight_at(&first, 0)));
        [first, last.to_le_bytes().to_vec()].concat()
    };
    (10_000_000..).map(key).filter(|key| key.is_ascii()).take(count).collect()
}

/// A workload of one.
macro_rules! workload {
    ($name:literal, $what:literal, $tables:expr) => {
        Workload { name: $name, what: $what, make: || vec![$tables] }
    };
}

/// For the table check.
pub const TABLE_CHECKS: [Workload; 26] = [
    workload!("integers", "a list of 2,000 integers", ordinary::integers()),
    workload!("objects", "a list of 2,000 objects of three leaves", ordinary::objects()),
    workload!("wide", "64 objects of 30 entries, aliases and fragments", ordinary::wide()),
    workload!("deep", "100 chains of 26 objects, 28 levels", ordinary::deep()),
    workload!("ascii", "600 strings with escapes, 60 kB of ASCII", ordinary::strings(true)),
    workload!("utf8", "the same, a fifth of it not ASCII", ordinary::strings(false)),
    workload!("coerced", "80 fields with coerced arguments", ordinary::coerced()),
    Workload { name: "random", what: "200 random tables made for runs", make: random },
    Workload { name: "small", what: "200 random small tables made for depth checks", make: small },
    workload!("limits", "every table at its limit", full::plain()),
    workload!("early", "and names of 64 bytes that differ early", full::long_names(Differ::Early)),
    workload!("late", "or late", full::long_names(Differ::Late)),
    workload!("fields", "every type the same 511 fields", full::types_that_share_fields()),
    workload!("arguments", "every field the same 512", full::fields_that_share_arguments()),
    workload!("given", "every selection the same 512", full::selections_that_share_arguments()),
    workload!("sets", "10,000 sets of the same 2,048 selections", {
        full::sets_that_share_selections(SETS)
    }),
    workload!("literals", "512 literals the same 512 keys", full::literals_that_share_keys()),
    workload!("answers", "every answer the same 512", full::answers_that_share_children()),
    workload!("keys", "one object of 4,095 short keys", full::objects_that_share_keys(1)),
    workload!("shared", "64 objects that share 4,032 keys", full::objects_that_share_keys(64)),
    workload!("long", "512 keys of 57,344 bytes that differ late", {
        full::one_object_of_long_keys(LONG_KEYS)
    }),
    workload!("hash", "512 keys of 57,352 bytes, one hash in the library", {
        full::one_object_of_keys_with_one_hash(LONG_KEYS)
    }),
    workload!("hashes", "3,800 keys of 31,048 bytes, one hash in the library", {
        full::one_object_of_keys_with_one_hash(MANY_KEYS)
    }),
    workload!("plain-hash", "3,840 keys of 16 bytes, one hash in plain Rust", {
        full::one_object_of(&keys_with_one_plain_hash(PLAIN_KEYS))
    }),
    workload!("overlap", "texts of two-byte characters, 436 MB in all", {
        full::overlapping_texts(false)
    }),
    workload!("stray", "the same in a pool that is not UTF-8", full::overlapping_texts(true)),
];

/// For the depth check, which begins with a table check.
pub const DEPTH_CHECKS: [Workload; 3] = [
    workload!("depth-limits", "every table at its limit", full::plain()),
    workload!("depth-fragments", "32 open sets, 64 fragments, each spread 31 times", {
        full::deep_document()
    }),
    workload!("depth-unfolds", "10 levels of 3 shared selections, 88,573 sets", {
        full::document_that_unfolds(ACROSS, LEVELS)
    }),
];

/// For runs, which begin with a table check and end with zeros in what is left of the buffers.
pub const RUNS: [Run; 18] = [
    Run::new("run-integers", "1: a list of 2,000 integers", ordinary::integers),
    Run::new("run-objects", "2: a list of 2,000 objects of three leaves", ordinary::short_objects),
    Run::new("run-wide", "3: 64 objects of two types, 30 entries, aliases", ordinary::wide),
    Run::new("run-deep", "4: 100 chains of 26 objects", ordinary::deep),
    Run::new("run-ascii", "5: 600 strings with escapes", || ordinary::short_strings(true)),
    Run::new("run-utf8", "5: the same, a fifth of it not ASCII", || ordinary::short_strings(false)),
    Run::new("run-echoes", "6: 2,000 echoes of an input object", ordinary::echoes),
    Run::new("run-coercions", "6b: 2,000 coercions, echoed", ordinary::coercions),
    Run::new("run-again", "6b: the same 80, for 25 objects", ordinary::coercions_again),
    Run::new(
        "run-nulled",
        "7: 500 lists of three, each nulled by an error",
        ordinary::nulled_lists,
    )
    .with_records(500),
    Run::new("run-wrong", "7: 1,500 items, 500 of them errors", ordinary::wrong_leaves)
        .with_records(500),
    Run::new("run-leaves", "8: 20 objects of 100 leaves, order given", ordinary::leaves)
        .with_choices(4_096),
    Run::new("run-order", "8: and a list in each, order given", ordinary::leaves_and_lists)
        .with_choices(4_096),
    Run::new("run-in-order", "8: the same in document order", ordinary::leaves_and_lists),
    Run::new("run-small", "9: { f }, small buffers", ordinary::one_leaf).with_sizes(64, 16),
    Run::new("run-zeros", "9: { f }, the largest buffers", ordinary::one_leaf),
    Run::new("run-limits", "10: every table at its limit", full::answered),
    Run::new("run-limits-s", "10: the same, small buffers", full::answered).with_sizes(4_096, 16),
];

#[cfg(test)]
mod tests {
    use super::*;
    use std::collections::HashSet;

    #[test]
    fn names_are_distinct() {
        let names = TABLE_CHECKS.iter().chain(&DEPTH_CHECKS).map(|workload| workload.name);
        let names = names.chain(RUNS.iter().map(|run| run.name));
        let distinct: HashSet<&str> = names.clone().collect();
        assert_eq!(distinct.len(), names.count());
    }

    #[test]
    fn one_hash_in_plain_rust() {
        let keys = keys_with_one_plain_hash(PLAIN_KEYS);
        assert!(keys.iter().all(|key| key.len() == 16 && hash::hash(key, 0, 16) == 0));
        assert_eq!(keys.iter().collect::<HashSet<_>>().len(), PLAIN_KEYS);
    }

    #[test]
    fn what_is_said_of_them() {
        assert_eq!(full::LONG_KEY, 57_344);
        assert_eq!(full::key_with_one_hash(LONG_KEYS), 57_352);
        assert_eq!(full::key_with_one_hash(MANY_KEYS), 31_048);
        assert_eq!(full::FIELDS_OF_A_TYPE, 511);
        assert_eq!(full::sets_unfolded(ACROSS as u64, LEVELS as u32), 88_573);
        // Each node has a text and a key.
        assert_eq!(2 * 4_096 * full::OVERLAPPING, 436_207_616);
    }
}
