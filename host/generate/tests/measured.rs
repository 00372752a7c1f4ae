//! The tables that are measured are what they are said to be.

use generate::full::{self, Differ};
use generate::ordinary;
use std::collections::HashSet;
use tables::layout::limit;
use tables::{rules, Tables};

fn demand_lawful(what: &str, tables: &Tables) {
    assert_eq!(rules::check(tables), Ok(()), "{what}");
}

#[test]
fn ordinary_tables() {
    let integers = ordinary::integers();
    demand_lawful("integers", &integers);
    assert_eq!(integers.node_count(), 2_000);
    let objects = ordinary::objects();
    demand_lawful("objects", &objects);
    assert_eq!(objects.answer_count(), 2 + 2_000 + 3 * 697);
    demand_lawful("wide", &ordinary::wide());
    demand_lawful("deep", &ordinary::deep());
    demand_lawful("coerced", &ordinary::coerced());
    let coercions = ordinary::coercions();
    demand_lawful("coercions", &coercions);
    assert_eq!(coercions.selection_count(), 16 + 2_000);
    for ascii in [true, false] {
        let strings = ordinary::strings(ascii);
        demand_lawful("strings", &strings);
        assert_eq!(strings.pool.is_ascii(), ascii);
        assert!((58_000..62_000).contains(&strings.pool.len()), "{}", strings.pool.len());
    }
}

#[test]
fn full_tables() {
    demand_lawful("plain", &full::plain());
    demand_lawful("answered", &full::answered());
    for (what, tables) in full::shared_rows() {
        demand_lawful(what, &tables);
    }
    demand_lawful("sets", &full::sets_that_share_selections(100));
    for differ in [Differ::Early, Differ::Late] {
        let tables = full::long_names(differ);
        demand_lawful("long names", &tables);
        let long = (12..tables.name_count()).all(|number| tables.name(number).len() == 64);
        assert!(long, "{differ:?}");
    }
    for stray in [true, false] {
        let tables = full::overlapping_texts(stray);
        assert_eq!(std::str::from_utf8(&tables.pool).is_err(), stray);
        demand_lawful(
            "overlapping texts",
            &Tables { nodes: tables.nodes[..20].into(), ..small(&tables) },
        );
    }
}

/// The tables without what needs many nodes: the rules would take long on all of them.
fn small(tables: &Tables) -> Tables {
    Tables { variables: Vec::new(), answers: vec![4, 0, 0, 0, 0], ..tables.clone() }
}

#[test]
fn keys_with_one_hash_differ_late() {
    assert_eq!(full::hash(b"ab"), 52_648);
    let tables = full::one_object_of_keys_with_one_hash(512);
    demand_lawful("one hash", &tables);
    let keys: HashSet<&[u8]> = (1..=512).map(|row| tables.bytes(tables.node_key(row))).collect();
    assert_eq!(keys.len(), 512);
    let first = tables.bytes(tables.node_key(1));
    for key in &keys {
        assert_eq!((key.len(), full::hash(key)), (first.len(), full::hash(first)));
        assert_eq!(key[..53_256], first[..53_256]);
    }
}

#[test]
fn a_small_document_unfolds() {
    let tables = full::document_that_unfolds(3, limit::OPEN - 1);
    demand_lawful("unfolds", &tables);
    let words: usize = tables.word_tables().iter().map(|(_, _, words)| words.len()).sum();
    assert_eq!(tables.pool.len() + 4 * words, 4_708);
    // Set 0 and three more in each of 31 levels.
    assert_eq!(tables.sets.len(), 2 * (1 + 3 * 31));
    assert_eq!(full::sets_unfolded(3, 31), 926_510_094_425_920);
}
