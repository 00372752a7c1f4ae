//! Plain Rust's table check and the rules agree: on the stored table files, on random tables as made and
//! spoiled, on tables of full size, and where sets or arguments given are more than there are notes for.

use generate::full::{self, Differ};
use plain::table_check;
use std::fs;
use std::path::Path;
use tables::layout::{selection_kind, width};
use tables::{file, notation, rules, Tables};

/// Demands that both agree on the tables as they are and spoiled by each seed; says how many were
/// refused.
fn agrees(what: &str, tables: &Tables, seeds: std::ops::Range<u64>) -> usize {
    let spoiled = seeds.map(|seed| (Some(seed), generate::spoiled(tables.clone(), seed)));
    let mut refused = 0;
    for (seed, tables) in std::iter::once((None, tables.clone())).chain(spoiled) {
        let broken = rules::check(&tables);
        let code = u32::from(broken.is_err());
        assert_eq!(table_check(&tables), code, "{what}, spoiled by {seed:?}: {broken:?}");
        refused += code as usize;
    }
    refused
}

#[test]
fn on_random_tables() {
    let refused: usize = (4_000_000..4_001_500)
        .map(|seed| agrees("random", &generate::tables(seed), seed..seed + 1))
        .sum();
    assert!(refused > 700, "few are spoiled: {refused}");
}

#[test]
fn on_tables_of_full_size() {
    let mut shapes = full::shared_rows().to_vec();
    shapes.extend([
        ("plain", full::plain()),
        ("early", full::long_names(Differ::Early)),
        ("late", full::long_names(Differ::Late)),
        ("keys", full::objects_that_share_keys(64)),
        ("hash", full::one_object_of_keys_with_one_hash(300)),
    ]);
    for (what, tables) in shapes {
        assert_eq!(rules::check(&tables), Ok(()), "{what}");
        let refused = agrees(what, &tables, 0..30);
        assert!(refused > 8, "{what}, few are spoiled: {refused}");
    }
}

/// The table files on either side of each rule, where they lie in the repository.
#[test]
fn on_the_stored_files() {
    let folder = Path::new(env!("CARGO_MANIFEST_DIR")).join("../../crates/ladle/data");
    let mut counts = [0, 0];
    for entry in fs::read_dir(folder).expect("a folder of table files") {
        let path = entry.expect("a file").path();
        let Ok(tables) = file::read(fs::read(&path).expect("a file's text")) else { continue };
        let broken = rules::check(&tables);
        let code = u32::from(broken.is_err());
        assert_eq!(table_check(&tables), code, "{}: {broken:?}", path.display());
        counts[code as usize] += 1;
    }
    assert!(counts[0] > 100 && counts[1] > 100, "{counts:?}");
}

/// Where sets share selections, a child set is larger than every set that has its selection.
#[test]
fn on_shared_selections() {
    let tables = full::document_that_unfolds(3, 31);
    assert_eq!(table_check(&tables), 0);
    assert!(agrees("unfolds", &tables, 0..3_000) > 500);
}

/// More than there are notes for.
const FAR: u32 = 5_000;

/// The same document, with all sets but the operation's far behind.
fn far_sets(mut tables: Tables) -> Tables {
    let others = tables.sets.split_off(width::SETS);
    tables.sets.resize((FAR as usize + 1) * width::SETS, 0);
    tables.sets.extend(others);
    for row in tables.selections.chunks_exact_mut(width::SELECTIONS) {
        let has_set = row[0] == selection_kind::INLINE || row[0] == selection_kind::FIELD;
        if has_set && row[8] != 0 {
            row[8] += FAR;
        }
    }
    for row in tables.fragments.chunks_exact_mut(width::FRAGMENTS) {
        row[2] += FAR;
    }
    tables
}

/// The same document, with all arguments given far behind others that nobody is given.
fn far_given(mut tables: Tables) -> Tables {
    let Some(row) = tables.given.first_chunk().copied() else { return tables };
    let row: [u32; width::GIVEN] = row;
    let mut given = row.repeat(FAR as usize);
    given.append(&mut tables.given);
    tables.given = given;
    for row in tables.selections.chunks_exact_mut(width::SELECTIONS) {
        if row[0] == selection_kind::FIELD {
            row[6] += FAR;
        }
    }
    tables
}

#[test]
fn on_far_rows() {
    let mut refused = 0;
    for seed in 0..600 {
        let sets = far_sets(generate::depth_tables(seed));
        assert_eq!(rules::check(&sets), Ok(()), "{seed}");
        refused += agrees("far sets", &sets, seed * 10..seed * 10 + 10);
        let given = far_given(generate::tables(seed));
        assert_eq!(rules::check(&given), Ok(()), "{seed}");
        refused += agrees("far given", &given, seed * 10..seed * 10 + 2);
    }
    assert!(refused > 1_000, "few are spoiled: {refused}");
}

/// Two owners of one far set, which no mark is there for.
#[test]
fn a_far_set_has_one_owner() {
    let mut tables = far_sets(full::document_that_unfolds(3, 4));
    assert_eq!(table_check(&tables), 0);
    tables.selections[8] = tables.selections[width::SELECTIONS + 8];
    assert!(rules::check(&tables).is_err());
    assert_eq!(table_check(&tables), 1);
}

/// Two arguments of one name far behind, which no note is there for.
#[test]
fn far_arguments_have_distinct_names() {
    let schema = "type Q { f(x: Int, y: Int): Int }";
    let mut tables = far_given(notation::tables(schema, "{ f(x: 1, y: 2) }", "", "{ }"));
    assert_eq!(table_check(&tables), 0);
    let [first, second] = [FAR as usize, FAR as usize + 1].map(|row| row * width::GIVEN);
    tables.given[second] = tables.given[first];
    assert!(rules::check(&tables).is_err());
    assert_eq!(table_check(&tables), 1);
}

/// Set 2 has a selection whose child set is 1. Set 3 has the selection before it and not that one.
#[test]
fn a_child_set_is_larger_than_a_set_that_nobody_owns() {
    let mut tables = notation::tables("type Q { f: Int }", "{ f ... { } }", "", "{ }");
    tables.sets = vec![1, 1, 0, 0, 0, 1, 0, 1];
    assert_eq!(rules::check(&tables), Ok(()));
    assert_eq!(table_check(&tables), 0);
    tables.sets[5] = 2;
    assert!(rules::check(&tables).is_err());
    assert_eq!(table_check(&tables), 1);
}

/// An empty string is one also within a character, and no other is.
#[test]
fn strings_within_a_character() {
    let mut tables = notation::tables("type Q { f: String }", "{ f }", "", "{ f: \"aé\" }");
    let end = tables.pool.len() as u32;
    for (start, length, code) in [
        (end - 1, 0, 0),
        (end, 0, 0),
        (end + 1, 0, 1),
        (end - 1, 1, 1),
        (end - 2, 1, 1),
        (end - 2, 2, 0),
    ] {
        tables.nodes[1..3].copy_from_slice(&[start, length]);
        assert_eq!(u32::from(rules::check(&tables).is_err()), code, "{start} {length}");
        assert_eq!(table_check(&tables), code, "{start} {length}");
    }
}

#[test]
fn nothing_is_unlawful() {
    assert_eq!(table_check(&Tables::default()), 1);
}
