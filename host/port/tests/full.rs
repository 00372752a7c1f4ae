//! The port knows tables of full size: rows shared as often as they can be, and documents for depth
//! checks, which the judges know as well.

use generate::full;
use port::depths::{Judge, Tally};
use port::{depth_check, table_check};
use reading::{code, Depth};

#[test]
fn shared_rows_are_lawful() {
    for (what, tables) in full::shared_rows() {
        assert_eq!(table_check(&tables), code::ANSWERED, "{what}");
    }
}

#[test]
fn the_judges_know_the_documents() {
    let unfolds = full::document_that_unfolds(2, 10);
    let documents = [("deep", full::deep_document()), ("unfolds", unfolds)];
    for (what, tables) in documents {
        let mut tally = Tally::default();
        tally.compare(&tables, || what.into());
        assert_eq!(tally.differences, Vec::<String>::new());
        assert_eq!(tally.judged(Judge::Oracle), 1, "{what}");
    }
}

/// Lawful, and no depth check of it is waited for: it would go through 3^31 sets in the last level.
#[test]
fn a_small_document_without_end_is_lawful() {
    let tables = full::document_that_unfolds(3, 31);
    assert_eq!(table_check(&tables), code::ANSWERED);
    let few_levels = full::document_that_unfolds(3, 8);
    assert_eq!(depth_check(&few_levels), Depth { code: code::ANSWERED, depth: 0, place: 0 });
}
