//! The port's table check, plain Rust's and the rules agree on some seeds; `port_check` asks about as
//! many as one likes.

use port::checks::table_checks;
use port::table_check;
use reading::code::{ANSWERED, RULE};
use tables::Tables;

#[test]
fn agrees_with_the_rules() {
    let tally = table_checks(2_000_000..2_002_000);
    println!("{} of {} tables refused", tally.refused, tally.asked);
    assert_eq!(tally.differences, Vec::<String>::new());
    assert_eq!(tally.asked, 4_000);
    assert_eq!(tally.refused_as_made, 0);
    assert!(tally.refused > 1_000, "few are spoiled: {}", tally.refused);
}

/// Every slice is passed where it belongs: a table that goes wrong alone is refused.
#[test]
fn every_table_is_looked_at() {
    let lawful = generate::tables(1);
    assert_eq!(table_check(&lawful), ANSWERED);
    for number in 0..lawful.word_tables().len() {
        let mut tables = lawful.clone();
        let (name, width, ref mut table) = tables.word_tables_mut()[number];
        // An end within a row; where a row is one word, a row that names nothing.
        table.extend(std::iter::repeat_n(u32::MAX, if width == 1 { 1 } else { width + 1 }));
        assert_eq!(table_check(&tables), RULE, "{name}");
    }
    let long_pool = Tables { pool: vec![0; 65_537], ..lawful.clone() };
    assert_eq!(table_check(&long_pool), RULE);
    let no_root = Tables { root: u32::MAX, ..lawful };
    assert_eq!(table_check(&no_root), RULE);
}

/// Nothing at all can be lent; an empty vector has a pointer as well.
#[test]
fn empty_tables_are_unlawful() {
    assert_eq!(table_check(&Tables::default()), RULE);
}
