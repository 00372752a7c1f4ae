//! The port's runs agree with the reading, the oracle and plain Rust on some seeds; `port_runs` asks
//! about as many as one likes.

use compare::runs::{self, Tally};
use generate::{full, ordinary};
use port::{hostile, orders, run, runs as judged};

#[test]
fn agrees_with_the_reading() {
    let tally = runs::runs(run, 8_000_000..8_000_400);
    assert_eq!(tally.differences, Vec::<String>::new());
    for code in 0..=7 {
        let count: u64 = tally.codes.get(&code).map_or(0, |counts| counts.iter().sum());
        assert!(count > 0, "no run had code {code}");
    }
    assert!(tally.compared() > 12_000, "{}", tally.compared());
}

#[test]
fn agrees_with_the_oracle() {
    let tally = judged::runs(8_100_000..8_102_000);
    assert_eq!(tally.read.differences, Vec::<String>::new());
    assert_eq!(tally.differences, Vec::<String>::new());
    let equal = tally.kinds["code 0, equal to the oracle"];
    assert!(equal > 1_500, "few were judged: {equal}");
    assert!(tally.errors.len() > 20, "few codes of records: {:?}", tally.errors);
    assert!(tally.depths.keys().any(|depth| *depth > 6), "none nests deep");
}

#[test]
fn hostile_tables_are_answered() {
    let tally = hostile::runs(8_200_000..8_200_100);
    assert_eq!(tally.differences, Vec::<String>::new());
    assert!(tally.codes[&1] > 3_000, "few were refused: {:?}", tally.codes);
}

#[test]
fn the_order_does_not_show() {
    let tally = orders::pairs(8_300_000..8_300_500);
    assert_eq!(tally.counterexamples, Vec::<String>::new());
    assert!(tally.both_answered > 1_000 && tally.rearranged > 100, "{tally}");
    assert!(tally.none_given_up_with_records > 200 && tally.nulls > 200, "{tally}");
}

/// The tables that are timed, in document order and in a given order, with every size of buffer.
#[test]
fn timed_tables() {
    let choices: Vec<u32> = (0..4_096).map(|number: u32| number.wrapping_mul(97)).collect();
    let timed = [
        ordinary::integers(),
        ordinary::short_objects(),
        ordinary::wide(),
        ordinary::deep(),
        ordinary::short_strings(false),
        ordinary::echoes(),
        ordinary::coercions(),
        ordinary::nulled_lists(),
        ordinary::wrong_leaves(),
        ordinary::leaves_and_lists(),
        full::answered(),
    ];
    for tables in &timed {
        let mut tally = Tally::new(run);
        tally.compare_sizes(0, tables, &[]);
        tally.compare_sizes(1, tables, &choices);
        assert_eq!(tally.differences, Vec::<String>::new());
        assert_eq!(tally.compared(), 20);
    }
}
