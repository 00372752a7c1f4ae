//! Plain Rust's runs and the reading agree: on random tables, and on the tables that are timed.

use compare::runs::{plain_run, runs, Tally};
use generate::{full, ordinary};
use tables::Tables;

#[test]
fn on_random_tables() {
    let tally = runs(plain_run, 8_000_000..8_000_400);
    assert!(tally.differences.is_empty(), "{}", tally.differences.join("\n"));
    for code in 0..=7 {
        let count: u64 = tally.codes.get(&code).map_or(0, |counts| counts.iter().sum());
        assert!(count > 0, "no run had code {code}");
    }
    assert!(tally.compared() > 12_000, "{}", tally.compared());
}

/// The tables that are timed, and how many error records each leaves.
fn timed() -> Vec<(&'static str, Tables, usize)> {
    vec![
        ("integers", ordinary::integers(), 0),
        ("objects", ordinary::short_objects(), 0),
        ("wide", ordinary::wide(), 0),
        ("deep", ordinary::deep(), 0),
        ("ascii", ordinary::short_strings(true), 0),
        ("utf8", ordinary::short_strings(false), 0),
        ("echoes", ordinary::echoes(), 0),
        ("coercions", ordinary::coercions(), 0),
        ("again", ordinary::coercions_again(), 0),
        ("nulled", ordinary::nulled_lists(), 500),
        ("wrong", ordinary::wrong_leaves(), 500),
        ("leaves", ordinary::leaves(), 0),
        ("lists", ordinary::leaves_and_lists(), 0),
        ("one", ordinary::one_leaf(), 0),
        ("limits", full::answered(), 0),
    ]
}

#[test]
fn on_timed_tables() {
    let choices: Vec<u32> = (0..4_096).map(|number: u32| number.wrapping_mul(97)).collect();
    for (what, tables, records) in timed() {
        let mut tally = Tally::new(plain_run);
        let reported = tally.compare_sizes(0, &tables, &[]).expect("it is not much work");
        assert_eq!((reported.code, reported.records), (0, records), "{what}");
        tally.compare_sizes(1, &tables, &choices);
        tally.compare_sizes(2, &tables, &choices[..60]);
        assert!(tally.differences.is_empty(), "{what}\n{}", tally.differences.join("\n"));
        assert_eq!(tally.compared(), 30, "{what}");
    }
}
