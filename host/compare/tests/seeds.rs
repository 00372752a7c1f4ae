//! The judges agree on some seeds. `compare` asks about as many as one likes.

use compare::{compare_depths, compare_orders, compare_runs};

#[test]
fn judges_agree() {
    for seed in 1_000_000..1_002_000 {
        let tables = generate::tables(seed);
        let verdicts = [
            compare_runs(&tables),
            compare_orders(&tables, &generate::choices(seed)),
            compare_depths(&tables),
        ];
        for verdict in verdicts {
            if let Err(difference) = verdict {
                panic!("seed {seed}: {difference}");
            }
        }
    }
}

#[test]
fn judges_agree_on_depth_checks() {
    for seed in 1_000_000..1_002_000 {
        if let Err(difference) = compare_depths(&generate::depth_tables(seed)) {
            panic!("seed {seed}: {difference}");
        }
    }
}
