//! The port's table check, and plain Rust's, against [`tables::rules`], seed by seed.

use crate::table_check;
use reading::code;
use std::ops::Range;
use tables::{rules, Tables};

/// What came of some seeds.
#[derive(Debug, Default)]
pub struct Tally {
    /// How often both were asked.
    pub asked: u64,
    /// How often all said that a rule is broken.
    pub refused: u64,
    /// How often all said so of tables that were made to be lawful: never, unless the generator
    /// has a fault.
    pub refused_as_made: u64,
    /// One line for each time that they differed.
    pub differences: Vec<String>,
}

/// For each seed, asks about the tables of that seed and about the same with something changed.
pub fn table_checks(seeds: Range<u64>) -> Tally {
    let mut tally = Tally::default();
    for seed in seeds {
        let as_made = tally.compare(&generate::tables(seed), || format!("seed {seed}, as made"));
        tally.refused_as_made += u64::from(as_made == code::RULE);
        tally.compare(&generate::spoiled_tables(seed), || format!("seed {seed}, spoiled"));
    }
    tally
}

impl Tally {
    /// Gives the rules' code.
    fn compare(&mut self, tables: &Tables, what: impl FnOnce() -> String) -> u32 {
        let broken = rules::check(tables).err();
        let code = if broken.is_some() { code::RULE } else { code::ANSWERED };
        let (port, plain) = (table_check(tables), plain::table_check(tables));
        self.asked += 1;
        if (port, plain) != (code, code) {
            let reason = broken.unwrap_or_else(|| "every rule holds".into());
            let differs = format!("the port says {port}, plain Rust {plain}, but {reason}");
            self.differences.push(format!("{}: {differs}", what()));
        } else if code == code::RULE {
            self.refused += 1;
        }
        code
    }
}
