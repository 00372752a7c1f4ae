//! The port's depth check against the oracle, where that has an answer, and against the reading,
//! which always has one. Each answer is counted under who judged it.

use crate::depth_check;
use oracle::judge::{self, CannotJudge};
use std::collections::BTreeMap;
use std::fmt;
use std::ops::Range;
use tables::Tables;

/// Who judged an answer.
#[derive(Debug, Clone, Copy, PartialEq, Eq, PartialOrd, Ord)]
pub enum Judge {
    /// The Rust, and the reading beside it.
    Oracle,
    /// The Rust was not asked: because the reading said 3, or because the document is too large.
    ReadingAlone,
    /// The Rust was not asked, since the tables break a rule: by `tables::rules`, which the reading
    /// asks as well.
    RulesAlone,
}

impl fmt::Display for Judge {
    fn fmt(&self, f: &mut fmt::Formatter<'_>) -> fmt::Result {
        f.write_str(match self {
            Judge::Oracle => "by the oracle and the reading",
            Judge::ReadingAlone => "by the reading alone",
            Judge::RulesAlone => "by the rules alone",
        })
    }
}

/// What came of some seeds.
#[derive(Debug, Default)]
pub struct Tally {
    /// How often the port gave which code and depth, and who judged it.
    pub answers: BTreeMap<(u32, u32, Judge), u64>,
    /// One line for each time that it differed from a judge.
    pub differences: Vec<String>,
}

/// Asks about the tables that are made for depth checks.
pub fn depth_checks(seeds: Range<u64>) -> Tally {
    let mut tally = Tally::default();
    for seed in seeds {
        tally.compare(&generate::depth_tables(seed), || format!("seed {seed}"));
    }
    tally
}

/// Asks about the tables that are made for runs, as made and spoiled.
pub fn depth_checks_of_runs(seeds: Range<u64>) -> Tally {
    let mut tally = Tally::default();
    for seed in seeds {
        tally.compare(&generate::tables(seed), || format!("seed {seed}, as made"));
        tally.compare(&generate::spoiled_tables(seed), || format!("seed {seed}, spoiled"));
    }
    tally
}

impl Tally {
    /// How often the port was asked.
    pub fn asked(&self) -> u64 {
        self.answers.values().sum()
    }

    /// How often this one judged.
    pub fn judged(&self, judge: Judge) -> u64 {
        self.count(|(_, _, other)| other == judge)
    }

    /// How often the port gave this code and depth.
    pub fn answered(&self, code: u32, depth: u32) -> u64 {
        self.count(|(other, deep, _)| (other, deep) == (code, depth))
    }

    fn count(&self, which: impl Fn((u32, u32, Judge)) -> bool) -> u64 {
        self.answers.iter().filter(|(key, _)| which(**key)).map(|(_, count)| count).sum()
    }

    /// Asks the port and the judges.
    pub fn compare(&mut self, tables: &Tables, what: impl FnOnce() -> String) {
        let answer = depth_check(tables);
        let read = reading::depth(tables);
        let asked = judge::depth(tables);
        let (judge, agrees) = match &asked {
            Ok(judged) => (Judge::Oracle, answer == (*judged).into()),
            Err(CannotJudge::Rule(_)) => (Judge::RulesAlone, true),
            Err(CannotJudge::OpenSets | CannotJudge::Size) => (Judge::ReadingAlone, true),
            Err(_) => (Judge::ReadingAlone, false),
        };
        *self.answers.entry((answer.code, answer.depth, judge)).or_default() += 1;
        if !agrees || answer != read {
            let differs = format!("port {answer:?}, oracle {asked:?}, reading {read:?}");
            self.differences.push(format!("{}: {differs}", what()));
        }
    }
}
