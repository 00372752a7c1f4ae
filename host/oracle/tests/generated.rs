//! The generator: every seed's tables obey the rules, a seed gives the same tables twice, and the
//! seeds together reach what they are made to reach.

use oracle::judge::{self, CannotJudge, Depth};
use std::collections::BTreeMap;
use tables::layout::limit;
use tables::{file, rules};

const SEEDS: u64 = 1_500;

#[derive(Debug, Default)]
struct Tally {
    codes: BTreeMap<u32, u32>,
    outcomes: BTreeMap<&'static str, u32>,
    depths: BTreeMap<String, u32>,
}

fn outcome(seed: u64, tally: &mut Tally) -> &'static str {
    let tables = generate::tables(seed);
    assert_eq!(rules::check(&tables), Ok(()), "seed {seed}");
    assert_eq!(generate::tables(seed), tables, "seed {seed} gives two cases");
    let read = file::read(file::write(&tables)).expect("a table file");
    let depth = judge::depth(&tables);
    assert_eq!(judge::depth(&read), depth, "seed {seed} by its file");
    let depth = match depth {
        Ok(Depth::Fine(depth)) => format!("0 {depth}"),
        Ok(Depth::TooDeep { .. }) => "8".into(),
        Err(CannotJudge::OpenSets) => "3".into(),
        Err(other) => panic!("seed {seed}: {other}"),
    };
    *tally.depths.entry(depth).or_default() += 1;
    let run = judge::run(&tables);
    assert_eq!(judge::run(&read), run, "seed {seed} by its file");
    match run {
        Ok(answered) => {
            for error in &answered.errors {
                *tally.codes.entry(error.code).or_default() += 1;
            }
            match (answered.data.as_str(), answered.errors.is_empty()) {
                ("null", _) => "null at the root",
                ("{}", _) => "empty",
                (_, true) => "without errors",
                (_, false) => "with errors",
            }
        }
        Err(CannotJudge::LongPath) => "long path",
        Err(CannotJudge::Introspection) => "introspection",
        Err(CannotJudge::NoCode(_)) => "no code",
        Err(CannotJudge::Work | CannotJudge::Size) => "work",
        Err(other) => panic!("seed {seed}: {other}"),
    }
}

#[test]
fn spoiled_tables_are_judged() {
    let broken = (0..SEEDS).filter(|seed| {
        let tables = generate::spoiled_tables(*seed);
        let refused = matches!(judge::run(&tables), Err(CannotJudge::Rule(_)));
        assert_eq!(refused, rules::check(&tables).is_err(), "seed {seed}");
        refused
    });
    let broken = broken.count() as u64;
    assert!(broken > SEEDS / 4 && broken < SEEDS, "{broken} of {SEEDS} break a rule");
}

#[test]
fn seeds_reach_every_rule() {
    let mut tally = Tally::default();
    for seed in 0..SEEDS {
        let outcome = outcome(seed, &mut tally);
        *tally.outcomes.entry(outcome).or_default() += 1;
    }
    println!("{tally:#?}");
    for code in 1..=24 {
        assert!(tally.codes.contains_key(&code), "no seed below {SEEDS} gives code {code}");
    }
    let at_least = |outcome, percent| {
        let count = tally.outcomes.get(outcome).copied().unwrap_or_default();
        assert!(u64::from(count) * 100 >= SEEDS * percent, "{outcome}: {count} of {SEEDS}");
    };
    at_least("without errors", 15);
    at_least("with errors", 15);
    at_least("null at the root", 2);
    at_least("long path", 1);
    for depth in ["0 0", "0 1", "0 2", "8", "3"] {
        assert!(tally.depths.contains_key(depth), "no seed below {SEEDS} has the depth {depth}");
    }
}

#[test]
fn depth_seeds_reach_every_answer() {
    let mut answers: BTreeMap<String, u64> = BTreeMap::new();
    let mut most_fragments = 0;
    for seed in 0..SEEDS {
        let tables = generate::depth_tables(seed);
        assert_eq!(rules::check(&tables), Ok(()), "seed {seed}");
        assert_eq!(generate::depth_tables(seed), tables, "seed {seed} gives two cases");
        let depth = judge::depth(&tables);
        let read = file::read(file::write_short(&tables)).expect("a table file");
        assert_eq!(judge::depth(&read), depth, "seed {seed} by its file");
        let answer = match depth {
            Ok(Depth::Fine(depth)) => format!("0 {depth}"),
            Ok(Depth::TooDeep { .. }) => "8".into(),
            Err(CannotJudge::OpenSets) => "3".into(),
            Err(other) => panic!("seed {seed}: {other}"),
        };
        *answers.entry(answer).or_default() += 1;
        most_fragments = most_fragments.max(tables.fragment_count() as usize);
    }
    println!("{answers:?}");
    for (answer, percent) in [("0 0", 15), ("0 1", 10), ("0 2", 15), ("8", 15), ("3", 5)] {
        let count = answers.get(answer).copied().unwrap_or_default();
        assert!(count * 100 >= SEEDS * percent, "{answer}: {count} of {SEEDS}");
    }
    assert_eq!(most_fragments, limit::FRAGMENTS);
}
