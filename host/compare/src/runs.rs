//! Runs against the reading, plain Rust's or another's: codes, counts, and every byte and word of both
//! buffers. The reading agrees with the oracle wherever that has an answer, which
//! [`crate::compare_runs`] shows of the same seeds.

use plain::Reported;
use reading::{code, Lent};
use std::collections::BTreeMap;
use std::fmt;
use std::ops::Range;
use tables::layout::{width, SCHEMA, TYPE};
use tables::Tables;

/// The largest that may be lent.
pub const TEXT_BYTES: usize = 65_536;
pub const ERROR_WORDS: usize = 16_384;
pub const CHOICES: usize = 4_096;
/// What stands in the buffers before.
const STALE_BYTE: u8 = 0xa5;
const STALE_WORD: u32 = 0xa5a5_a5a5;

/// Who runs: tables, choices, text, error records. Without choices it is a run in document order.
pub type Runner = fn(&Tables, &[u32], &mut [u8], &mut [u32]) -> Reported;

/// Plain Rust.
pub fn plain_run(
    tables: &Tables,
    choices: &[u32],
    text: &mut [u8],
    errors: &mut [u32],
) -> Reported {
    if choices.is_empty() {
        plain::run(tables, text, errors)
    } else {
        plain::run_ordered(tables, choices, text, errors)
    }
}

/// A run: what is handed back, and both buffers.
#[derive(Debug, PartialEq, Eq)]
struct Ran {
    reported: Reported,
    text: Vec<u8>,
    errors: Vec<u32>,
}

/// What came of some seeds.
#[derive(Debug)]
pub struct Tally {
    runner: Runner,
    /// How often there was which code, in document order and in a given order.
    pub codes: BTreeMap<u32, [u64; 2]>,
    /// How often records were left by a run with code 0.
    pub with_records: u64,
    /// How often the reading did not want to work so much.
    pub too_much_work: u64,
    /// One line for each time that the two differed.
    pub differences: Vec<String>,
}

/// For each seed, runs its tables in document order and in two given orders, each with buffers of
/// several sizes; and the same tables with something changed, which are mostly refused.
pub fn runs(runner: Runner, seeds: Range<u64>) -> Tally {
    let mut tally = Tally::new(runner);
    for seed in seeds {
        let tables = generate::tables(seed);
        let chosen = generate::choices(seed);
        let all: Vec<u32> =
            (0..CHOICES as u32).map(|number| number.wrapping_mul(seed as u32)).collect();
        tally.compare_sizes(seed, &tables, &[]);
        tally.compare_sizes(seed, &tables, &chosen);
        tally.compare_sizes(seed, &tables, &all);
        let too_many = vec![0; CHOICES + 1 + chosen.len()];
        tally.compare(seed, &tables, Lent { choices: &too_many, ..Lent::default() });
        tally.compare(seed, &generate::spoiled_tables(seed), Lent::default());
        let asking = asking_for_schema(tables, seed);
        tally.compare(seed, &asking, Lent::default());
        tally.compare(seed, &asking, Lent { choices: &chosen, ..Lent::default() });
    }
    tally
}

/// The tables with one selection named `__schema` or `__type`; where that is a field, with code 2.
fn asking_for_schema(mut tables: Tables, seed: u64) -> Tables {
    let count = u64::from(tables.selection_count());
    if let Some(row) = seed.checked_rem(count) {
        let name = if seed.is_multiple_of(2) { SCHEMA } else { TYPE };
        tables.selections[row as usize * width::SELECTIONS + 4] = name;
    }
    tables
}

impl Tally {
    pub fn new(runner: Runner) -> Self {
        Tally {
            runner,
            codes: BTreeMap::new(),
            with_records: 0,
            too_much_work: 0,
            differences: Vec::new(),
        }
    }

    /// How many runs were compared.
    pub fn compared(&self) -> u64 {
        self.codes.values().flatten().sum()
    }

    /// Compares runs with the largest buffers, with those that fit, that nearly do, small ones, none,
    /// and too large ones. Gives what was reported with the largest, unless that is too much work.
    pub fn compare_sizes(
        &mut self,
        seed: u64,
        tables: &Tables,
        choices: &[u32],
    ) -> Option<Reported> {
        let lent = Lent { choices, ..Lent::default() };
        let reported = self.compare(seed, tables, lent)?;
        let Reported { bytes, words, .. } = reported;
        let odd = (seed % 61) as usize;
        let sizes = [
            (bytes, words),
            (bytes.saturating_sub(1), words),
            (bytes, words.saturating_sub(1)),
            (bytes + odd % 17, words + odd % 5),
            (odd, odd / 2),
            (bytes * odd / 61, words * odd / 61),
            (0, 0),
            (TEXT_BYTES + 1, ERROR_WORDS),
            (TEXT_BYTES, ERROR_WORDS + 1),
        ];
        for (text_bytes, error_words) in sizes {
            self.compare(seed, tables, Lent { choices, text_bytes, error_words });
        }
        Some(reported)
    }

    /// Gives what was reported, unless the reading did not want to work so much.
    pub fn compare(&mut self, seed: u64, tables: &Tables, lent: Lent<'_>) -> Option<Reported> {
        let Some(read) = read(tables, lent) else {
            self.too_much_work += 1;
            return None;
        };
        let ran = ran(self.runner, tables, lent);
        let code = ran.reported.code;
        self.codes.entry(code).or_default()[usize::from(!lent.choices.is_empty())] += 1;
        self.with_records += u64::from(ran.reported.records > 0);
        if ran != read {
            let sizes = format!(
                "{} bytes, {} words, {} choices",
                lent.text_bytes,
                lent.error_words,
                lent.choices.len()
            );
            let [ran, reading] = [&ran, &read].map(Ran::shown);
            let difference = format!("seed {seed}, {sizes}\n  ran     {ran}\n  reading {reading}");
            self.differences.push(difference);
        }
        Some(ran.reported)
    }
}

/// The differences, and how many runs had which code.
impl fmt::Display for Tally {
    fn fmt(&self, f: &mut fmt::Formatter<'_>) -> fmt::Result {
        for difference in &self.differences {
            writeln!(f, "{difference}")?;
        }
        for (code, [in_document_order, in_a_given_order]) in &self.codes {
            writeln!(f, "{in_document_order:9} code {code}, in document order")?;
            writeln!(f, "{in_a_given_order:9} code {code}, in a given order")?;
        }
        writeln!(f, "{:9} runs compared", self.compared())?;
        writeln!(f, "{:9} of them with error records", self.with_records)?;
        writeln!(f, "{:9} more that are too much work", self.too_much_work)?;
        write!(f, "{:9} differences", self.differences.len())
    }
}

impl Ran {
    /// On one line, what counts, and whether there are zeros behind it.
    fn shown(&self) -> String {
        let Reported { bytes, words, .. } = self.reported;
        let (text, rest) = self.text.split_at(bytes.min(self.text.len()));
        let (records, other) = self.errors.split_at(words.min(self.errors.len()));
        let clean = rest.iter().all(|byte| *byte == 0) && other.iter().all(|word| *word == 0);
        let behind = if clean { "" } else { ", not all zeros behind" };
        format!("{:?} {} {records:?}{behind}", self.reported, String::from_utf8_lossy(text))
    }
}

/// A run over buffers that were used before.
fn ran(runner: Runner, tables: &Tables, lent: Lent<'_>) -> Ran {
    let mut text = vec![STALE_BYTE; lent.text_bytes];
    let mut errors = vec![STALE_WORD; lent.error_words];
    let reported = runner(tables, lent.choices, &mut text, &mut errors);
    Ran { reported, text, errors }
}

/// Whether a buffer, or the list of choices, is longer than a run takes. The reading does not ask.
pub fn is_too_large(lent: Lent<'_>) -> bool {
    lent.text_bytes > TEXT_BYTES
        || lent.error_words > ERROR_WORDS
        || lent.choices.len() > CHOICES
}

/// The reading's run, as it is to be reported.
fn read(tables: &Tables, lent: Lent<'_>) -> Option<Ran> {
    let mut text = vec![0; lent.text_bytes];
    let mut errors = vec![0; lent.error_words];
    if is_too_large(lent) {
        let reported = Reported { code: code::RULE, ..Reported::default() };
        return Some(Ran { reported, text, errors });
    }
    let answer = reading::run(tables, lent)?;
    let mut words = 0;
    for record in answer.errors.iter().map(tables::ErrorRecord::words) {
        errors[words..words + record.len()].copy_from_slice(&record);
        words += record.len();
    }
    let bytes = answer.data.len();
    text[..bytes].copy_from_slice(answer.data.as_bytes());
    let reported = Reported { code: answer.code, bytes, words, records: answer.errors.len() };
    Some(Ran { reported, text, errors })
}
