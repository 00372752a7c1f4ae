//! Cases with recorded answers, for a program that replays them.
//!
//! The cases are one text: a line `@ LABEL` begins a case, and the lines behind it, up to the next
//! such line, are a table file. What stands before the first case stands in front of every table file. A
//! case asks for a depth check, or for a run where a line `? BYTES WORDS CHOICE..` stands under its
//! first: how long the two buffers are, and the choices. The answers have a line for each case, in the same
//! order: `LABEL: 0 depth DEPTH`, `LABEL: 8 place PLACE`, or `LABEL: CODE` for any other code of a depth
//! check; `LABEL: 0 DATA CODE:PATH@PLACE..` or `LABEL: CODE -` for a run.

use oracle::judge;
use reading::{code, Answer, Depth};
use std::collections::BTreeMap;
use std::ops::Range;
use tables::{file, record, Tables};

#[derive(Debug, Default)]
pub struct Sample {
    pub cases: String,
    pub answers: String,
    /// How many cases have which code and depth.
    pub counts: BTreeMap<(u32, u32), u64>,
}

/// The depth checks of some seeds, as far as the oracle has an answer: with code 0 or 8.
pub fn depth_sample(seeds: Range<u64>) -> Sample {
    let mut sample = Sample::default();
    for seed in seeds {
        let text = file::write_short(&generate::depth_tables(seed));
        // The oracle is asked about what the text says.
        let tables = file::read(&text).expect("what is written can be read");
        let Ok(answer) = judge::depth(&tables) else { continue };
        let (label, answer) = (format!("seed {seed}"), Depth::from(answer));
        sample.cases += &format!("@ {label}\n{text}");
        sample.answers += &(answer_line(&label, answer) + "\n");
        *sample.counts.entry((answer.code, answer.depth)).or_default() += 1;
    }
    sample
}

/// The line of an answer.
pub fn answer_line(label: &str, answer: Depth) -> String {
    match answer.code {
        code::ANSWERED => format!("{label}: 0 depth {}", answer.depth),
        code::TOO_DEEP => format!("{label}: 8 place {}", answer.place),
        other => format!("{label}: {other}"),
    }
}

/// The line of a run's answer.
pub fn run_line(label: &str, tables: &Tables, answer: &Answer) -> String {
    match answer.code {
        code::ANSWERED => {
            let line = record::line(tables, &answer.data, &answer.errors, true);
            format!("{label}: 0 {line}")
        }
        other => format!("{label}: {other} -"),
    }
}

/// What a run is lent beside the tables.
#[derive(Debug, Clone, PartialEq, Eq)]
pub struct Asked {
    pub text_bytes: usize,
    pub error_words: usize,
    pub choices: Vec<u32>,
}

/// A case: the table file that it is, and what is asked where it is a run.
#[derive(Debug, Clone, PartialEq, Eq)]
pub struct Case<'t> {
    pub label: &'t str,
    pub run: Option<Asked>,
    pub text: String,
}

/// The cases of a text. A case begins with `@` at the start of a line.
pub fn cases(text: &str) -> Vec<Case<'_>> {
    let (shared, rest) = match text.strip_prefix('@') {
        Some(rest) => ("", rest),
        None => match text.split_once("\n@") {
            Some(parts) => parts,
            None => return Vec::new(),
        },
    };
    rest.split("\n@").map(|text| case(shared, text)).collect()
}

/// A case, behind its `@`.
fn case<'t>(shared: &str, text: &'t str) -> Case<'t> {
    let (label, text) = text.split_once('\n').unwrap_or((text, ""));
    let (run, text) = match text.strip_prefix('?') {
        Some(text) => {
            let (line, text) = text.split_once('\n').unwrap_or((text, ""));
            (Some(asked(line)), text)
        }
        None => (None, text),
    };
    let label = label.strip_prefix(' ').unwrap_or(label);
    Case { label, run, text: if shared.is_empty() { text.into() } else { format!("{shared}\n{text}") } }
}

/// The numbers of a line that asks for a run.
fn asked(line: &str) -> Asked {
    let mut numbers = line.split_whitespace().map(|word| word.parse::<u32>().expect("a number"));
    let mut size = || numbers.next().expect("two sizes") as usize;
    let (text_bytes, error_words) = (size(), size());
    Asked { text_bytes, error_words, choices: numbers.collect() }
}
