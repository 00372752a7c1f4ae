//! The port's runs in document order against the oracle, where that has an answer, and against the
//! reading, which always has one unless it is too much work.

use crate::run;
use compare::runs::{Tally, ERROR_WORDS, TEXT_BYTES};
use oracle::judge::{self, Answered, CannotJudge};
use reading::{code, Lent};
use std::collections::BTreeMap;
use std::fmt;
use std::ops::Range;
use tables::{ErrorRecord, Tables};

/// What came of some seeds.
#[derive(Debug)]
pub struct Judged {
    /// The port against the reading.
    pub read: Tally,
    /// How often the port had which code where the oracle had an answer and both had to agree, or
    /// where it had none, and why.
    pub kinds: BTreeMap<String, u64>,
    /// Error records by their code, where the oracle agreed.
    pub errors: BTreeMap<u32, u64>,
    /// Runs by how deep their data nests, where the oracle agreed.
    pub depths: BTreeMap<usize, u64>,
    /// One line for each time that the port differed from the oracle.
    pub differences: Vec<String>,
}

/// Asks about the tables of these seeds.
pub fn runs(seeds: Range<u64>) -> Judged {
    let mut judged = Judged {
        read: Tally::new(run),
        kinds: BTreeMap::new(),
        errors: BTreeMap::new(),
        depths: BTreeMap::new(),
        differences: Vec::new(),
    };
    for seed in seeds {
        judged.compare(seed, &generate::tables(seed));
    }
    judged
}

/// The port's answer with code 0: the text, and the records' words.
type Answer = (String, Vec<u32>);

impl Judged {
    /// Asks the port and the judges.
    pub fn compare(&mut self, seed: u64, tables: &Tables) {
        // The reading first: it says whether a run is too much work.
        let kind = match self.read.compare(seed, tables, Lent::default()) {
            None => "too much work".into(),
            Some(_) => self.compare_with_oracle(seed, tables),
        };
        *self.kinds.entry(kind).or_default() += 1;
    }

    fn compare_with_oracle(&mut self, seed: u64, tables: &Tables) -> String {
        let (mut text, mut errors) = (vec![0xa5; TEXT_BYTES], vec![0xa5; ERROR_WORDS]);
        let reported = run(tables, &[], &mut text, &mut errors);
        let code = reported.code;
        let asked = judge::run(tables);
        let kind = match (&asked, code) {
            (Ok(judged), code::ANSWERED) => {
                let text = String::from_utf8_lossy(&text[..reported.bytes]).into_owned();
                let answer = (text, errors[..reported.words].to_vec());
                self.agree(&answer, judged).then_some("equal to the oracle")
            }
            // Limits and buffers, of which the Rust knows nothing: the reading has judged.
            (Ok(_), code::LIMIT | code::COLLECTED | code::TEXT_ROOM | code::ERROR_ROOM) => {
                Some("by the reading alone")
            }
            (Err(CannotJudge::Work | CannotJudge::Size), _) => Some("too much for the oracle"),
            (Err(CannotJudge::NoCode(message)), _)
                if message.starts_with("float value overflow") =>
            {
                Some("a float literal that is no double")
            }
            (Err(CannotJudge::Introspection), code::INTROSPECTION)
            | (Err(CannotJudge::LongPath), code::LIMIT)
            | (Err(_), code::LIMIT | code::COLLECTED | code::VARIABLE) => {
                Some("by the reading alone")
            }
            _ => None,
        };
        match kind {
            Some(kind) => format!("code {code}, {kind}"),
            None => {
                self.differences.push(format!("seed {seed}: port {reported:?}, oracle {asked:?}"));
                "different".into()
            }
        }
    }

    /// Whether the port's answer is the oracle's; counted if so.
    fn agree(&mut self, (text, words): &Answer, judged: &Answered) -> bool {
        let judged_words: Vec<u32> = judged.errors.iter().flat_map(ErrorRecord::words).collect();
        if (text, words) != (&judged.data, &judged_words) {
            return false;
        }
        for record in &judged.errors {
            *self.errors.entry(record.code).or_default() += 1;
        }
        *self.depths.entry(nesting(text)).or_default() += 1;
        true
    }
}

/// How many arrays and objects of a JSON text are open at once.
fn nesting(text: &str) -> usize {
    let (mut open, mut most, mut quoted, mut escaped) = (0usize, 0, false, false);
    for byte in text.bytes() {
        match byte {
            _ if escaped => escaped = false,
            b'\\' if quoted => escaped = true,
            b'"' => quoted = !quoted,
            b'[' | b'{' if !quoted => open += 1,
            b']' | b'}' if !quoted => open -= 1,
            _ => {}
        }
        most = most.max(open);
    }
    most
}

impl fmt::Display for Judged {
    fn fmt(&self, f: &mut fmt::Formatter<'_>) -> fmt::Result {
        for difference in self.read.differences.iter().chain(&self.differences) {
            writeln!(f, "{difference}")?;
        }
        for (kind, count) in &self.kinds {
            writeln!(f, "{count:9} {kind}")?;
        }
        for (code, count) in &self.errors {
            writeln!(f, "{count:9} error records of code {code}")?;
        }
        for (depth, count) in &self.depths {
            writeln!(f, "{count:9} runs nest {depth}")?;
        }
        writeln!(f, "{:9} runs", self.kinds.values().sum::<u64>())?;
        writeln!(f, "{:9} differences from the reading", self.read.differences.len())?;
        write!(f, "{:9} differences from the oracle", self.differences.len())
    }
}
