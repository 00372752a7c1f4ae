//! Runs of tables that break rules: nothing is read or written outside of what is lent, a refusal
//! leaves zeros alone, and so does an answer behind its counts. Everything lent ends before a fence.

use crate::fence::Fenced;
use crate::run_lent;
use compare::runs::plain_run;
use plain::Reported;
use reading::Lent;
use std::collections::BTreeMap;
use std::fmt;
use std::ops::Range;
use tables::Tables;

/// How often the tables of a seed are spoiled, each time anew, and how many random ones there are.
const SPOILED: u64 = 24;
const RANDOM: u64 = 8;
/// The longest table of random words.
const LONGEST: u64 = 96;
/// Room for each table, in bytes; and for a buffer, a page more than the largest.
const TABLE_ROOM: usize = 262_144;
const BUFFER_ROOM: usize = 69_632;

/// What came of some seeds.
#[derive(Debug)]
pub struct Hostile {
    fences: Vec<Fenced>,
    pub codes: BTreeMap<u32, u64>,
    pub too_much_work: u64,
    pub differences: Vec<String>,
}

pub fn runs(seeds: Range<u64>) -> Hostile {
    let rooms = [TABLE_ROOM; 16].into_iter().chain([BUFFER_ROOM; 2]);
    let fences = rooms.map(Fenced::new).collect();
    let mut hostile =
        Hostile { fences, codes: BTreeMap::new(), too_much_work: 0, differences: Vec::new() };
    for seed in seeds {
        let made = generate::tables(seed);
        for number in 0..SPOILED {
            let other = seed.wrapping_mul(SPOILED).wrapping_add(number);
            hostile.ask(other, &generate::spoiled(made.clone(), other));
        }
        for number in 0..RANDOM {
            let other = seed.wrapping_mul(RANDOM).wrapping_add(number);
            hostile.ask(other, &random_tables(other));
        }
    }
    hostile
}

/// The next of some numbers that look random: xorshift64 (Marsaglia, 2003).
fn next(state: &mut u64) -> u64 {
    *state ^= *state << 13;
    *state ^= *state >> 7;
    *state ^= *state << 17;
    *state
}

/// Tables of random words, often small ones, with lengths that need not be whole rows.
fn random_tables(seed: u64) -> Tables {
    let mut state = seed.wrapping_mul(0x9e37_79b9_7f4a_7c15) | 1;
    let mut tables = Tables::default();
    let large = next(&mut state).is_multiple_of(2);
    for (_, width, words) in tables.word_tables_mut() {
        let mut length = next(&mut state) % LONGEST;
        if !next(&mut state).is_multiple_of(4) {
            length -= length % width as u64;
        }
        for _ in 0..length {
            let word = next(&mut state);
            words.push(if large && word.is_multiple_of(3) {
                (word >> 8) as u32
            } else {
                (word >> 60) as u32
            });
        }
    }
    tables.pool = (0..next(&mut state) % LONGEST).map(|_| next(&mut state) as u8).collect();
    tables.root = (next(&mut state) >> 62) as u32;
    tables
}

/// The tables, each ending before a fence.
fn fenced<'a>(tables: &Tables, fences: &'a mut [Fenced]) -> ladlehedge::Tables<'a> {
    let [pool, words @ ..] = fences else { unreachable!("there are fifteen fences") };
    let lent_pool = pool.bytes(tables.pool.len());
    lent_pool.copy_from_slice(&tables.pool);
    let mut fences = words.iter_mut();
    let words = tables.word_tables().map(|(_, _, words)| {
        let lent = fences.next().expect("there are fifteen fences").words(words.len());
        lent.copy_from_slice(words);
        &*lent
    });
    ladlehedge::Tables::in_order(lent_pool, words, tables.root)
}

impl Hostile {
    pub fn asked(&self) -> u64 {
        self.codes.values().sum()
    }

    /// Runs the tables in document order and in a given order, with buffers by the seed.
    fn ask(&mut self, seed: u64, tables: &Tables) {
        // Lawful ones may have a run that nobody waits for: the reading says so.
        if plain::table_check(tables) == 0 && reading::run(tables, Lent::default()).is_none() {
            self.too_much_work += 1;
            return;
        }
        let choices = generate::choices(seed);
        let sizes = match seed % 8 {
            0 => (65_536, 16_384),
            1 => (65_537, 16_384),
            2 => (65_536, 16_385),
            3 => (0, 0),
            _ => ((seed % 509) as usize, (seed % 61) as usize),
        };
        self.run(seed, tables, &[], sizes);
        self.run(seed, tables, &choices, sizes);
    }

    fn run(&mut self, seed: u64, tables: &Tables, choices: &[u32], sizes: (usize, usize)) {
        let (of_tables, others) = self.fences.split_at_mut(15);
        let [of_choices, of_text, of_errors] = others else { unreachable!("there are three more") };
        let lent = fenced(tables, of_tables);
        let lent_choices = of_choices.words(choices.len());
        lent_choices.copy_from_slice(choices);
        let text = of_text.refill().bytes(sizes.0);
        let errors = of_errors.refill().words(sizes.1);
        let reported = run_lent(&lent, lent_choices, text, errors);
        let clean = text[reported.bytes..].iter().all(|byte| *byte == 0)
            && errors[reported.words..].iter().all(|word| *word == 0);
        let (mut plain_text, mut plain_errors) = (vec![1; sizes.0], vec![1; sizes.1]);
        let plain = plain_run(tables, choices, &mut plain_text, &mut plain_errors);
        let nothing = Reported { code: reported.code, ..Reported::default() };
        let same = reported == plain && *text == *plain_text && *errors == *plain_errors;
        let apart =
            of_text.is_untouched_before(sizes.0) && of_errors.is_untouched_before(4 * sizes.1);
        *self.codes.entry(reported.code).or_default() += 1;
        if !(clean && same && apart && (reported.code == 0 || reported == nothing)) {
            self.differences.push(format!(
                "{seed}, {sizes:?}, {choices:?}: clean {clean}, apart {apart}, port {reported:?}, plain {plain:?}"
            ));
        }
    }
}

impl fmt::Display for Hostile {
    fn fmt(&self, f: &mut fmt::Formatter<'_>) -> fmt::Result {
        for difference in &self.differences {
            writeln!(f, "{difference}")?;
        }
        for (code, count) in &self.codes {
            writeln!(f, "{count:9} code {code}")?;
        }
        writeln!(f, "{:9} runs, no fault", self.asked())?;
        writeln!(f, "{:9} tables more that are too much work", self.too_much_work)?;
        write!(f, "{:9} differences", self.differences.len())
    }
}
