//! Tables with words changed at random: shared and overlapping rows, rows that nobody owns, ranges
//! that end early, answers that lead back, names that meet; and tables that break a rule.

use crate::random::Random;
use tables::{rules, Tables};

/// Changes some words, one after the other; a change that would break a rule is taken back.
pub(crate) fn twist(tables: &mut Tables, random: &mut Random) {
    for _ in 0..random.between(1, 12) {
        let Some(change) = change_word(tables, random) else { continue };
        if rules::check(tables).is_err() {
            tables.word_tables_mut()[change.table].2[change.word] = change.before;
        }
    }
}

/// Changes something, so that a rule may break or not.
pub(crate) fn spoil(tables: &mut Tables, random: &mut Random) {
    for _ in 0..random.between(1, 3) {
        let number = random.below(tables.word_tables().len());
        match random.below(20) {
            0 => {
                tables.word_tables_mut()[number].2.pop();
            }
            1 => tables.word_tables_mut()[number].2.push(0),
            2 => tables.root = random.below(8) as u32,
            3 | 4 => {
                let byte = random.below(tables.pool.len());
                tables.pool[byte] = random.next() as u8;
            }
            5 => {
                let words = &mut *tables.word_tables_mut()[number].2;
                if !words.is_empty() {
                    let word = random.below(words.len());
                    words[word] = u32::MAX - random.below(4) as u32;
                }
            }
            _ => {
                change_word(tables, random);
            }
        }
    }
}

/// A word that was changed: in which table, which, and what it was.
struct Change {
    table: usize,
    word: usize,
    before: u32,
}

/// Gives a word another value that it might have.
fn change_word(tables: &mut Tables, random: &mut Random) -> Option<Change> {
    let number = random.below(tables.word_tables().len());
    let (_, width, ref mut table) = tables.word_tables_mut()[number];
    let rows = table.len() / width;
    if rows == 0 {
        return None;
    }
    let word = random.below(table.len());
    let before = table[word];
    table[word] = match random.below(10) {
        // What another row has there.
        0..=5 => table[random.below(rows) * width + word % width],
        6 | 7 => random.below(rows + 1) as u32,
        8 => before.wrapping_add(1),
        _ => before.saturating_sub(1),
    };
    Some(Change { table: number, word, before })
}
