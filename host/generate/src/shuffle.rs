//! Rows in another order that means the same: fragments in any, and sets in any in which a child
//! set comes after its parent.

use crate::random::Random;
use tables::layout::{selection_kind, width};
use tables::Tables;

/// Where a selection has its child set, and a fragment its set.
const SELECTION_SET: usize = 8;
const FRAGMENT_SET: usize = 2;

/// Brings sets and fragments into a random order, in tables in which no two sets share a row.
pub(crate) fn shuffle(tables: &mut Tables, random: &mut Random) {
    let numbers = new_numbers(tables, random);
    let old = tables.sets.clone();
    for (row, number) in old.chunks_exact(width::SETS).zip(&numbers) {
        let start = *number as usize * width::SETS;
        tables.sets[start..start + width::SETS].copy_from_slice(row);
    }
    for row in tables.selections.chunks_exact_mut(width::SELECTIONS) {
        if row[0] != selection_kind::SPREAD {
            // The operation's set keeps its number, so a field without a child set keeps its 0.
            row[SELECTION_SET] = numbers[row[SELECTION_SET] as usize];
        }
    }
    for row in tables.fragments.chunks_exact_mut(width::FRAGMENTS) {
        row[FRAGMENT_SET] = numbers[row[FRAGMENT_SET] as usize];
    }
    shuffle_fragments(&mut tables.fragments, random);
}

/// In half of all cases the last row stays where it is.
fn shuffle_fragments(fragments: &mut Vec<u32>, random: &mut Random) {
    let mut rows: Vec<Vec<u32>> =
        fragments.chunks_exact(width::FRAGMENTS).map(<[u32]>::to_vec).collect();
    let last = if random.chance(50) { rows.pop() } else { None };
    fragments.clear();
    while !rows.is_empty() {
        fragments.extend(rows.swap_remove(random.below(rows.len())));
    }
    fragments.extend(last.unwrap_or_default());
}

/// A new number for each set.
fn new_numbers(tables: &Tables, random: &mut Random) -> Vec<u32> {
    let mut numbers = vec![0; tables.sets.len() / width::SETS];
    let mut ready = children(tables, 0);
    ready.extend(tables.fragments.chunks_exact(width::FRAGMENTS).map(|row| row[FRAGMENT_SET]));
    let mut next = 1;
    while !ready.is_empty() {
        let set = ready.swap_remove(random.below(ready.len()));
        numbers[set as usize] = next;
        next += 1;
        ready.extend(children(tables, set));
    }
    numbers
}

fn children(tables: &Tables, set: u32) -> Vec<u32> {
    let range = tables.set(set).rows();
    let words = range.start as usize * width::SELECTIONS..range.end as usize * width::SELECTIONS;
    let rows = tables.selections[words].chunks_exact(width::SELECTIONS);
    let owners = rows.filter(|row| row[0] != selection_kind::SPREAD);
    owners.map(|row| row[SELECTION_SET]).filter(|set| *set != 0).collect()
}
