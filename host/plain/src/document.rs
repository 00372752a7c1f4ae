//! The rules for arguments given, selections, fragments and sets.

use crate::notes::{Apart, Marks, Names, NotingNames, NOTED};
use crate::rows::{is_row, is_row_or_none, within, Rows};
use tables::layout::{condition, limit, selection_kind, width};

pub(crate) fn given_are_lawful(rows: &Rows<'_>, apart: &mut Apart) -> bool {
    let mut noting = NotingNames::new(apart);
    for (row, &[name, literal]) in rows.given.iter().enumerate().rev() {
        if !is_row(rows.names, name) || !is_row(rows.literals, literal) {
            return false;
        }
        if row < NOTED {
            noting.note(row, name);
        }
    }
    true
}

/// Whether the arguments that a selection is given have no two names alike. Rows that have no notes are
/// gone through; there is no end to them, but a range has no more than there are names.
fn given_are_apart(rows: &Rows<'_>, apart: &Apart, first: u32, count: u32) -> bool {
    if rows.given.len() <= NOTED {
        return apart.has(first, count);
    }
    let mut names = Names::new();
    let range = first as usize..first as usize + count as usize;
    rows.given[range].iter().all(|[name, _]| names.add(*name))
}

/// Sets, with the selections in them and the fragments that have some.
pub(crate) fn sets_are_lawful(rows: &Rows<'_>, given: &Apart) -> bool {
    let mut owned = Owned::new(rows);
    selections_are_lawful(rows, given, &mut owned)
        && fragments_are_lawful(rows, &mut owned)
        && (owned.few || far_sets_have_one_owner(rows))
        && child_sets_are_larger(rows)
}

/// The sets that have an owner.
struct Owned {
    marks: Marks<{ NOTED / 64 }>,
    /// Whether there is a mark for every set.
    few: bool,
}

impl Owned {
    fn new(rows: &Rows<'_>) -> Self {
        let mut marks = Marks::new();
        marks.add(0);
        Owned { marks, few: rows.sets.len() <= NOTED }
    }

    /// Whether there is such a set, and it has no other owner.
    fn take(&mut self, rows: &Rows<'_>, set: u32) -> bool {
        is_row(rows.sets, set) && if self.few { self.marks.add(set) } else { set != 0 }
    }
}

fn selections_are_lawful(rows: &Rows<'_>, given: &Apart, owned: &mut Owned) -> bool {
    let condition_is_lawful =
        |word: u32| (word as usize) < rows.names.len() + condition::VARIABLE as usize;
    for &[kind, skip, include, _, name, key, first, count, set, attached] in rows.selections {
        let fits = match kind {
            selection_kind::FIELD => {
                is_row(rows.names, name)
                    && is_row(rows.names, key)
                    && is_row(rows.type_refs, attached)
                    && within(rows.given, first, count)
                    && given_are_apart(rows, given, first, count)
                    && (set == 0 || owned.take(rows, set))
            }
            selection_kind::SPREAD => is_row(rows.names, name),
            selection_kind::INLINE => is_row_or_none(rows.names, name) && owned.take(rows, set),
            _ => false,
        };
        if !fits || !condition_is_lawful(skip) || !condition_is_lawful(include) {
            return false;
        }
    }
    true
}

fn fragments_are_lawful(rows: &Rows<'_>, owned: &mut Owned) -> bool {
    let mut names = Names::new();
    rows.fragments.iter().all(|&[name, condition, set]| {
        is_row(rows.names, name)
            && names.add(name)
            && is_row(rows.names, condition)
            && owned.take(rows, set)
    })
}

/// The set below a selection, 0 for none.
fn child_set(selection: &[u32; width::SELECTIONS]) -> u32 {
    if selection[0] == selection_kind::SPREAD {
        0
    } else {
        selection[8]
    }
}

/// Where there are sets that have no mark: no set has two owners.
fn far_sets_have_one_owner(rows: &Rows<'_>) -> bool {
    let mut owned = [0; limit::SELECTIONS + limit::FRAGMENTS];
    let children = rows.selections.iter().map(child_set).filter(|set| *set != 0);
    let sets = children.chain(rows.fragments.iter().map(|row| row[2]));
    let mut count = 0;
    for (place, set) in owned.iter_mut().zip(sets) {
        *place = set;
        count += 1;
    }
    let owned = &mut owned[..count];
    owned.sort_unstable();
    owned.windows(2).all(|pair| pair[0] != pair[1])
}

/// Every range of selections is there, and a child set has a larger number than its parent. From the
/// last set on, a selection is looked at in the first set that has it: what is larger than that one is
/// larger than the others.
fn child_sets_are_larger(rows: &Rows<'_>) -> bool {
    let mut next = NextNew { skip: [0; limit::SELECTIONS + 1] };
    for (set, &[first, count]) in rows.sets.iter().enumerate().rev() {
        if !within(rows.selections, first, count) {
            return false;
        }
        let end = (first + count) as usize;
        let mut row = next.from(first as usize);
        while row < end {
            let child = child_set(&rows.selections[row]) as usize;
            if child != 0 && child <= set {
                return false;
            }
            row = next.after(row);
        }
    }
    true
}

/// Selections that were not looked at yet.
struct NextNew {
    /// 0 for one that was not, otherwise a later row: all between were.
    skip: [u16; limit::SELECTIONS + 1],
}

impl NextNew {
    /// The first from a row on. Every way that is gone is half as long the next time.
    fn from(&mut self, mut row: usize) -> usize {
        while self.skip[row] != 0 {
            let next = self.skip[row] as usize;
            if self.skip[next] != 0 {
                self.skip[row] = self.skip[next];
            }
            row = next;
        }
        row
    }

    /// The first after a row, which has been looked at now.
    fn after(&mut self, row: usize) -> usize {
        self.skip[row] = row as u16 + 1;
        self.from(row + 1)
    }
}
