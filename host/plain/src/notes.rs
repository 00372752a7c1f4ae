//! What is noted of rows while a table is gone through once, so that every range of them is answered by
//! one look, however many ranges overlap.

use tables::layout::limit;

/// More than any row of these tables, and any end of a range.
const NEVER: u16 = u16::MAX;

/// The most rows of which notes are kept.
pub(crate) const NOTED: usize = limit::NODES;

/// For each row the first one behind it that repeats something: the rows from it up to there are apart.
pub(crate) struct Apart {
    until: [u16; NOTED],
}

impl Apart {
    pub fn new() -> Self {
        Apart { until: [NEVER; NOTED] }
    }

    /// Whether the rows of a range, all of which are noted, have no two alike.
    pub fn has(&self, first: u32, count: u32) -> bool {
        count < 2 || u32::from(self.until[first as usize]) >= first + count
    }
}

/// Notes of a table while it is gone through from its last row to its first.
pub(crate) struct Noting<'a> {
    apart: &'a mut Apart,
    until: u16,
}

impl<'a> Noting<'a> {
    pub fn new(apart: &'a mut Apart) -> Self {
        Noting { apart, until: NEVER }
    }

    /// Notes a row, and which row behind it is the next like it.
    pub fn note(&mut self, row: usize, next: u16) {
        self.until = self.until.min(next);
        self.apart.until[row] = self.until;
    }

    /// Whether the rows of a range, all of which lie behind, have no two alike.
    pub fn has(&self, first: u32, count: u32) -> bool {
        self.apart.has(first, count)
    }
}

/// Notes of a table in which each row has a name.
pub(crate) struct NotingNames<'a> {
    noting: Noting<'a>,
    /// For each name the row that had it last.
    last: [u16; limit::NAMES],
}

impl<'a> NotingNames<'a> {
    pub fn new(apart: &'a mut Apart) -> Self {
        NotingNames { noting: Noting::new(apart), last: [NEVER; limit::NAMES] }
    }

    pub fn note(&mut self, row: usize, name: u32) {
        let last = &mut self.last[name as usize];
        self.noting.note(row, std::mem::replace(last, row as u16));
    }

    pub fn has(&self, first: u32, count: u32) -> bool {
        self.noting.has(first, count)
    }
}

/// For each literal the first row from it on in which a variable stands.
pub(crate) struct Closed {
    open: [u16; limit::LITERALS + 1],
}

impl Closed {
    pub fn new() -> Self {
        Closed { open: [NEVER; limit::LITERALS + 1] }
    }

    /// Notes a literal; those behind it are noted already.
    pub fn note(&mut self, row: usize, closed: bool) {
        self.open[row] = if closed { self.open[row + 1] } else { row as u16 };
    }

    /// Whether no variable stands in the literals of a range.
    pub fn has(&self, first: u32, count: u32) -> bool {
        u32::from(self.open[first as usize]) >= first + count
    }

    /// Whether no variable stands in a default: 0 for none, or one more than a row.
    pub fn has_default(&self, word: u32) -> bool {
        word == 0 || self.has(word - 1, 1)
    }
}

/// A set of numbers below 64 * `WORDS`.
pub(crate) struct Marks<const WORDS: usize>([u64; WORDS]);

/// A set of names.
pub(crate) type Names = Marks<{ limit::NAMES / 64 }>;

impl<const WORDS: usize> Marks<WORDS> {
    pub fn new() -> Self {
        Marks([0; WORDS])
    }

    /// Puts a number in; false where it is there already.
    pub fn add(&mut self, number: u32) -> bool {
        let (word, bit) = (&mut self.0[number as usize / 64], 1 << (number % 64));
        let is_new = *word & bit == 0;
        *word |= bit;
        is_new
    }
}

/// Rows met so far, by the hash of what they hold. There are more slots than rows, a power of two.
pub(crate) struct Met<const SLOTS: usize> {
    /// 0, or the upper bits of a hash's lower half and, below them, one more than a row.
    slots: [u32; SLOTS],
}

/// The bits of a slot that have the row.
const ROW: u32 = 0x1fff;

impl<const SLOTS: usize> Met<SLOTS> {
    pub fn new() -> Self {
        Met { slots: [0; SLOTS] }
    }

    /// The row met last that is the same as this one; this one takes its place.
    pub fn meet(&mut self, row: usize, hash: u64, same: impl Fn(usize) -> bool) -> Option<usize> {
        let tag = hash as u32 & !ROW;
        let mut slot = (hash >> (64 - SLOTS.trailing_zeros())) as usize;
        loop {
            let held = &mut self.slots[slot % SLOTS];
            let other = (*held & ROW) as usize;
            if other == 0 || (*held & !ROW == tag && same(other - 1)) {
                *held = tag | (row as u32 + 1);
                return other.checked_sub(1);
            }
            slot += 1;
        }
    }
}
