//! The depth check.

use crate::code;
use std::collections::HashMap;
use tables::layout::{limit, DEPTH_FIELDS};
use tables::rows::SelectionKind;
use tables::{rules, Tables};

/// The depth from which a field is refused, and over which a fragment that is met again is.
const REFUSED: u32 = 3;

/// What a depth check answers: depth 0 unless the code is 0, place 0 unless it is 8.
#[derive(Debug, Clone, Copy, PartialEq, Eq)]
pub struct Depth {
    pub code: u32,
    pub depth: u32,
    pub place: u32,
}

pub fn depth(tables: &Tables) -> Depth {
    if rules::check(tables).is_err() {
        return Depth { code: code::RULE, depth: 0, place: 0 };
    }
    let mut walk = Walk { tables, rises: HashMap::new() };
    match walk.set(0, 1, 0) {
        Ok(depth) => Depth { code: code::ANSWERED, depth, place: 0 },
        Err(refused) => refused,
    }
}

struct Walk<'t> {
    tables: &'t Tables,
    /// How far each fragment that is through raised the depth.
    rises: HashMap<u32, u32>,
}

fn too_deep(place: u32) -> Depth {
    Depth { code: code::TOO_DEEP, depth: 0, place }
}

impl Walk<'_> {
    /// The depth that a set reaches which is the `open`th open one and stands at a depth.
    fn set(&mut self, set: u32, open: usize, depth: u32) -> Result<u32, Depth> {
        if open > limit::OPEN {
            return Err(Depth { code: code::LIMIT, depth: 0, place: 0 });
        }
        let mut deepest = depth;
        for row in self.tables.set(set).rows() {
            let selection = self.tables.selection(row);
            let reached = match selection.kind {
                SelectionKind::Inline { set, .. } => self.set(set, open + 1, depth)?,
                SelectionKind::Spread { fragment } => {
                    self.spread(fragment, selection.place, open, depth)?
                }
                SelectionKind::Field { name, set, .. } => {
                    let here = depth + u32::from(DEPTH_FIELDS.contains(&name));
                    if here > depth && here >= REFUSED {
                        return Err(too_deep(selection.place));
                    }
                    match set {
                        Some(set) => self.set(set, open + 1, here)?,
                        None => here,
                    }
                }
            };
            deepest = deepest.max(reached);
        }
        Ok(deepest)
    }

    fn spread(&mut self, name: u32, place: u32, open: usize, depth: u32) -> Result<u32, Depth> {
        let mut fragments = (0..self.tables.fragment_count()).map(|row| self.tables.fragment(row));
        let Some(fragment) = fragments.find(|fragment| fragment.name == name) else {
            return Ok(depth);
        };
        match self.rises.get(&name) {
            Some(rise) if depth + rise > REFUSED => Err(too_deep(place)),
            Some(_) => Ok(depth),
            None => {
                let reached = self.set(fragment.set, open + 1, depth)?;
                self.rises.insert(name, reached - depth);
                Ok(reached)
            }
        }
    }
}
