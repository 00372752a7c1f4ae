//! Error records, as document 01 has them.

use crate::rows::Tables;

#[derive(Debug, Clone, PartialEq, Eq)]
pub struct ErrorRecord {
    pub code: u32,
    pub place: u32,
    pub path: Vec<Segment>,
}

#[derive(Debug, Clone, Copy, PartialEq, Eq)]
pub enum Segment {
    Name(u32),
    Index(u32),
}

impl ErrorRecord {
    /// The record as words: code, place, path length, two words a segment.
    pub fn words(&self) -> Vec<u32> {
        let mut words = vec![self.code, self.place, self.path.len() as u32];
        for segment in &self.path {
            words.extend(match segment {
                Segment::Name(name) => [0, *name],
                Segment::Index(index) => [1, *index],
            });
        }
        words
    }

    /// The record as document 01's cases write it, `1:f.1`.
    pub fn text(&self, tables: &Tables) -> String {
        let segments = self.path.iter().map(|segment| match segment {
            Segment::Name(name) => tables.name(*name).to_string(),
            Segment::Index(index) => index.to_string(),
        });
        format!("{}:{}", self.code, segments.collect::<Vec<_>>().join("."))
    }
}

/// A run's answer on one line, as document 01's cases write it; with `@` and the place of each
/// error on request.
pub fn line(tables: &Tables, data: &str, errors: &[ErrorRecord], with_places: bool) -> String {
    let mut line = data.to_string();
    for error in errors {
        line += " ";
        line += &error.text(tables);
        if with_places {
            line += &format!("@{}", error.place);
        }
    }
    line
}
