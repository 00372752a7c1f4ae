//! Error records, and the path at which they are written.

use crate::outcome::{Failure, FieldError, Outcome};
use tables::layout::limit;

/// The first word of a segment.
const NAME: u32 = 0;
const INDEX: u32 = 1;

/// The words of the records so far, in a lent buffer.
pub(crate) struct Records<'b> {
    words: &'b mut [u32],
    /// Behind the end where the records are longer than the buffer.
    end: usize,
    count: usize,
    path: [[u32; 2]; limit::OPEN],
    segments: usize,
}

impl<'b> Records<'b> {
    pub fn new(words: &'b mut [u32]) -> Self {
        Records { words, end: 0, count: 0, path: [[0; 2]; limit::OPEN], segments: 0 }
    }

    /// How many records, and their words; none where there is no room for them.
    pub fn counts(&self) -> Option<(usize, usize)> {
        (self.end <= self.words.len()).then_some((self.count, self.end))
    }

    /// Goes into a field.
    pub fn enter_field(&mut self, key: u16) -> Result<(), Failure> {
        self.enter([NAME, u32::from(key)])
    }

    /// Goes into a list; [`Records::at_item`] says at which item.
    pub fn enter_list(&mut self) -> Result<(), Failure> {
        self.enter([INDEX, 0])
    }

    fn enter(&mut self, segment: [u32; 2]) -> Result<(), Failure> {
        let place = self.path.get_mut(self.segments).ok_or(Failure::Stop(Outcome::TooFar))?;
        *place = segment;
        self.segments += 1;
        Ok(())
    }

    pub fn at_item(&mut self, index: usize) {
        self.path[self.segments - 1][1] = index as u32;
    }

    pub fn leave(&mut self) {
        self.segments -= 1;
    }

    /// Whether the path has room for one more segment.
    pub fn has_room(&self) -> bool {
        self.segments < limit::OPEN
    }

    /// Records an error at the path as it is.
    pub fn fail(&mut self, error: FieldError, place: u32) -> Failure {
        let path = self.path[..self.segments].as_flattened();
        let end = self.end + 3 + path.len();
        match self.words.get_mut(self.end..end) {
            Some([code, at, segments, words @ ..]) => {
                (*code, *at, *segments) = (error as u32, place, self.segments as u32);
                words.copy_from_slice(path);
                self.count += 1;
                self.end = end;
            }
            _ => self.end = self.words.len() + 1,
        }
        Failure::Up
    }
}
