//! Runs, and what they leave in the buffers that they were lent.

use crate::{call, ladlehedge_run, ladlehedge_run_ordered, Refusal, Tables};
use std::fmt;

/// The answer of a run. It borrows both buffers, in which the answer stands, and the tables for their
/// names.
#[derive(Debug, Clone, Copy, PartialEq, Eq)]
pub struct Run<'a> {
    tables: Tables<'a>,
    text: &'a [u8],
    words: &'a [u32],
    records: u32,
}

impl<'a> Run<'a> {
    /// The data: compact JSON, `null` where the whole of it was given up.
    pub fn data(&self) -> &'a str {
        // Lawful tables have UTF-8 alone; this looks again, so as not to rest on it.
        std::str::from_utf8(self.text).expect("the text of a run is UTF-8")
    }

    /// The same as bytes.
    pub fn bytes(&self) -> &'a [u8] {
        self.text
    }

    /// The error records, in the order in which the errors came up.
    pub fn errors(&self) -> Errors<'a> {
        Errors { tables: self.tables, words: self.words, left: self.records }
    }

    /// The error records as they stand in their buffer, one behind the other.
    pub fn words(&self) -> &'a [u32] {
        self.words
    }
}

/// An error record.
#[derive(Debug, Clone, Copy, PartialEq, Eq)]
pub struct Record<'a> {
    /// What went wrong, 1 to 24.
    pub code: u32,
    /// Where in the document or the schema, as the tables have it.
    pub place: u32,
    /// Where in the data.
    pub path: Path<'a>,
}

/// As `1:f.1@300`: code, path, place.
impl fmt::Display for Record<'_> {
    fn fmt(&self, f: &mut fmt::Formatter<'_>) -> fmt::Result {
        write!(f, "{}:{}@{}", self.code, self.path, self.place)
    }
}

/// The error records of a run, one after the other.
#[derive(Debug, Clone)]
pub struct Errors<'a> {
    tables: Tables<'a>,
    words: &'a [u32],
    left: u32,
}

impl<'a> Iterator for Errors<'a> {
    type Item = Record<'a>;

    fn next(&mut self) -> Option<Record<'a>> {
        let [code, place, segments, ref rest @ ..] = *self.words else {
            return None;
        };
        let (path, words) = rest.split_at(2 * segments as usize);
        (self.words, self.left) = (words, self.left - 1);
        Some(Record { code, place, path: Path { tables: self.tables, words: path } })
    }

    fn size_hint(&self) -> (usize, Option<usize>) {
        (self.left as usize, Some(self.left as usize))
    }
}

impl ExactSizeIterator for Errors<'_> {}

/// A place in the data, from the root on.
#[derive(Debug, Clone, Copy, PartialEq, Eq)]
pub struct Path<'a> {
    tables: Tables<'a>,
    words: &'a [u32],
}

/// One step of a [`Path`].
#[derive(Debug, Clone, Copy, PartialEq, Eq, Hash)]
pub enum Segment<'a> {
    /// An entry of an object, by its response key.
    Key(&'a str),
    /// An item of a list, from 0 on.
    Index(u32),
}

impl<'a> Path<'a> {
    pub fn segments(&self) -> impl ExactSizeIterator<Item = Segment<'a>> + 'a {
        let tables = self.tables;
        self.words.chunks_exact(2).map(move |words| match words[0] {
            0 => Segment::Key(name(&tables, words[1])),
            _ => Segment::Index(words[1]),
        })
    }
}

/// As `f.1`.
impl fmt::Display for Path<'_> {
    fn fmt(&self, f: &mut fmt::Formatter<'_>) -> fmt::Result {
        for (number, segment) in self.segments().enumerate() {
            let dot = if number == 0 { "" } else { "." };
            match segment {
                Segment::Key(key) => write!(f, "{dot}{key}")?,
                Segment::Index(index) => write!(f, "{dot}{index}")?,
            }
        }
        Ok(())
    }
}

/// A name by its number.
fn name<'a>(tables: &Tables<'a>, number: u32) -> &'a str {
    let row = 2 * number as usize;
    let (start, length) = (tables.names[row] as usize, tables.names[row + 1] as usize);
    let text = &tables.pool[start..start + length];
    std::str::from_utf8(text).expect("a name of lawful tables is ASCII")
}

/// A run in document order, into a buffer for the data's text and one for error records: at most
/// 65,536 bytes and 16,384 words. It makes a table check first, so that need not be asked before.
///
/// Behind the answer both buffers are zeros. Where there is an error they are zeros altogether.
pub fn run<'a>(
    tables: &Tables<'a>,
    text: &'a mut [u8],
    errors: &'a mut [u32],
) -> Result<Run<'a>, Refusal> {
    let mut counts = Counts::unwritten();
    // SAFETY: the tables are borrowed, as `call` wants them. The buffers are borrowed for writing, so
    // that they are apart from each other and from the tables; they have values, and nobody else has
    // them. The last three pointers lead to numbers of this function's own, apart from each other.
    let code = unsafe {
        call!(
            ladlehedge_run,
            tables,
            text.as_mut_ptr(),
            text.len(),
            errors.as_mut_ptr(),
            errors.len(),
            &mut counts.bytes,
            &mut counts.words,
            &mut counts.records
        )
    };
    counts.answer(code, tables, text, errors)
}

/// A run in a given order: whenever a selection set has groups left, the next choice, modulo their
/// number, says which is taken; once the choices are used up, the first. At most 4,096 choices.
pub fn run_ordered<'a>(
    tables: &Tables<'a>,
    choices: &[u32],
    text: &'a mut [u8],
    errors: &'a mut [u32],
) -> Result<Run<'a>, Refusal> {
    let mut counts = Counts::unwritten();
    // SAFETY: as in `run`; the choices are borrowed as the tables are.
    let code = unsafe {
        call!(
            ladlehedge_run_ordered,
            tables,
            choices.as_ptr(),
            choices.len(),
            text.as_mut_ptr(),
            text.len(),
            errors.as_mut_ptr(),
            errors.len(),
            &mut counts.bytes,
            &mut counts.words,
            &mut counts.records
        )
    };
    counts.answer(code, tables, text, errors)
}

/// What a run writes beside its buffers.
struct Counts {
    bytes: u32,
    words: u32,
    records: u32,
}

impl Counts {
    /// All three are written whatever the code is: one that is not would show.
    fn unwritten() -> Self {
        Counts { bytes: u32::MAX, words: u32::MAX, records: u32::MAX }
    }

    fn answer<'a>(
        self,
        code: u32,
        tables: &Tables<'a>,
        text: &'a [u8],
        errors: &'a [u32],
    ) -> Result<Run<'a>, Refusal> {
        let Counts { bytes, words, records } = self;
        match (code, bytes, words, records) {
            (0, ..) => Ok(Run {
                tables: *tables,
                text: &text[..bytes as usize],
                words: &errors[..words as usize],
                records,
            }),
            (1, 0, 0, 0) => Err(Refusal::Unlawful),
            (2, 0, 0, 0) => Err(Refusal::AsksForSchema),
            (3, 0, 0, 0) => Err(Refusal::TooFar),
            (4, 0, 0, 0) => Err(Refusal::TooManyFields),
            (5, 0, 0, 0) => Err(Refusal::VariableInLiteral),
            (6, 0, 0, 0) => Err(Refusal::TextTooLong),
            (7, 0, 0, 0) => Err(Refusal::RecordsTooLong),
            answer => unreachable!("a run has no answer {answer:?}"),
        }
    }
}
