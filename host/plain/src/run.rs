//! A run: the walk, then what lies past the answer becomes zero.

use crate::execution::Walk;
use crate::outcome::{Failure, Outcome};
use crate::plans::Store;
use crate::records::Records;
use crate::request::Request;
use crate::rows::Rows;
use crate::text::Text;
use tables::layout::{selection_kind, SCHEMA, TYPE};

/// The largest that may be lent.
const TEXT_BYTES: usize = 65_536;
const ERROR_WORDS: usize = 16_384;
const CHOICES: usize = 4_096;

/// What a run hands back besides the buffers. The counts are 0 unless the code is.
#[derive(Debug, Clone, Copy, PartialEq, Eq, Default)]
pub struct Reported {
    pub code: u32,
    /// Bytes of the text.
    pub bytes: usize,
    /// Words of the error records.
    pub words: usize,
    pub records: usize,
}

/// A run over tables, where these are lawful.
pub(crate) fn run(
    rows: Option<Rows<'_>>,
    choices: &[u32],
    text: &mut [u8],
    errors: &mut [u32],
) -> Reported {
    let reported = match rows {
        Some(rows) if text.len() <= TEXT_BYTES && errors.len() <= ERROR_WORDS => {
            if choices.len() > CHOICES {
                Err(Outcome::Unlawful)
            } else if asks_for_schema(&rows) {
                Err(Outcome::AsksForSchema)
            } else {
                execute(rows, choices, text, errors)
            }
        }
        _ => Err(Outcome::Unlawful),
    };
    let reported =
        reported.unwrap_or_else(|outcome| Reported { code: outcome as u32, ..Reported::default() });
    text[reported.bytes..].fill(0);
    errors[reported.words..].fill(0);
    reported
}

fn asks_for_schema(rows: &Rows<'_>) -> bool {
    let asks = |kind, name| kind == selection_kind::FIELD && matches!(name, SCHEMA | TYPE);
    rows.selections.iter().any(|row| asks(row[0], row[4]))
}

/// Selections up to which a small store is likely to do: it is sooner zeroed.
const FEW: usize = 16;

fn execute(
    rows: Rows<'_>,
    choices: &[u32],
    text: &mut [u8],
    errors: &mut [u32],
) -> Result<Reported, Outcome> {
    if rows.selections.len() <= FEW {
        execute_with(&mut Store::<32, 32, 16>::new(), rows, choices, text, errors)
    } else {
        execute_with(&mut Store::<512, 640, 128>::new(), rows, choices, text, errors)
    }
}

fn execute_with<const GROUPS: usize, const FIELDS: usize, const PLANS: usize>(
    store: &mut Store<GROUPS, FIELDS, PLANS>,
    rows: Rows<'_>,
    choices: &[u32],
    text: &mut [u8],
    errors: &mut [u32],
) -> Result<Reported, Outcome> {
    let request = Request::new(rows);
    let (text, records) = (Text::new(text), Records::new(errors));
    let mut walk = Walk { request, text, records, choices };
    match walk.execute_operation(&mut store.lent()) {
        Ok(_) => {}
        Err(Failure::Up | Failure::Answer) => {
            walk.text.back_to(0);
            walk.text.put_null();
        }
        Err(Failure::Stop(outcome)) => return Err(outcome),
    }
    if walk.text.is_too_long() {
        return Err(Outcome::TextTooLong);
    }
    let (records, words) = walk.records.counts().ok_or(Outcome::RecordsTooLong)?;
    let code = Outcome::Answered as u32;
    Ok(Reported { code, bytes: walk.text.end(), words, records })
}

#[cfg(test)]
mod tests {
    use super::*;

    /// Where plans have no room at all, every object has one to itself.
    #[test]
    fn without_room_for_plans() {
        let mut answered = 0;
        for seed in 7_000_000..7_003_000 {
            let tables = generate::tables(seed);
            let Some(rows) = crate::lawful(&tables) else { continue };
            if asks_for_schema(&rows) {
                continue;
            }
            let choices = if seed.is_multiple_of(2) { generate::choices(seed) } else { Vec::new() };
            let (mut text, mut errors) = (vec![1; TEXT_BYTES], vec![1; ERROR_WORDS]);
            let reported = super::run(Some(rows), &choices, &mut text, &mut errors);
            let (mut other_text, mut other_errors) = (vec![2; TEXT_BYTES], vec![2; ERROR_WORDS]);
            let store = &mut Store::<0, 0, 0>::new();
            let rows = crate::lawful(&tables).expect("they were lawful");
            let other = execute_with(store, rows, &choices, &mut other_text, &mut other_errors);
            match other {
                Ok(other) => {
                    assert_eq!(reported, other, "seed {seed}");
                    assert_eq!(text[..other.bytes], other_text[..other.bytes], "seed {seed}");
                    assert_eq!(errors[..other.words], other_errors[..other.words], "seed {seed}");
                    answered += 1;
                }
                Err(outcome) => assert_eq!(reported.code, outcome as u32, "seed {seed}"),
            }
        }
        assert!(answered > 1_000, "few are answered: {answered}");
    }
}
