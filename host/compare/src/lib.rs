//! Where the judges have to agree.
//!
//! The oracle and the reading agree wherever the oracle has an answer and the reading's code is 0
//! (in a depth check: 0 or 8); and where only one of them has an answer, the reading's code says
//! why. A run that is answered without errors is answered the same in every order. That a depth check
//! ends with code 3 only the reading says: nothing is compared there.
//!
//! [`sample`]: the oracle's answers to depth checks, recorded. [`runs`]: plain Rust's runs against the reading.

pub mod runs;
pub mod sample;

use oracle::judge::{self, Answered, CannotJudge};
use reading::{code, Lent};
use tables::{record, Tables};

/// What kind of case it was, or how the judges differ.
pub type Verdict = Result<String, String>;

/// Compares runs in document order with the largest buffers.
pub fn compare_runs(tables: &Tables) -> Verdict {
    let Some(read) = reading::run(tables, Lent::default()) else {
        return Ok("run: too much work".into());
    };
    let limited = matches!(read.code, code::LIMIT | code::COLLECTED | code::VARIABLE);
    let read_line =
        || format!("{} {}", read.code, record::line(tables, &read.data, &read.errors, true));
    match judge::run(tables) {
        Ok(Answered { data, errors }) => match read.code {
            code::ANSWERED if data == read.data && errors == read.errors => {
                let kind = if errors.is_empty() { "without errors" } else { "with errors" };
                Ok(format!("run: code 0, compared, {kind}"))
            }
            code::LIMIT | code::COLLECTED | code::TEXT_ROOM | code::ERROR_ROOM => {
                Ok(format!("run: code {}, which the Rust does not know", read.code))
            }
            _ => {
                let oracle = record::line(tables, &data, &errors, true);
                Err(format!("run\n  oracle  0 {oracle}\n  reading {}", read_line()))
            }
        },
        Err(CannotJudge::Work | CannotJudge::Size) => Ok("run: too much work".into()),
        Err(CannotJudge::NoCode(message)) if message.starts_with("float value overflow") => {
            Ok("run: a float literal that is no double".into())
        }
        Err(CannotJudge::Introspection) if read.code == code::INTROSPECTION => {
            Ok("run: code 2".into())
        }
        Err(_) if limited => Ok(format!("run: code {}, stopped", read.code)),
        Err(reason) => Err(format!("run\n  oracle  - {reason}\n  reading {}", read_line())),
    }
}

/// Compares the reading with itself: nothing fails, so nothing depends on the order.
pub fn compare_orders(tables: &Tables, choices: &[u32]) -> Verdict {
    let in_document_order = reading::run(tables, Lent::default());
    let Some(first) = in_document_order.filter(|run| run.code == 0 && run.errors.is_empty()) else {
        return Ok("order: has errors or no answer".into());
    };
    let second = reading::run(tables, Lent { choices, ..Lent::default() });
    if second.as_ref() == Some(&first) {
        Ok("order: compared".into())
    } else {
        Err(format!("order {choices:?}\n  {first:?}\n  {second:?}"))
    }
}

/// Compares depth checks.
pub fn compare_depths(tables: &Tables) -> Verdict {
    let read = reading::depth(tables);
    let asked = judge::depth(tables);
    match asked {
        Ok(answer) if read == answer.into() => Ok(format!("depth: code {}, compared", read.code)),
        // The oracle was not asked, because the reading said 3.
        Err(CannotJudge::OpenSets) => {
            Ok(format!("depth: code {}, by the reading alone", read.code))
        }
        Err(CannotJudge::Size) => Ok("depth: too much work".into()),
        _ => Err(format!("depth\n  oracle  {asked:?}\n  reading {read:?}")),
    }
}
