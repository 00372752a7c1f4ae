//! The cases that are stored for the gate: every stored answer is what the judges say now.

use compare::runs::is_too_large;
use compare::sample::{answer_line, cases, depth_sample, run_line, Asked, Case};
use oracle::judge::{self, Answered, CannotJudge};
use reading::{code, Answer, Depth, Lent};
use std::fs;
use std::path::Path;
use tables::{file, Tables};

/// A file of the crate `replay`.
fn stored(name: &str) -> String {
    let folder = Path::new(env!("CARGO_MANIFEST_DIR")).join("../../crates/replay");
    fs::read_to_string(folder.join(name)).unwrap_or_else(|error| panic!("replay's {name}: {error}"))
}

/// The line of the oracle, where it has an answer, and the line of the reading.
fn judged(case: Case) -> (Option<String>, String) {
    let label = case.label;
    let tables = file::read(&case.text).unwrap_or_else(|fault| panic!("{label}: {fault:?}"));
    if let Some(asked) = &case.run {
        return judged_run(label, &tables, asked);
    }
    let read = reading::depth(&tables);
    let by_oracle = match judge::depth(&tables) {
        Ok(answer) => Some(answer_line(label, Depth::from(answer))),
        Err(CannotJudge::OpenSets | CannotJudge::Rule(_)) => None,
        Err(reason) => panic!("{label}: {reason}"),
    };
    (by_oracle, answer_line(label, read))
}

/// The lines of a run. The oracle is asked where it can be: in document order, where the reading's code is 0.
fn judged_run(label: &str, tables: &Tables, asked: &Asked) -> (Option<String>, String) {
    let Asked { text_bytes, error_words, choices } = asked;
    let lent = Lent { choices, text_bytes: *text_bytes, error_words: *error_words };
    if is_too_large(lent) {
        return (None, format!("{label}: {} -", code::RULE));
    }
    let read = reading::run(tables, lent).unwrap_or_else(|| panic!("{label}: too much work"));
    let line = run_line(label, tables, &read);
    if !choices.is_empty() || read.code != code::ANSWERED {
        return (None, line);
    }
    let by_oracle = judge::run(tables).ok().map(|Answered { data, errors }| {
        run_line(label, tables, &Answer { code: code::ANSWERED, data, errors })
    });
    (by_oracle, line)
}

/// What came of the cases of one file.
#[derive(Debug, Default, PartialEq, Eq)]
struct Judged {
    by_oracle: usize,
    by_reading_alone: usize,
}

/// Demands of the next stored answers that they are the judges' to the cases of this file.
fn ask<'a>(file: &str, answers: &mut impl Iterator<Item = &'a str>) -> Judged {
    let mut asked = Judged::default();
    for case in cases(&stored(&format!("data/{file}"))) {
        let answer =
            answers.next().unwrap_or_else(|| panic!("{file}: no answer to {}", case.label));
        let (by_oracle, by_reading) = judged(case);
        match by_oracle {
            Some(line) => {
                assert_eq!(answer, line, "{file}, by the oracle");
                asked.by_oracle += 1;
            }
            None => asked.by_reading_alone += 1,
        }
        assert_eq!(answer, by_reading, "{file}, by the reading");
    }
    println!("{file}: {asked:?}");
    asked
}

#[test]
fn stored_answers_are_what_the_judges_say() {
    // The files in the order in which the program is given them.
    let files = stored("args");
    let files: Vec<&str> = files.lines().collect();
    assert_eq!(files, ["worked.cases", "by-hand.cases", "oracle.cases"]);
    let answers = stored("stdout");
    let mut answers = answers.lines();
    let worked = ask(files[0], &mut answers);
    // 218 runs and 29 depth checks; the Rust knows no choices, no buffers and no limits.
    assert_eq!(worked, Judged { by_oracle: 183, by_reading_alone: 64 });
    let by_hand = ask(files[1], &mut answers);
    assert_eq!(by_hand, Judged { by_oracle: 8, by_reading_alone: 2 });
    let recorded = ask(files[2], &mut answers);
    assert_eq!(answers.next(), None, "an answer without a case");
    assert_eq!(recorded.by_reading_alone, 0, "only the oracle's answers are recorded");
    assert!(recorded.by_oracle > 600, "few are recorded: {recorded:?}");
}

/// What `record` writes has its labels in order, and every answer often.
#[test]
fn what_is_recorded() {
    let sample = depth_sample(0..200);
    let lines: Vec<String> =
        cases(&sample.cases).into_iter().filter_map(|case| judged(case).0).collect();
    assert_eq!(sample.answers.lines().collect::<Vec<_>>(), lines);
    assert!(lines.len() > 150, "the oracle has few answers: {} of 200", lines.len());
    for answer in [(0, 0), (0, 1), (0, 2), (8, 0)] {
        assert!(sample.counts.get(&answer) > Some(&20), "few have the answer {answer:?}");
    }
}

#[test]
fn lines_of_answers() {
    let line = |code, depth, place| answer_line("a case", Depth { code, depth, place });
    assert_eq!(line(code::ANSWERED, 2, 0), "a case: 0 depth 2");
    assert_eq!(line(code::TOO_DEEP, 0, 504), "a case: 8 place 504");
    assert_eq!(line(code::LIMIT, 0, 0), "a case: 3");
}

#[test]
fn cases_of_a_text() {
    let text = "@ one\n[names]\n@ two 2\n? 7 5 1 0\n# @ none\n";
    let one = Case { label: "one", run: None, text: "[names]".into() };
    let asked = Asked { text_bytes: 7, error_words: 5, choices: vec![1, 0] };
    let two = Case { label: "two 2", run: Some(asked), text: "# @ none\n".into() };
    assert_eq!(cases(text), [one, two]);
    let behind = Case { label: "one", run: None, text: "[root]\n0\n[names]".into() };
    assert_eq!(cases("[root]\n0\n@ one\n[names]"), [behind]);
    assert_eq!(cases(""), []);
}
