//! Runs through the static library, on small tables written by hand.

use ladlehedge::{run, run_ordered, Refusal, Run, Segment, Tables};

const POOL: &[u8] = b"__typenameIntFloatStringBooleanID__schema__typefieldsinterfaces\
    possibleTypesinputFieldsQueryfg";
const NAMES: &[u32] = &[
    0, 10, 10, 3, 13, 5, 18, 6, 24, 7, 31, 2, 33, 8, 41, 6, 47, 6, 53, 10, 63, 13, 76, 11, 87, 5,
    92, 1, 93, 1,
];
const INT: u32 = 1;
const SCHEMA: u32 = 6;
const QUERY: u32 = 12;
const F: u32 = 13;
const G: u32 = 14;

/// A field with a place, a name and an attached type.
const fn field(place: u32, name: u32, type_ref: u32) -> [u32; 10] {
    [0, 0, 0, place, name, name, 0, 0, 0, type_ref]
}

/// `type Query { f: [Int] g: Int }` and `{ f g }`. The answers are 42 and a string for `f`, an error
/// for `g`.
fn tables(selections: &[u32]) -> Tables<'_> {
    Tables {
        pool: POOL,
        names: NAMES,
        type_refs: &[0, 0, INT, 1, 0, 0],
        types: &[QUERY, 2, 0, 2, 0, 0, INT, 0, 0, 0, 0, 0],
        fields: &[F, 1, 0, 100, 0, 0, G, 0, 0, 101, 0, 0],
        sets: &[0, 2],
        selections,
        nodes: &[3, 42, 0, 0, 0, 6, 92, 1, 0, 0],
        answers: &[4, 0, QUERY, 1, 2, 3, F, 3, 2, 0, 1, G, 0, 0, 0, 2, 0, 0, 0, 0, 2, 0, 1, 0, 0],
        ..Tables::default()
    }
}

fn both_fields() -> Vec<u32> {
    [field(300, F, 1), field(301, G, 0)].concat()
}

const DATA: &str = r#"{"f":[42,null],"g":null}"#;

/// The error records, each on its own.
fn errors(run: &Run<'_>) -> Vec<String> {
    run.errors().map(|record| record.to_string()).collect()
}

#[test]
fn data_and_errors() {
    let selections = both_fields();
    let (mut text, mut words) = ([7; 64], [7; 32]);
    let answer = run(&tables(&selections), &mut text, &mut words).expect("it answers");
    assert_eq!(answer.data(), DATA);
    assert_eq!(answer.bytes(), DATA.as_bytes());
    assert_eq!(answer.words(), [15, 300, 2, 0, F, 1, 1, 1, 301, 1, 0, G]);
    assert_eq!(errors(&answer), ["15:f.1@300", "1:g@301"]);
    assert_eq!(answer.errors().len(), 2);
    let first = answer.errors().next().expect("there are two");
    assert_eq!((first.code, first.place), (15, 300));
    let path: Vec<Segment<'_>> = first.path.segments().collect();
    assert_eq!(path, [Segment::Key("f"), Segment::Index(1)]);
    let (bytes, count) = (answer.bytes().len(), answer.words().len());
    assert!(text[bytes..].iter().all(|byte| *byte == 0), "zeros behind the text");
    assert!(words[count..].iter().all(|word| *word == 0), "zeros behind the records");
}

#[test]
fn in_a_given_order() {
    let selections = both_fields();
    let (mut text, mut words) = ([7; 64], [7; 32]);
    let tables = tables(&selections);
    let answer = run_ordered(&tables, &[1], &mut text, &mut words).expect("it answers");
    assert_eq!(answer.data(), DATA);
    assert_eq!(errors(&answer), ["1:g@301", "15:f.1@300"]);
    // 2 of two groups is the first; without choices it is document order.
    for choices in [&[2][..], &[]] {
        let answer = run_ordered(&tables, choices, &mut text, &mut words).expect("it answers");
        assert_eq!(errors(&answer), ["15:f.1@300", "1:g@301"]);
    }
}

/// That a run is refused so, in both orders, and leaves zeros.
#[track_caller]
fn assert_refused(tables: &Tables<'_>, bytes: usize, words: usize, refusal: Refusal) {
    for ordered in [false, true] {
        let (mut text, mut errors) = (vec![7; bytes], vec![7; words]);
        let answer = if ordered {
            run_ordered(tables, &[5, 6], &mut text, &mut errors)
        } else {
            run(tables, &mut text, &mut errors)
        };
        assert_eq!(answer, Err(refusal));
        assert!(text.iter().all(|byte| *byte == 0) && errors.iter().all(|word| *word == 0));
    }
}

#[test]
fn refusals() {
    let selections = both_fields();
    let lawful = tables(&selections);
    assert_refused(&lawful, DATA.len() - 1, 12, Refusal::TextTooLong);
    assert_refused(&lawful, DATA.len(), 11, Refusal::RecordsTooLong);
    assert_refused(&lawful, 0, 0, Refusal::TextTooLong);
    assert_refused(&lawful, 65_537, 16_384, Refusal::Unlawful);
    assert_refused(&lawful, 65_536, 16_385, Refusal::Unlawful);
    assert_refused(&Tables { root: 1, ..lawful }, 64, 32, Refusal::Unlawful);
    assert_refused(&Tables::default(), 64, 32, Refusal::Unlawful);
    let asking = [field(300, SCHEMA, 1), field(301, G, 0)].concat();
    assert_refused(&tables(&asking), 64, 32, Refusal::AsksForSchema);
    let (mut text, mut errors) = ([7; 24], [7; 12]);
    assert!(run(&lawful, &mut text, &mut errors).is_ok(), "both buffers just fit");
    let too_many = run_ordered(&lawful, &[0; 4_097], &mut text, &mut errors);
    assert_eq!(too_many, Err(Refusal::Unlawful));
}

/// So many sets, each but the last of the field `f` with the next. The answer of `f` leads back to
/// itself.
fn levels(count: u32) -> (Vec<u32>, Vec<u32>) {
    let set_of = |set: u32| [0, 0, 0, 300, F, F, 0, 0, set, 0];
    let selections = (1..count).flat_map(set_of).collect();
    let sets = (0..count).flat_map(|set| [set, u32::from(set + 1 < count)]).collect();
    (sets, selections)
}

/// 32 segments are reached, a 33rd is not.
#[test]
fn paths_end() {
    let deep = |(sets, selections): &(Vec<u32>, Vec<u32>)| -> Result<String, Refusal> {
        let deep = Tables {
            type_refs: &[0, 0, QUERY],
            types: &[QUERY, 2, 0, 1, 0, 0],
            fields: &[F, 0, 0, 100, 0, 0],
            sets,
            answers: &[4, 0, QUERY, 1, 1, 4, F, QUERY, 1, 1],
            ..tables(selections)
        };
        let (mut text, mut errors) = (vec![7; 65_536], vec![7; 16_384]);
        run(&deep, &mut text, &mut errors).map(|answer| answer.data().to_string())
    };
    let reached = format!("{}{{}}{}", r#"{"f":"#.repeat(32), "}".repeat(32));
    assert_eq!(deep(&levels(33)), Ok(reached));
    assert_eq!(deep(&levels(34)), Err(Refusal::TooFar));
}
