//! The entries through the static library, on small tables written by hand.

use ladlehedge::{depth_check, table_check, Refusal, Tables};

const POOL: &[u8] = b"__typenameIntFloatStringBooleanID__schema__typefieldsinterfaces\
    possibleTypesinputFieldsQuery";
const NAMES: &[u32] =
    &[0, 10, 10, 3, 13, 5, 18, 6, 24, 7, 31, 2, 33, 8, 41, 6, 47, 6, 53, 10, 63, 13, 76, 11, 87, 5];
const FIELDS: u32 = 8;
const QUERY: u32 = 12;
const INLINE: u32 = 2;

/// A schema with the object type `Query`, and an operation of these sets and selections.
fn tables<'a>(sets: &'a [u32], selections: &'a [u32]) -> Tables<'a> {
    Tables {
        pool: POOL,
        names: NAMES,
        type_refs: &[0, 0, QUERY],
        types: &[QUERY, 2, 0, 0, 0, 0],
        sets,
        selections,
        answers: &[4, 0, QUERY, 0, 0],
        ..Tables::default()
    }
}

/// The counted field `fields` with a place and a child set.
fn field(place: u32, set: u32) -> [u32; 10] {
    [0, 0, 0, place, FIELDS, FIELDS, 0, 0, set, 0]
}

/// So many sets within one another: each but the last has one inline fragment with the next.
fn nested(count: u32) -> (Vec<u32>, Vec<u32>) {
    let selections = (1..count).flat_map(|set| [INLINE, 0, 0, 0, 0, 0, 0, 0, set, 0]).collect();
    let sets = (0..count).flat_map(|set| [set, u32::from(set + 1 < count)]).collect();
    (sets, selections)
}

#[test]
fn lawful_and_spoiled() {
    let lawful = tables(&[0, 0], &[]);
    assert_eq!(table_check(&lawful), Ok(()));
    assert_eq!(depth_check(&lawful), Ok(0));
    let spoiled = Tables { answers: &[0, 0, 0, 0, 0], ..lawful };
    assert_eq!(table_check(&spoiled), Err(Refusal::Unlawful));
    assert_eq!(depth_check(&spoiled), Err(Refusal::Unlawful));
}

#[test]
fn depth_and_place() {
    let mut selections = [field(300, 1), field(301, 0), field(302, 0)].concat();
    let sets = [0, 1, 1, 1, 2, 1];
    assert_eq!(depth_check(&tables(&sets, &selections)), Ok(2));
    selections[18] = 2;
    let too_deep = depth_check(&tables(&sets, &selections));
    assert_eq!(too_deep, Err(Refusal::TooDeep { place: 302 }));
}

#[test]
fn open_sets() {
    let (sets, selections) = nested(32);
    assert_eq!(depth_check(&tables(&sets, &selections)), Ok(0));
    let (sets, selections) = nested(33);
    assert_eq!(table_check(&tables(&sets, &selections)), Ok(()));
    assert_eq!(depth_check(&tables(&sets, &selections)), Err(Refusal::TooFar));
}

/// An empty slice has a pointer as well.
#[test]
fn nothing_can_be_lent() {
    assert_eq!(table_check(&Tables::default()), Err(Refusal::Unlawful));
    assert_eq!(depth_check(&Tables::default()), Err(Refusal::Unlawful));
}

#[test]
fn in_order_is_by_name() {
    let words: Vec<[u32; 1]> = (0..14).map(|number| [number]).collect();
    let words: [&[u32]; 14] = std::array::from_fn(|number| &words[number][..]);
    let by_name = Tables {
        pool: b"p",
        names: &[0],
        type_refs: &[1],
        types: &[2],
        members: &[3],
        fields: &[4],
        arguments: &[5],
        sets: &[6],
        selections: &[7],
        given: &[8],
        fragments: &[9],
        nodes: &[10],
        literals: &[11],
        variables: &[12],
        answers: &[13],
        root: 14,
    };
    assert_eq!(Tables::in_order(b"p", words, 14), by_name);
}

#[test]
fn refusals_say_what_they_are() {
    let all = [Refusal::Unlawful, Refusal::TooFar, Refusal::TooDeep { place: 7 }];
    assert_eq!(all.map(Refusal::code), [1, 3, 8]);
    assert_eq!(all[2].to_string(), "too deep, at place 7");
}
