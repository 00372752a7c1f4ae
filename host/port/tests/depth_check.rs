//! The port's depth check and the judges agree on some seeds; `port_depth` asks about as many as one
//! likes. Document 01's two examples, and both sides of each limit.

use port::depth_check;
use port::depths::{depth_checks, depth_checks_of_runs, Judge, Tally};
use reading::Depth;
use tables::{notation, Tables};

#[test]
fn agrees_with_the_judges() {
    let tally = depth_checks(3_000_000..3_002_000);
    println!("{:?}", tally.answers);
    assert_eq!(tally.differences, Vec::<String>::new());
    assert_eq!(tally.asked(), 2_000);
    let by_oracle = tally.judged(Judge::Oracle);
    assert!(by_oracle > 1_600, "the oracle has few answers: {by_oracle}");
    for (code, depth) in [(0, 0), (0, 1), (0, 2), (3, 0), (8, 0)] {
        let count = tally.answered(code, depth);
        assert!(count > 100, "few have code {code} and depth {depth}: {count}");
    }
    // Code 3, and here nothing else, is judged by the reading alone.
    assert_eq!(tally.judged(Judge::ReadingAlone), tally.answered(3, 0));
}

#[test]
fn agrees_with_the_judges_on_tables_made_for_runs() {
    let tally = depth_checks_of_runs(3_000_000..3_000_300);
    println!("{:?}", tally.answers);
    assert_eq!(tally.differences, Vec::<String>::new());
    assert_eq!(tally.asked(), 600);
    assert!(tally.answered(1, 0) > 100, "few are spoiled: {}", tally.answered(1, 0));
    assert_eq!(tally.judged(Judge::RulesAlone), tally.answered(1, 0));
}

/// Demands the answer to a document; the judges have to agree.
fn gives(document: &str, code: u32, depth: u32, place: u32) {
    let tables = notation::tables("type Q { a: Int }", document, "", "{}");
    assert_eq!(depth_check(&tables), Depth { code, depth, place }, "{document}");
    let mut tally = Tally::default();
    tally.compare(&tables, || document.into());
    assert_eq!(tally.differences, Vec::<String>::new());
}

#[test]
fn document_01() {
    let f = "fragment F on Q { fields'20 }";
    gives(&format!("{{ ...F'1 fields'2 {{ interfaces'3 {{ ...F'4 }} }} }} {f}"), 0, 2, 0);
    gives(&format!("{{ fields'2 {{ interfaces'3 {{ ...F'4 }} }} ...F'1 }} {f}"), 8, 0, 20);
}

#[test]
fn refused_at_depth_3() {
    gives("{ a'1 }", 0, 0, 0);
    gives("{ fields'1 { a'2 } }", 0, 1, 0);
    gives("{ fields'1 { interfaces'2 { a'3 } } }", 0, 2, 0);
    gives("{ fields'1 { interfaces'2 { possibleTypes'3 } } }", 8, 0, 3);
    gives("{ fields'1 { a'2 { interfaces'3 { ... { inputFields'4 { a'5 } } } } } }", 8, 0, 4);
}

#[test]
fn a_fragment_met_again_is_refused_over_3() {
    let g = "fragment G on Q { fields'20 { fields'21 } }";
    gives(&format!("{{ ...G'1 fields'2 {{ ...G'3 }} }} {g}"), 0, 2, 0);
    gives(&format!("{{ ...G'1 fields'2 {{ fields'3 {{ ...G'4 }} }} }} {g}"), 8, 0, 4);
    // A rise of 1 at depth 2 is 3 and not over it; met first there, its field is refused.
    let f = "fragment F on Q { fields'20 }";
    gives(&format!("{{ ...F'1 fields'2 {{ fields'3 {{ ...F'4 }} }} }} {f}"), 0, 2, 0);
    gives(&format!("{{ fields'2 {{ fields'3 {{ ...F'4 }} }} }} {f}"), 8, 0, 20);
}

#[test]
fn fragments_that_are_not_there_or_within_themselves() {
    gives("{ ...None'1 fields'2 }", 0, 1, 0);
    gives("{ ...F'1 } fragment F on Q { ...F'2 }", 3, 0, 0);
    gives("{ ...F'1 } fragment F on Q { fields'20 { ...F'2 } }", 8, 0, 20);
}

/// So many sets within one another, with something in the last.
fn nested(levels: usize, last: &str) -> String {
    format!("{}{last}{}", "{ ... ".repeat(levels - 1) + "{ ", " }".repeat(levels))
}

#[test]
fn sets_open_at_once() {
    gives(&nested(32, "fields'1"), 0, 1, 0);
    gives(&nested(33, "fields'1"), 3, 0, 0);
    gives(&nested(32, "a'1 {}"), 3, 0, 0);
    let f = "fragment F on Q { a }";
    gives(&format!("{} {f}", nested(31, "...F'1")), 0, 0, 0);
    gives(&format!("{} {f}", nested(32, "...F'1")), 3, 0, 0);
}

/// As many fragments as there may be; the last one's rise is remembered like any other's.
#[test]
fn sixty_four_fragments() {
    let fragments: Vec<String> = (0..64)
        .map(|number| format!("fragment F{number} on Q {{ fields {{ fields }} }}"))
        .collect();
    let fragments = fragments.join(" ");
    gives(&format!("{{ ...F63'1 fields'2 {{ fields'3 {{ ...F63'4 }} }} }} {fragments}"), 8, 0, 4);
    gives(&format!("{{ ...F63'1 fields'2 {{ ...F63'3 }} }} {fragments}"), 0, 2, 0);
}

/// Nothing at all can be lent; an empty vector has a pointer as well.
#[test]
fn empty_tables_are_unlawful() {
    assert_eq!(depth_check(&Tables::default()), Depth { code: 1, depth: 0, place: 0 });
}
